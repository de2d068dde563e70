//! Where a register is kept, and the names beside it.

use std::ffi::OsStr;
use std::os::unix::ffi::OsStrExt;
use std::path::PathBuf;

use crate::arguments::STANDARD;
use crate::end::Trouble;
use crate::text::{quoted, shown};

/// The end of a lock's name.
const LOCK: &[u8] = b".lock";
/// The end of the name of a file that is to become the register.
const NEW: &[u8] = b".lampsickle-new";

#[derive(Debug)]
pub struct Paths {
    pub file: PathBuf,
    pub folder: PathBuf,
    /// What is locked during a change. It stays: a lock that is removed is none.
    pub lock: PathBuf,
}

impl Paths {
    /// The paths of a file that is named on the command line.
    pub fn of(word: &[u8]) -> Result<Self, Trouble> {
        let start = word.iter().rposition(|byte| *byte == b'/').map_or(0, |slash| slash + 1);
        let (folder, name) = word.split_at(start);
        let why = match name {
            _ if word == STANDARD => "a register is kept in a file, not on standard input; ./- is a file",
            b"" | b"." | b".." => "this names a directory, or nothing",
            _ if name.ends_with(LOCK) => "names that end so are those of the locks beside registers",
            _ if name.ends_with(NEW) => "names that end so are those of registers not yet in their place",
            _ => {
                let folder = if folder.is_empty() { b"." } else { folder };
                return Ok(Self { file: path(word), folder: path(folder), lock: path(&[word, LOCK].concat()) });
            }
        };
        Err(Trouble::usage(format!("register: {}: {why}", quoted(word))))
    }

    /// A name for a file that is to become the register. Process and count make it one
    /// that no other call uses.
    pub fn fresh(&self, count: usize) -> PathBuf {
        let between = format!(".{}-{count}", std::process::id());
        path(&[self.file.as_os_str().as_bytes(), between.as_bytes(), NEW].concat())
    }

    /// The file as it was named, to be shown.
    pub fn shown(&self) -> String {
        shown(self.file.as_os_str().as_bytes())
    }
}

fn path(bytes: &[u8]) -> PathBuf {
    OsStr::from_bytes(bytes).into()
}

#[cfg(test)]
mod tests {
    use super::*;

    #[test]
    fn names() {
        for (word, folder) in [("moves", "."), ("./-", "./"), ("a/moves", "a/"), ("/moves", "/"), ("../b//m", "../b//")]
        {
            let paths = Paths::of(word.as_bytes()).ok().expect("a file");
            assert_eq!((paths.file, paths.folder), (word.into(), folder.into()));
            assert_eq!(paths.lock, PathBuf::from(format!("{word}.lock")));
        }
        for word in ["", "-", ".", "..", "a/", "a/.", "a/..", "/", "moves.lock", "a/moves.1-0.lampsickle-new"] {
            assert!(Paths::of(word.as_bytes()).is_err(), "{word}");
        }
    }
}
