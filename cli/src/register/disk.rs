//! The steps of replacing a file, on a real disk.

use std::ffi::{c_char, c_int, c_uint, CString};
use std::fs::{self, File, Metadata, OpenOptions, Permissions};
use std::io::{self, ErrorKind, Write};
use std::os::unix::ffi::OsStrExt;
use std::os::unix::fs::{fchown, MetadataExt, OpenOptionsExt, PermissionsExt};
use std::path::{Path, PathBuf};

use super::paths::Paths;
use super::replace::{Disk, Step};

/// How many names are tried for a new file; each that is taken was left by a crash.
const NAMES: usize = 1_000;

/// Permissions of a new register, of which the system takes away what the user's mask says.
const MODE: u32 = 0o666;
/// Permissions of a file that is to replace another, until it has those of that one.
const CLOSED: u32 = 0o600;
/// The part of a mode that is permissions.
const PERMISSIONS: u32 = 0o7777;

/// A new file beside a register's.
pub struct Beside<'a> {
    paths: &'a Paths,
    /// What is replaced, where something is.
    old: Option<Metadata>,
    folder: Option<File>,
    fresh: Option<(PathBuf, File)>,
}

impl<'a> Beside<'a> {
    /// For a register where there is none yet.
    pub fn new(paths: &'a Paths) -> Self {
        Self { paths, old: None, folder: None, fresh: None }
    }

    /// For one that replaces another.
    pub fn over(paths: &'a Paths, old: Metadata) -> Self {
        Self { old: Some(old), ..Self::new(paths) }
    }

    fn fresh(&mut self) -> io::Result<&mut (PathBuf, File)> {
        self.fresh.as_mut().ok_or_else(|| io::Error::other("no file was made"))
    }

    fn make(&mut self) -> io::Result<()> {
        let mode = if self.old.is_some() { CLOSED } else { MODE };
        for count in 0..NAMES {
            let path = self.paths.fresh(count);
            match OpenOptions::new().write(true).create_new(true).mode(mode).open(&path) {
                Ok(file) => {
                    self.fresh = Some((path, file));
                    return Ok(());
                }
                Err(error) if error.kind() == ErrorKind::AlreadyExists => {}
                Err(error) => return Err(error),
            }
        }
        Err(io::Error::other("every name for it is taken"))
    }

    fn resemble(&mut self) -> io::Result<()> {
        let Some(old) = self.old.clone() else {
            return Ok(());
        };
        let (_, file) = self.fresh()?;
        let new = file.metadata()?;
        if (new.uid(), new.gid()) != (old.uid(), old.gid()) {
            fchown(&*file, Some(old.uid()), Some(old.gid()))?;
        }
        // Behind the owner, whose change may take permissions away.
        file.set_permissions(Permissions::from_mode(old.mode() & PERMISSIONS))
    }

    fn rename(&mut self) -> io::Result<()> {
        let (replaces, to) = (self.old.is_some(), self.paths.file.clone());
        let (from, _) = self.fresh()?;
        match replaces {
            true => fs::rename(from, to),
            false => rename_new(from, &to),
        }
    }
}

impl Disk for Beside<'_> {
    fn take(&mut self, step: Step, bytes: &[u8]) -> io::Result<()> {
        match step {
            Step::OpenFolder => self.folder = Some(File::open(&self.paths.folder)?),
            Step::Make => self.make()?,
            Step::Resemble => self.resemble()?,
            Step::Write => self.fresh()?.1.write_all(bytes)?,
            Step::Settle => self.fresh()?.1.sync_all()?,
            Step::Rename => self.rename()?,
            Step::SettleFolder => match &self.folder {
                Some(folder) => folder.sync_all()?,
                None => return Err(io::Error::other("the directory wasn't opened")),
            },
        }
        Ok(())
    }

    fn discard(&mut self) {
        if let Some((path, _)) = self.fresh.take() {
            // One that stays does no harm.
            let _ = fs::remove_file(path);
        }
    }
}

/// On Linux: the names are taken from the working directory (`AT_FDCWD`), and nothing is
/// replaced (`RENAME_NOREPLACE`).
const HERE: c_int = -100;
const NOTHING_REPLACED: c_uint = 1;

extern "C" {
    fn renameat2(at: c_int, from: *const c_char, to_at: c_int, to: *const c_char, flags: c_uint) -> c_int;
}

/// Gives a file a name that nothing has.
fn rename_new(from: &Path, to: &Path) -> io::Result<()> {
    let (from, to) = (CString::new(from.as_os_str().as_bytes())?, CString::new(to.as_os_str().as_bytes())?);
    // SAFETY: both are strings that end with 0 and live until the call is over.
    match unsafe { renameat2(HERE, from.as_ptr(), HERE, to.as_ptr(), NOTHING_REPLACED) } {
        0 => Ok(()),
        _ => Err(io::Error::last_os_error()),
    }
}
