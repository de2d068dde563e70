//! The lock beside a register, so that of two changes at once none is lost.

use std::fs::{self, File, OpenOptions};
use std::io;
use std::os::unix::ffi::OsStrExt;
use std::os::unix::fs::{MetadataExt, OpenOptionsExt};

use super::file::UNFOLLOWED;
use super::paths::Paths;
use crate::end::Trouble;
use crate::text::shown;

/// Held until it is dropped, or until the process ends however it ends.
pub struct Lock {
    _file: File,
}

impl Lock {
    /// Waits until no other call changes the register.
    pub fn take(paths: &Paths) -> Result<Self, Trouble> {
        let name = shown(paths.lock.as_os_str().as_bytes());
        let taken = open(paths).and_then(|file| file.lock().map(|()| file));
        let file = taken.map_err(|error| Trouble::file(format!("the lock {name}: {error}; nothing was changed")))?;
        match is_there(&file, paths) {
            Ok(true) => Ok(Self { _file: file }),
            _ => Err(Trouble::file(format!("the lock {name} was removed meanwhile; nothing was changed, try again"))),
        }
    }
}

fn open(paths: &Paths) -> io::Result<File> {
    let mut options = OpenOptions::new();
    let file =
        options.read(true).write(true).create(true).truncate(false).custom_flags(UNFOLLOWED).open(&paths.lock)?;
    match file.metadata()?.is_file() {
        true => Ok(file),
        false => Err(io::Error::other("this is no regular file")),
    }
}

/// Whether the file that is locked is the one that another call would lock.
fn is_there(file: &File, paths: &Paths) -> io::Result<bool> {
    let (locked, named) = (file.metadata()?, fs::symlink_metadata(&paths.lock)?);
    Ok((locked.dev(), locked.ino()) == (named.dev(), named.ino()))
}
