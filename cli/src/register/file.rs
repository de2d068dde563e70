//! A register's file, read whole.

use std::ffi::c_int;
use std::fs::{self, File, Metadata, OpenOptions};
use std::os::unix::fs::{MetadataExt, OpenOptionsExt};

use lampsickle::register::{Register, BYTES};

use super::paths::Paths;
use super::refused;
use crate::end::Trouble;
use crate::input::taken;

/// On Linux: a symbolic link isn't followed (`O_NOFOLLOW`), and opening what isn't a file
/// waits for nobody (`O_NONBLOCK`).
pub const UNFOLLOWED: c_int = 0o400_000 | 0o4_000;

#[derive(Clone, Copy, Debug, PartialEq, Eq)]
pub enum Access {
    Read,
    /// The register is to be replaced.
    Write,
}

/// A register, and what the system tells of its file.
pub struct Kept {
    pub register: Register,
    pub metadata: Metadata,
}

/// How often a file that is replaced while it is opened is opened again.
const ATTEMPTS: usize = 100;

pub fn read(paths: &Paths, access: Access) -> Result<Kept, Trouble> {
    for _ in 0..ATTEMPTS {
        if let Some(kept) = attempt(paths, access)? {
            return Ok(kept);
        }
    }
    Err(Trouble::file(format!("{}: this file is replaced again and again while it is read", paths.shown())))
}

/// Nothing where another call has replaced the file since it was opened: it has no name any more.
fn attempt(paths: &Paths, access: Access) -> Result<Option<Kept>, Trouble> {
    let file = open(paths, access)?;
    let with = |error| Trouble::with(&paths.shown(), &error);
    let metadata = file.metadata().map_err(with)?;
    if metadata.nlink() == 0 {
        return Ok(None);
    }
    if let Some(why) = unfit(&metadata, access) {
        return Err(Trouble::file(format!("{}: {why}", paths.shown())));
    }
    // One byte more than a register has, to know whether there are more.
    let bytes = taken(&mut &file, BYTES + 1).map_err(with)?.bytes;
    match Register::new(&bytes) {
        Ok(register) => Ok(Some(Kept { register, metadata })),
        Err(refusal) => {
            let (number, place, words) = (refusal.number, refusal.place, refused::no_register(refusal, &bytes));
            let file = paths.shown();
            Err(Trouble::file(format!("{file}: refused {number} at {place}: this is no register: {words}")))
        }
    }
}

/// Opens a file that is fit. To be replaced it must be open to writing, though nothing is
/// written in it: one that is closed to it isn't meant to change.
fn open(paths: &Paths, access: Access) -> Result<File, Trouble> {
    let with = |error| Trouble::with(&paths.shown(), &error);
    // Before it is opened, since opening a device may do something.
    let metadata = fs::symlink_metadata(&paths.file).map_err(with)?;
    if let Some(why) = unfit(&metadata, access) {
        return Err(Trouble::file(format!("{}: {why}", paths.shown())));
    }
    let mut options = OpenOptions::new();
    options.read(true).write(access == Access::Write).custom_flags(UNFOLLOWED);
    options.open(&paths.file).map_err(with)
}

/// Why a file isn't taken as a register's.
fn unfit(metadata: &Metadata, access: Access) -> Option<&'static str> {
    match access {
        _ if metadata.is_symlink() => Some("this is a symbolic link; name the file itself"),
        _ if metadata.is_dir() => Some("this is a directory"),
        _ if !metadata.is_file() => Some("this is no regular file"),
        Access::Write if metadata.nlink() > 1 => {
            Some("this file has several names (hard links), and only one of them would get the new register")
        }
        Access::Write if metadata.permissions().readonly() => Some("this file is closed to writing"),
        _ => None,
    }
}
