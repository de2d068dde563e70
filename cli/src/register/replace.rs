//! New bytes in a file's place, so that a crash at any time leaves the old or the new.

#[cfg(test)]
mod tests;

use std::io::{self, ErrorKind};

use super::paths::Paths;
use crate::end::Trouble;

/// What is done, in this order.
#[derive(Clone, Copy, Debug, PartialEq, Eq, PartialOrd, Ord)]
pub enum Step {
    /// Opens the directory, which is settled at the end.
    OpenFolder,
    /// Makes an empty file of a name that nothing has, in the same directory.
    Make,
    /// Gives it the owner, group and permissions of the file that it is to replace.
    Resemble,
    Write,
    /// Waits until its bytes are on the disk.
    Settle,
    /// Gives it the register's name, in one act; a new register's only while nothing has it.
    Rename,
    /// Waits until the name is on the disk.
    SettleFolder,
}

pub const STEPS: [Step; 7] =
    [Step::OpenFolder, Step::Make, Step::Resemble, Step::Write, Step::Settle, Step::Rename, Step::SettleFolder];

/// Where the steps are taken.
pub trait Disk {
    fn take(&mut self, step: Step, bytes: &[u8]) -> io::Result<()>;
    /// Removes the file that was made, where it still has its first name.
    fn discard(&mut self);
}

/// A step that failed. Those behind it weren't taken.
#[derive(Debug)]
pub struct Stopped {
    pub step: Step,
    pub error: io::Error,
}

/// Takes every step, or stops at the first that fails and clears up.
pub fn put(disk: &mut impl Disk, bytes: &[u8]) -> Result<(), Stopped> {
    for step in STEPS {
        if let Err(error) = disk.take(step, bytes) {
            if step <= Step::Rename {
                disk.discard();
            }
            return Err(Stopped { step, error });
        }
    }
    Ok(())
}

impl Stopped {
    pub fn trouble(&self, paths: &Paths) -> Trouble {
        let (file, error) = (paths.shown(), &self.error);
        let (what, then) = match self.step {
            Step::OpenFolder => ("its directory can't be opened", UNCHANGED),
            Step::Make => ("no file can be made beside it", UNCHANGED),
            Step::Resemble => ("its owner, group and permissions can't be kept", UNCHANGED),
            Step::Write | Step::Settle => ("the new register can't be written beside it", UNCHANGED),
            Step::Rename if error.kind() == ErrorKind::AlreadyExists => return exists(paths),
            Step::Rename => ("the new register can't be put in its place", "see by `list` what it holds"),
            Step::SettleFolder => (
                "the call was granted, don't make it again; but the disk says",
                "after a loss of power the register before it may be there",
            ),
        };
        Trouble::file(format!("{file}: {what}: {error}; {then}"))
    }
}

const UNCHANGED: &str = "nothing was changed";

/// The error of a register that is to be created where something is.
pub fn exists(paths: &Paths) -> Trouble {
    Trouble::file(format!("{}: this exists already, and create replaces nothing", paths.shown()))
}
