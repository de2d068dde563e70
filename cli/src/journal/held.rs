//! A journal's file, held by one process at a time and written in steps.

use std::fs::{self, File, Metadata, OpenOptions, TryLockError};
use std::io::{self, Write};
use std::ops::Range;
use std::os::unix::fs::{FileExt, MetadataExt};
use std::path::Path;
use std::thread::sleep;
use std::time::{Duration, Instant};

use lampsickle::limits::JOURNAL;

use super::page::Steps;
use crate::input::taken;
use crate::text::counted;

/// How long another process is waited for, and how often it is looked at.
const PATIENCE: Duration = Duration::from_secs(10);
const BEAT: Duration = Duration::from_millis(5);

#[derive(Clone, Copy, Debug, PartialEq, Eq)]
pub enum Access {
    Read,
    Write,
}

/// A file that no other process appends to or recovers while this lives.
pub struct Held {
    file: File,
    /// The page, which the medium holds too.
    pub bytes: Vec<u8>,
}

/// Where a page is kept.
pub trait Medium {
    fn write(&mut self, place: usize, bytes: &[u8]) -> io::Result<()>;

    /// Returns when all that was written is on the medium.
    fn barrier(&mut self) -> io::Result<()>;
}

impl Medium for &File {
    fn write(&mut self, place: usize, bytes: &[u8]) -> io::Result<()> {
        self.write_all_at(bytes, place as u64)
    }

    fn barrier(&mut self) -> io::Result<()> {
        self.sync_data()
    }
}

impl Held {
    pub fn open(path: &Path, access: Access) -> io::Result<Self> {
        // Before it is opened, since one that is none might have it wait.
        regular(&fs::metadata(path)?)?;
        let file = OpenOptions::new().read(true).write(access == Access::Write).open(path)?;
        lock(&file, access, PATIENCE)?;
        same(&file.metadata()?, &fs::metadata(path)?)?;
        // What a process wrote that ended before its barrier.
        file.sync_data()?;
        let front = taken(&mut &file, JOURNAL.most)?;
        match !front.more && JOURNAL.holds(front.bytes.len()) {
            true => Ok(Self { file, bytes: front.bytes }),
            false => Err(io::Error::other(length(front.more, front.bytes.len()))),
        }
    }

    pub fn write(&self, steps: Steps) -> io::Result<()> {
        carry_out(&mut &self.file, &self.bytes, steps)
    }
}

/// Takes a medium that holds a page through steps: of each the bytes that differ, then
/// a barrier.
pub fn carry_out(medium: &mut impl Medium, page: &[u8], steps: Steps) -> io::Result<()> {
    let mut before = page.to_vec();
    for after in steps {
        for run in differing(&before, &after) {
            medium.write(run.start, &after[run])?;
        }
        medium.barrier()?;
        before = after;
    }
    Ok(())
}

/// Where two pages of one size differ, in runs.
fn differing(before: &[u8], after: &[u8]) -> Vec<Range<usize>> {
    let mut runs: Vec<Range<usize>> = Vec::new();
    for place in (0..after.len()).filter(|place| before[*place] != after[*place]) {
        match runs.last_mut() {
            Some(run) if run.end == place => run.end += 1,
            _ => runs.push(place..place + 1),
        }
    }
    runs
}

/// Makes a file with a page, whose version byte is written when all the rest is on the
/// medium: a file that has it has the size that was asked for.
pub fn create(path: &Path, page: &[u8]) -> io::Result<()> {
    let file = OpenOptions::new().write(true).create_new(true).open(path)?;
    let made = filled(&file, page).and_then(|()| File::open(folder(path))?.sync_all());
    made.map_err(|error| io::Error::other(format!("{error}; the file isn't finished: remove it")))
}

fn filled(mut file: &File, page: &[u8]) -> io::Result<()> {
    let mut blank = page.to_vec();
    blank[0] = 0;
    file.write_all(&blank)?;
    file.sync_all()?;
    carry_out(&mut file, &blank, vec![page.to_vec()])
}

fn folder(path: &Path) -> &Path {
    match path.parent() {
        Some(folder) if folder != Path::new("") => folder,
        _ => Path::new("."),
    }
}

/// Locks a file: against all others to write, against writers to read.
fn lock(file: &File, access: Access, patience: Duration) -> io::Result<()> {
    let start = Instant::now();
    loop {
        let tried = match access {
            Access::Read => file.try_lock_shared(),
            Access::Write => file.try_lock(),
        };
        match tried {
            Ok(()) => return Ok(()),
            Err(TryLockError::Error(error)) => return Err(error),
            Err(TryLockError::WouldBlock) if start.elapsed() < patience => sleep(BEAT),
            Err(TryLockError::WouldBlock) => return Err(io::Error::other("another process holds its lock")),
        }
    }
}

fn regular(file: &Metadata) -> io::Result<()> {
    match file.is_file() {
        true => Ok(()),
        false => Err(io::Error::other("a journal is a regular file, and this is none")),
    }
}

/// The name may have come to be another file's before the lock was there.
fn same(file: &Metadata, named: &Metadata) -> io::Result<()> {
    regular(file)?;
    match (file.dev(), file.ino()) == (named.dev(), named.ino()) {
        true => Ok(()),
        false => Err(io::Error::other("another file has come to bear this name")),
    }
}

fn length(more: bool, length: usize) -> String {
    let over = if more { "more than " } else { "" };
    let (bytes, least, most) = (counted(length, "byte"), JOURNAL.least, JOURNAL.most);
    format!("{over}{bytes}, but a journal's file keeps the size that it was created with, {least} to {most}")
}

#[cfg(test)]
mod tests {
    use super::*;

    #[test]
    fn a_lock_is_waited_for_and_not_for_ever() {
        let file = || File::open(env!("CARGO_MANIFEST_PATH")).expect("a file");
        let (one, other) = (file(), file());
        lock(&one, Access::Read, BEAT).expect("a lock");
        lock(&other, Access::Read, BEAT).expect("a second to read");
        let error = lock(&one, Access::Write, 4 * BEAT).expect_err("another reads");
        assert_eq!(error.to_string(), "another process holds its lock");
        other.unlock().expect("none");
        lock(&one, Access::Write, BEAT).expect("a lock");
        assert!(lock(&other, Access::Read, BEAT).is_err());
    }

    #[test]
    fn runs() {
        assert_eq!(differing(b"abcdef", b"aBCdeF"), [1..3, 5..6]);
        assert_eq!(differing(b"abc", b"abc"), []);
    }

    #[test]
    fn folders() {
        assert_eq!(folder(Path::new("x")), Path::new("."));
        assert_eq!(folder(Path::new("a/x")), Path::new("a"));
        assert_eq!(folder(Path::new("/x")), Path::new("/"));
    }
}
