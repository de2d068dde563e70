//! Crashes and failures before each step, on a disk in memory that loses all it may
//! lose, and on the real one.

use std::collections::{BTreeMap, BTreeSet};
use std::fs;
use std::os::unix::ffi::OsStrExt;

use lampsickle::register::Register;

use super::*;
use crate::register::disk::Beside;

/// The bytes of a register before and after an issue.
fn old_and_new() -> (Vec<u8>, Vec<u8>) {
    let mut register = Register::default();
    register.issue(7, 20).expect("room");
    let old = register.bytes().to_vec();
    register.issue(7, 1).expect("room");
    (old, register.bytes().to_vec())
}

/// What goes wrong.
#[derive(Clone, Copy, PartialEq, Eq)]
enum Flaw {
    /// Before this step all ends, and nothing is cleared up.
    Crash(Step),
    /// This step fails.
    Fail(Step),
    /// This step does nothing.
    Omit(Step),
    None,
}

struct Flawed<D> {
    disk: D,
    flaw: Flaw,
}

impl<D: Disk> Disk for Flawed<D> {
    fn take(&mut self, step: Step, bytes: &[u8]) -> io::Result<()> {
        match self.flaw {
            Flaw::Crash(at) | Flaw::Fail(at) if at == step => Err(io::Error::other("a flaw")),
            Flaw::Omit(at) if at == step => Ok(()),
            _ => self.disk.take(step, bytes),
        }
    }

    fn discard(&mut self) {
        if !matches!(self.flaw, Flaw::Crash(_)) {
            self.disk.discard();
        }
    }
}

const FILE: &str = "moves";
const FRESH: &str = "fresh";

/// A file's bytes as they are shown, and those that are on the disk for certain.
#[derive(Clone, Default)]
struct Content {
    shown: Vec<u8>,
    settled: Vec<u8>,
}

type Names = BTreeMap<&'static str, usize>;

/// A disk in memory.
#[derive(Clone, Default)]
struct Model {
    contents: Vec<Content>,
    settled: Names,
    /// Changes of names that are not on the disk for certain.
    pending: Vec<fn(&mut Names, usize)>,
}

impl Model {
    fn new(old: Option<&[u8]>) -> Self {
        let mut model = Self::default();
        if let Some(old) = old {
            model.contents.push(Content { shown: old.to_vec(), settled: old.to_vec() });
            model.settled.insert(FILE, 0);
        }
        model
    }

    /// The file that was made; none has a higher number.
    fn fresh(&self) -> usize {
        self.contents.len() - 1
    }

    /// The names after those pending changes that a bit is set for.
    fn names(&self, chosen: usize) -> Names {
        let mut names = self.settled.clone();
        for (number, change) in self.pending.iter().enumerate() {
            if chosen >> number & 1 == 1 {
                change(&mut names, self.fresh());
            }
        }
        names
    }

    fn shown(&self, name: &str) -> Option<&Content> {
        self.names(usize::MAX).get(name).map(|file| &self.contents[*file])
    }

    /// All that the file may hold after a crash now.
    fn left(&self) -> BTreeSet<Option<Vec<u8>>> {
        let mut all = BTreeSet::new();
        for chosen in 0..1 << self.pending.len() {
            match self.names(chosen).get(FILE) {
                None => drop(all.insert(None)),
                Some(file) => all.extend(self.contents[*file].left().into_iter().map(Some)),
            }
        }
        all
    }
}

impl Content {
    fn left(&self) -> Vec<Vec<u8>> {
        let mut all = vec![self.settled.clone(), self.shown.clone()];
        if self.shown != self.settled {
            all.push(vec![0; self.shown.len()]);
            all.push(self.shown[..self.shown.len() / 2].to_vec());
        }
        all
    }
}

impl Disk for Model {
    fn take(&mut self, step: Step, bytes: &[u8]) -> io::Result<()> {
        match step {
            Step::OpenFolder | Step::Resemble => {}
            Step::Make => {
                self.contents.push(Content::default());
                self.pending.push(|names, fresh| {
                    names.insert(FRESH, fresh);
                });
            }
            Step::Write => self.contents.last_mut().expect("a file").shown = bytes.to_vec(),
            Step::Settle => {
                let content = self.contents.last_mut().expect("a file");
                content.settled = content.shown.clone();
            }
            Step::Rename => self.pending.push(|names, fresh| {
                names.remove(FRESH);
                names.insert(FILE, fresh);
            }),
            Step::SettleFolder => {
                self.settled = self.names(usize::MAX);
                self.pending.clear();
            }
        }
        Ok(())
    }

    fn discard(&mut self) {
        self.pending.push(|names, _| {
            names.remove(FRESH);
        });
    }
}

/// The disk after a flaw, and whether all steps were said to be taken.
fn after(old: Option<&[u8]>, new: &[u8], flaw: Flaw) -> (Model, bool) {
    let mut flawed = Flawed { disk: Model::new(old), flaw };
    let done = put(&mut flawed, new).is_ok();
    (flawed.disk, done)
}

#[test]
fn a_crash_before_each_step_leaves_the_old_or_the_new() {
    let (old, new) = old_and_new();
    for before in [None, Some(old)] {
        let mut seen = BTreeSet::new();
        for step in STEPS {
            let (disk, done) = after(before.as_deref(), &new, Flaw::Crash(step));
            assert!(!done);
            for left in disk.left() {
                assert!(left == before || left.as_ref() == Some(&new), "{step:?}: {left:?}");
                seen.insert(left);
            }
        }
        assert_eq!(seen.len(), 2);
        let (disk, done) = after(before.as_deref(), &new, Flaw::None);
        assert_eq!((disk.left(), done), (BTreeSet::from([Some(new.clone())]), true));
    }
}

#[test]
fn a_failure_of_each_step_is_cleared_up() {
    let (old, new) = old_and_new();
    for step in STEPS {
        let (disk, done) = after(Some(&old), &new, Flaw::Fail(step));
        let expected = if step == Step::SettleFolder { &new } else { &old };
        assert!(!done && disk.shown(FRESH).is_none(), "{step:?}");
        assert_eq!(disk.shown(FILE).map(|content| &content.shown), Some(expected), "{step:?}");
    }
}

/// The disk in memory is strict enough: without a wait, something else is left.
#[test]
fn both_waits_are_needed() {
    let (old, new) = old_and_new();
    let left = |step| {
        let (disk, done) = after(Some(&old), &new, Flaw::Omit(step));
        assert!(done);
        disk.left()
    };
    assert!(left(Step::Settle).iter().any(|left| left.as_ref() != Some(&old) && left.as_ref() != Some(&new)));
    assert_eq!(left(Step::SettleFolder), BTreeSet::from([Some(old.clone()), Some(new.clone())]));
}

/// A folder of its own, and paths of a register in it.
fn folder(name: &str) -> Paths {
    let folder = std::env::temp_dir().join(format!("lampsickle-{name}-{}", std::process::id()));
    let _ = fs::remove_dir_all(&folder);
    fs::create_dir(&folder).expect("a folder");
    Paths::of(folder.join(FILE).as_os_str().as_bytes()).ok().expect("a file's name")
}

fn names(paths: &Paths) -> usize {
    fs::read_dir(&paths.folder).expect("a folder").count()
}

/// On a real disk; leftovers of the crashes before stay where they are.
#[test]
fn the_same_on_a_real_disk() {
    let paths = folder("crash");
    let (old, new) = old_and_new();
    let replaced = |flaw: Flaw| {
        fs::write(&paths.file, &old).expect("a file");
        let metadata = fs::metadata(&paths.file).expect("a file");
        let done = put(&mut Flawed { disk: Beside::over(&paths, metadata), flaw }, &new).is_ok();
        (done, fs::read(&paths.file).expect("a file"))
    };
    for step in STEPS {
        let expected = if step == Step::SettleFolder { &new } else { &old };
        assert_eq!(replaced(Flaw::Crash(step)), (false, expected.clone()), "{step:?}");
        assert_eq!(replaced(Flaw::None), (true, new.clone()), "{step:?}");
    }
    // Four crashes left a file: before Resemble, Write, Settle and Rename.
    assert_eq!(names(&paths), 5);
    for step in STEPS {
        replaced(Flaw::Fail(step));
        assert_eq!(names(&paths), 5, "{step:?}");
    }
    fs::remove_dir_all(&paths.folder).expect("a folder");
}

#[test]
fn a_register_is_created_or_not_there() {
    let (_, new) = old_and_new();
    for step in STEPS {
        let paths = folder(&format!("create-{step:?}"));
        let mut flawed = Flawed { disk: Beside::new(&paths), flaw: Flaw::Crash(step) };
        assert!(put(&mut flawed, &new).is_err());
        let expected = (step == Step::SettleFolder).then(|| new.clone());
        assert_eq!(fs::read(&paths.file).ok(), expected, "{step:?}");
        fs::remove_dir_all(&paths.folder).expect("a folder");
    }
}

/// What got the name since it was looked for is not replaced.
#[test]
fn nothing_is_replaced_by_a_new_register() {
    let paths = folder("taken");
    fs::write(&paths.file, "mine").expect("a file");
    let stopped = put(&mut Beside::new(&paths), &old_and_new().1).expect_err("a name that is taken");
    assert!(stopped.step == Step::Rename && stopped.trouble(&paths).words.contains("exists already"));
    assert_eq!((fs::read(&paths.file).expect("a file"), names(&paths)), (b"mine".to_vec(), 1));
    fs::remove_dir_all(&paths.folder).expect("a folder");
}

/// Words for each step; only where that is so they say that nothing was changed.
#[test]
fn words_of_each_step() {
    let paths = Paths::of(b"moves").ok().expect("a file's name");
    for step in STEPS {
        let trouble = Stopped { step, error: io::Error::other("no room") }.trouble(&paths);
        assert!(trouble.words.starts_with("moves: ") && trouble.words.contains("no room"), "{}", trouble.words);
        assert_eq!(trouble.words.ends_with("nothing was changed"), step < Step::Rename, "{}", trouble.words);
        assert_eq!(trouble.words.contains("granted"), step == Step::SettleFolder, "{}", trouble.words);
    }
}
