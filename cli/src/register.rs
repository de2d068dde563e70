//! `register`: priority moves kept in a file. What a call does to a register is the
//! proved library's; here the file is read, locked and replaced.

mod change;
mod disk;
mod file;
mod lock;
mod paths;
mod refused;
mod replace;
mod request;

use std::fs;

use lampsickle::register::{Found, Register, PLACES};

use crate::arguments::Words;
use crate::end::{End, Trouble};
use crate::help;
use crate::output::{answered, told};
use change::Change;
use disk::Beside;
use file::Access;
use lock::Lock;
use paths::Paths;
use request::{Call, Request};

pub fn run(words: Words) -> Result<End, Trouble> {
    let Some(Request { paths, call }) = request::read(words)? else {
        return help::print();
    };
    match call {
        Call::Create => create(&paths),
        Call::Change(change) => changed(&paths, change),
        Call::Find(principal) => find(&paths, principal),
        Call::List => list(&paths),
    }
}

fn create(paths: &Paths) -> Result<End, Trouble> {
    // Before the lock, so that a mistake leaves no lock behind; the step that gives the
    // name tests it again.
    if fs::symlink_metadata(&paths.file).is_ok() {
        return Err(replace::exists(paths));
    }
    let lock = Lock::take(paths)?;
    write(paths, Beside::new(paths), &Register::default())?;
    drop(lock);
    granted(paths, &format!("created {}: an empty register of {PLACES} places\n", paths.shown()))
}

fn changed(paths: &Paths, change: Change) -> Result<End, Trouble> {
    // Before the lock, so that a mistake leaves no lock behind.
    file::read(paths, Access::Write)?;
    let lock = Lock::take(paths)?;
    let kept = file::read(paths, Access::Write)?;
    let mut register = kept.register.clone();
    if let Err(refusal) = change.on(&mut register) {
        let words = refused::words(refusal.number, change, &kept.register);
        told(&format!(
            "{}: refused {} at {}: {words}; nothing was changed",
            paths.shown(),
            refusal.number,
            refusal.place
        ));
        return Ok(End::Refused);
    }
    write(paths, Beside::over(paths, kept.metadata), &register)?;
    drop(lock);
    granted(paths, &change.done(&kept.register, &register))
}

fn write(paths: &Paths, mut disk: Beside, register: &Register) -> Result<(), Trouble> {
    replace::put(&mut disk, register.bytes()).map_err(|stopped| stopped.trouble(paths))
}

/// Says what was done. Where that can't be said, the call isn't to be made again.
fn granted(paths: &Paths, text: &str) -> Result<End, Trouble> {
    match answered(text.as_bytes()) {
        Ok(_) => Ok(End::Answered),
        Err(trouble) => {
            let words = trouble.words;
            Err(Trouble::file(format!("{words}; the call was granted, and {} holds its register", paths.shown())))
        }
    }
}

fn find(paths: &Paths, principal: u32) -> Result<End, Trouble> {
    let register = file::read(paths, Access::Read)?.register;
    let Found { place, work } = register.find(principal);
    let text = match (place, change::held(&register, principal)) {
        (Some(place), Some(moves)) => format!("held yes\nplace {place}\nmoves {moves}\nwork {work}\n"),
        _ => format!("held no\nwork {work}\n"),
    };
    answered(text.as_bytes())?;
    if refused::is_damaged(&register) {
        told(&format!("warning: {}: {}", paths.shown(), refused::damage(&register)));
    }
    Ok(End::Answered)
}

/// All that is held. Of a damaged register it is shown as it stands, and refused: what
/// was spent can't be told.
fn list(paths: &Paths) -> Result<End, Trouble> {
    let register = file::read(paths, Access::Read)?.register;
    let (issued, held) = (register.issued(), register.held());
    let mut text = String::new();
    for held in register.places() {
        text += &format!("place {} principal {} moves {}\n", held.place, held.principal, held.moves);
    }
    text += &format!("principals {} of {PLACES}\nheld {held}\nissued {issued}\n", register.places().count());
    let damaged = refused::is_damaged(&register);
    if !damaged {
        text += &format!("spent {}\n", u128::from(issued) - held);
    }
    answered(text.as_bytes())?;
    if damaged {
        told(&format!("{}: refused 20 at 0: {}", paths.shown(), refused::damage(&register)));
        return Ok(End::Refused);
    }
    Ok(End::Answered)
}
