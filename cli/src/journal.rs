//! `journal`: answers kept in a file, which survive a power cut. What is stored, and
//! in which order, is the proved library's; the file's handling isn't proved.

#[cfg(test)]
mod cuts;
mod held;
mod page;

use std::ffi::OsStr;
use std::io;
use std::os::unix::ffi::OsStrExt;
use std::path::Path;

use lampsickle::limits::JOURNAL;
use lampsickle::Refusal;

use crate::arguments::{Given, Word, Words, STANDARD};
use crate::end::{End, Trouble};
use crate::help;
use crate::input::taken;
use crate::output::{answered, told};
use crate::text::{counted, entire, quoted, shown};
use held::{Access, Held};
use page::{Ending, Page};

/// What is behind `journal` on the command line, with the words behind that.
type Part = fn(Words) -> Result<End, Trouble>;

const PARTS: [(&str, Part); 4] = [("create", create), ("append", append), ("list", list), ("recover", recover)];

pub fn run(mut words: Words) -> Result<End, Trouble> {
    let name = words.next();
    match name.as_deref() {
        Some(b"--help" | b"-h" | b"help") => help::print(),
        name => match PARTS.iter().find(|(part, _)| Some(part.as_bytes()) == name) {
            Some((_, part)) => part(words),
            None => Err(no_part(name)),
        },
    }
}

fn no_part(name: Option<&[u8]>) -> Trouble {
    let all: Vec<&str> = PARTS.iter().map(|(part, _)| *part).collect();
    let name = name.map_or(String::new(), |name| format!(", and not {}", quoted(name)));
    Trouble::usage(format!("journal takes one of {}{name}", all.join(", ")))
}

/// Appends an answer and returns when it is on the medium. Where that isn't so,
/// `option` and the file are named.
pub fn keep(option: &str, file: &[u8], answer: &[u8]) -> Result<(), Trouble> {
    let what = format!("{option} {}", shown(file)).trim_start().to_owned();
    let held = Held::open(path(file), Access::Write).map_err(|error| Trouble::with(&what, &error))?;
    let steps = page::appending(&held.bytes, answer).map_err(|refusal| refused(&what, &held.bytes, refusal))?;
    held.write(steps).map_err(|error| {
        Trouble::file(format!(
            "{what}: {error}; the answer may be kept or not: run `lampsickle journal recover` on it, then `list`"
        ))
    })
}

/// Refuses a name that isn't a file's.
pub fn named(option: &str, file: &[u8]) -> Result<(), Trouble> {
    match file {
        STANDARD => Err(Trouble::usage(format!("{option}: a journal is a file, so \"-\" names none"))),
        _ => Ok(()),
    }
}

fn create(words: Words) -> Result<End, Trouble> {
    let mut given = None;
    let file = one_file(words, "journal create", |words, option| match option.name.as_slice() {
        b"--size" => once(&mut given, words.value(option, "--size")?, "--size"),
        _ => Err(option.unknown("journal create")),
    })?;
    let Some(file) = file else {
        return help::print();
    };
    let Some(given) = given else {
        return Err(Trouble::usage(format!("journal create needs --size N, {}", sizes())));
    };
    let page = size(&given).and_then(lampsickle::journal::empty);
    let page = page.ok_or_else(|| Trouble::usage(format!("--size {}: not {}", quoted(&given), sizes())))?;
    held::create(path(&file), &page).map(|()| End::Answered).map_err(|error| Trouble::with(&shown(&file), &error))
}

/// A number as it is written, in digits and without zeros before them.
fn size(word: &[u8]) -> Option<usize> {
    let number: usize = std::str::from_utf8(word).ok()?.parse().ok()?;
    (number.to_string().as_bytes() == word).then_some(number)
}

fn sizes() -> String {
    format!("a number of bytes from {} to {}", JOURNAL.least, JOURNAL.most)
}

fn append(words: Words) -> Result<End, Trouble> {
    let mut text = None;
    let file = one_file(words, "journal append", |words, option| match option.name.as_slice() {
        b"--text" => once(&mut text, words.value(option, "--text")?, "--text"),
        _ => Err(option.unknown("journal append")),
    })?;
    let Some(file) = file else {
        return help::print();
    };
    let answer = text.map_or_else(standard_input, Ok)?;
    keep("", &file, &answer).map(|()| End::Answered)
}

/// The answer on standard input. One byte more than a page has is in no page's room.
fn standard_input() -> Result<Word, Trouble> {
    let read = taken(&mut io::stdin().lock(), JOURNAL.most + 1);
    read.map(|front| front.bytes).map_err(|error| Trouble::with("standard input", &error))
}

fn list(words: Words) -> Result<End, Trouble> {
    let Some(file) = one_file(words, "journal list", |_, option| Err(option.unknown("journal list")))? else {
        return help::print();
    };
    let what = shown(&file);
    let (_, page) = opened(&what, &file, Access::Read)?;
    let lines = page.answers().enumerate().map(|(number, answer)| format!("{number} {}\n", entire(answer)));
    answered(lines.collect::<String>().as_bytes())?;
    let (end, rest) = (page.end(), quoted(page.behind()));
    match page.ending() {
        Ending::Zeros => Ok(End::Answered),
        Ending::Cut => {
            told(&format!("{what}: unfinished at {end}: {rest}, as a power cut leaves it: {RECOVER}"));
            Ok(End::Answered)
        }
        Ending::Damaged => {
            told(&damaged(&what, &page));
            Ok(End::Unread)
        }
    }
}

fn recover(words: Words) -> Result<End, Trouble> {
    let mut meant = false;
    let file = one_file(words, "journal recover", |_, option| match option.name.as_slice() {
        b"--damaged" => option.flag().map(|flag| meant = flag),
        _ => Err(option.unknown("journal recover")),
    })?;
    let Some(file) = file else {
        return help::print();
    };
    let what = shown(&file);
    let (held, page) = opened(&what, &file, Access::Write)?;
    if page.ending() == Ending::Damaged && !meant {
        return Err(Trouble::file(damaged(&what, &page)));
    }
    let steps = page.recovery().map_err(|refusal| refused(&what, &held.bytes, refusal))?;
    held.write(steps).map_err(|error| Trouble::file(format!("{what}: {error}; run it again")))?;
    let kept = match page.answers().count() {
        1 => "1 entry".into(),
        count => format!("{count} entries"),
    };
    let cleared = counted(page.behind().iter().filter(|byte| **byte != 0).count(), "byte");
    answered(format!("{kept} kept, {cleared} cleared\n").as_bytes()).map(|_| End::Answered)
}

const RECOVER: &str = "run `lampsickle journal recover` on it";

/// The words for an end that may be more than one unfinished entry.
fn damaged(what: &str, page: &Page) -> String {
    let (end, rest) = (page.end(), quoted(page.behind()));
    format!(
        "{what}: damaged at {end}: {rest}: no power cut leaves this; `recover --damaged` clears it, entries and all"
    )
}

fn opened(what: &str, file: &[u8], access: Access) -> Result<(Held, Page), Trouble> {
    let held = Held::open(path(file), access).map_err(|error| Trouble::with(what, &error))?;
    let page = Page::of(&held.bytes).map_err(|refusal| refused(what, &held.bytes, refusal))?;
    Ok((held, page))
}

/// The words of a refusal of the library's; a page's size was tested before.
fn refused(what: &str, page: &[u8], refusal: Refusal) -> Trouble {
    let Refusal { number, place } = refusal;
    let words = match number {
        2 => "the first byte isn't 1: it is no journal, or one whose creation was cut".into(),
        3 => format!("behind the last finished entry there is more than zeros: {RECOVER}"),
        5 => "an empty answer can't be kept".into(),
        9 => {
            let room = Page::of(page).map_or(0, |page| page.room());
            format!(
                "{} left, and an entry is the answer and 3 bytes more: begin another journal",
                counted(room, "byte")
            )
        }
        _ => "a number that isn't known".into(),
    };
    Trouble::refused(format!("{what}: refused {number} at {place}: {words}"))
}

fn path(file: &[u8]) -> &Path {
    Path::new(OsStr::from_bytes(file))
}

/// The one file that a command takes; none where help is asked for.
fn one_file(
    mut words: Words,
    command: &str,
    mut take: impl FnMut(&mut Words, Given) -> Result<(), Trouble>,
) -> Result<Option<Word>, Trouble> {
    let mut help = false;
    let mut files = words.files(|words, option| match option.name.as_slice() {
        b"--help" | b"-h" => option.flag().map(|flag| help = flag),
        _ => take(words, option),
    })?;
    match (help, files.pop(), files.is_empty()) {
        (true, _, _) => Ok(None),
        (false, Some(file), true) => named(command, &file).map(|()| Some(file)),
        _ => Err(Trouble::usage(format!("{command} takes one FILE"))),
    }
}

fn once(place: &mut Option<Word>, word: Word, option: &str) -> Result<(), Trouble> {
    match place.replace(word) {
        None => Ok(()),
        Some(_) => Err(Trouble::usage(format!("{option} is given twice"))),
    }
}

#[cfg(test)]
mod tests {
    use super::*;

    #[test]
    fn sizes_as_they_are_written() {
        assert_eq!(size(b"4096"), Some(4096));
        for word in [&b""[..], b"+16", b"016", b"4k", b"4,096", b"0x40", b" 16", b"-1", b"99999999999999999999"] {
            assert_eq!(size(word), None, "{word:?}");
        }
    }
}
