//! `explain`: a record decoded into readable form, for the eye alone. What the
//! record comes to is the library's answer.

use std::fmt::Write;

use lampsickle::{limits, Answer, Query, Refusal};

use crate::arguments::{Word, Words};
use crate::assertion::reading::{self, Flawed};
use crate::end::{End, Trouble};
use crate::help;
use crate::input::{front, Front};
use crate::json::Object;
use crate::output::answered;
use crate::place::spot;
use crate::report::{all_set_aside, class_json, class_text, entry_json, refusal_json, refusal_text, Source};
use crate::terminal::width;
use crate::text::{counted, quoted, shown};

/// A part of a record, decoded.
#[derive(Clone, Debug, PartialEq, Eq)]
pub struct Part {
    /// Its first byte, and the byte behind its last.
    pub start: usize,
    pub end: usize,
    pub words: String,
}

/// What could be decoded of a record, from its beginning.
#[derive(Default)]
pub struct Decoded {
    pub parts: Vec<Part>,
    /// Its values, requesters and attributes.
    pub query: Query,
    pub sources: Vec<Source>,
}

pub fn run(words: Words) -> Result<End, Trouble> {
    let Some((file, json)) = request(words)? else {
        return help::print();
    };
    // One byte more than a record has, so that a longer one is refused as such.
    let front = front("", &file, limits::RECORD_BYTES + 1)?;
    let decoded = decode(&shown(&file), &front.bytes);
    let asked = lampsickle::ask(&front.bytes);
    let text = match json {
        true => in_json(&decoded, &asked),
        false => in_words(&front, &decoded, &asked),
    };
    answered(text.as_bytes())?;
    Ok(if asked.is_ok() { End::Answered } else { End::Refused })
}

/// The file, and whether to print JSON; none where help is asked for.
fn request(mut words: Words) -> Result<Option<(Word, bool)>, Trouble> {
    let (mut json, mut help) = (false, false);
    let mut files = words.files(|_, option| {
        match option.name.as_slice() {
            b"--help" | b"-h" => help = true,
            b"--json" => json = option.flag()?,
            _ => return Err(option.unknown("explain")),
        }
        Ok(())
    })?;
    match (help, files.pop(), files.is_empty()) {
        (true, _, _) => Ok(None),
        (false, Some(file), true) => Ok(Some((file, json))),
        _ => Err(Trouble::usage("explain takes one FILE")),
    }
}

fn in_words(front: &Front, decoded: &Decoded, asked: &Result<Answer, Refusal>) -> String {
    let more = if front.more { " and more" } else { "" };
    let mut text = format!("record of {}{more}\n", counted(front.bytes.len(), "byte"));
    let last = asked.as_ref().map_or_else(|refusal| refusal.place, |_| usize::MAX);
    for part in decoded.parts.iter().filter(|part| part.start <= last) {
        writeln!(text, "{:>6}  {}", part.start, part.words).expect("a string takes all");
    }
    match asked {
        Ok(answer) => {
            let aside = all_set_aside(&decoded.query, &decoded.sources, answer);
            let flaws = flaws(&decoded.sources, answer).into_iter().map(|(source, flaw)| flaw_drawn(source, &flaw));
            text + &class_text(&decoded.query.values, answer) + &aside + &flaws.collect::<String>()
        }
        Err(refusal) => text + &drawn(&front.bytes, refusal.place) + &refusal_text(*refusal) + "\n",
    }
}

fn in_json(decoded: &Decoded, asked: &Result<Answer, Refusal>) -> String {
    let part = |part: &Part| {
        Object::default()
            .number("start", part.start)
            .number("end", part.end)
            .text("words", part.words.trim_start())
            .done()
    };
    let parts: Vec<String> = decoded.parts.iter().map(part).collect();
    let object = match asked {
        Ok(answer) => {
            let items = decoded.sources.iter().zip(&answer.entries);
            let entries: Vec<String> =
                items.map(|(source, entry)| entry_json(&decoded.query, source, None, *entry)).collect();
            let object = class_json(&decoded.query.values, answer).list("assertions", &entries);
            let flaws = flaws(&decoded.sources, answer);
            match flaws.is_empty() {
                true => object,
                false => object
                    .list("patterns", &flaws.iter().map(|(source, flaw)| flaw_json(source, flaw)).collect::<Vec<_>>()),
            }
        }
        Err(refusal) => refusal_json(*refusal),
    };
    object.list("parts", &parts).done() + "\n"
}

/// The literals of assertions that were kept that stand for patterns and are none.
fn flaws<'a>(sources: &'a [Source], answer: &Answer) -> Vec<(&'a Source, Flawed)> {
    let kept = sources.iter().zip(&answer.entries).filter(|(_, entry)| entry.reason == 0);
    // A literal is the same in every query.
    let read = |source: &Source| reading::read(&source.text, &Query::default()).flaws;
    let all = kept.flat_map(|(source, _)| read(source).into_iter().map(move |flaw| (source, flaw)));
    all.filter(|(_, flaw)| flaw.literal).collect()
}

/// A flaw of a pattern, with its line and a caret.
fn flaw_drawn(source: &Source, flaw: &Flawed) -> String {
    let spot = spot(&source.text, flaw.place);
    let drawn = spot.drawn(source.line + spot.line - 1, width());
    format!("{}: warning: {}\n{drawn}", source.at(flaw.place), flaw.told())
}

fn flaw_json(source: &Source, flaw: &Flawed) -> String {
    let spot = spot(&source.text, flaw.place);
    let object = Object::default().text("file", &source.file).number("line", source.line + spot.line - 1);
    object.number("column", spot.column).number("place", flaw.place).text("words", flaw.told()).done()
}

/// The bytes around a place, in hexadecimal digits, with a caret under it.
fn drawn(record: &[u8], place: usize) -> String {
    const AROUND: usize = 8;
    if record.is_empty() {
        return String::new();
    }
    let start = place.saturating_sub(AROUND).min(record.len());
    let end = record.len().min(place + AROUND);
    let digits: Vec<String> = record[start..end].iter().map(|byte| format!("{byte:02x}")).collect();
    let under = " ".repeat(3 * (place - start));
    format!("{start:>6} | {}\n       | {under}^^ {place}\n", digits.join(" "))
}

/// Decodes as far as the record goes. Ranges and bytes are the library's to judge.
pub fn decode(file: &str, record: &[u8]) -> Decoded {
    let mut reader = Reader { record, place: 0, decoded: Decoded::default() };
    // Where a field is missing, what was decoded before it stays.
    let _ = reader.all(file);
    reader.decoded
}

struct Reader<'a> {
    record: &'a [u8],
    place: usize,
    decoded: Decoded,
}

impl<'a> Reader<'a> {
    fn all(&mut self, file: &str) -> Option<()> {
        let version = self.take(1)?[0];
        self.part(0, format!("version {version}"));
        self.values()?;
        for index in 0..self.count("requester")? {
            let requester = self.item(|content| format!("  {index} {}", quoted(content)))?;
            self.decoded.query.requesters.push(requester.to_vec());
        }
        for index in 0..self.count("attribute")? {
            let name = self.item(|content| format!("  {index} name {}", shown(content)))?;
            let seen = shown(name);
            let value = self.item(|content| format!("    value of {seen} {}", quoted(content)))?;
            self.decoded.query.attributes.push((name.to_vec(), value.to_vec()));
        }
        for index in 0..self.count("assertion")? {
            self.assertion(file, index)?;
        }
        if self.place < self.record.len() {
            let left = self.record.len() - self.place;
            self.part(self.place, format!("{} left over", counted(left, "byte")));
        }
        Some(())
    }

    fn values(&mut self) -> Option<()> {
        let count = self.count("compliance value")?;
        for index in 0..count {
            let mark = match index {
                0 => ", the weakest",
                _ if index + 1 == count => ", the strongest",
                _ => "",
            };
            let value = self.item(|content| format!("  {index} {}{mark}", quoted(content)))?;
            self.decoded.query.values.push(value.to_vec());
        }
        Some(())
    }

    fn assertion(&mut self, file: &str, index: usize) -> Option<()> {
        let start = self.place;
        let standing = self.take(1)?[0];
        let name = ["unverified", "local", "verified"].get(usize::from(standing)).copied();
        self.part(start, format!("  {index} standing {standing}, {}", name.unwrap_or("which isn't known")));
        let text =
            self.item(|content| format!("    text of {}:\n{}", counted(content.len(), "byte"), lines(content)))?;
        let file = format!("{file}, assertion {index}");
        self.decoded.sources.push(Source { file, line: 1, text: text.to_vec() });
        Some(())
    }

    fn count(&mut self, noun: &str) -> Option<usize> {
        let start = self.place;
        let count = usize::from(self.take(1)?[0]);
        self.part(start, counted(count, noun));
        Some(count)
    }

    /// A length and its content.
    fn item(&mut self, words: impl FnOnce(&[u8]) -> String) -> Option<&'a [u8]> {
        let start = self.place;
        let length = self.take(2)?;
        let length = usize::from(u16::from_be_bytes([length[0], length[1]]));
        match self.take(length) {
            Some(content) => {
                self.part(start, words(content));
                Some(content)
            }
            None => {
                let left = counted(self.record.len() - self.place, "byte");
                self.part(start, format!("    length {length}, but {left} left"));
                None
            }
        }
    }

    fn take(&mut self, length: usize) -> Option<&'a [u8]> {
        let content = self.record[self.place..].get(..length)?;
        self.place += length;
        Some(content)
    }

    fn part(&mut self, start: usize, words: String) {
        self.decoded.parts.push(Part { start, end: self.place.max(start), words });
    }
}

/// A text's lines, indented.
fn lines(text: &[u8]) -> String {
    let text = text.strip_suffix(b"\n").unwrap_or(text);
    let line = |line: &[u8]| format!("          | {}", shown(line));
    text.split(|byte| *byte == b'\n').map(line).collect::<Vec<_>>().join("\n")
}
