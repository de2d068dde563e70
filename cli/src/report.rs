//! An answer, an assertion's entry and a refusal, in words and in JSON.

use lampsickle::{Answer, Entry, Query, Refusal};

use crate::json::Object;
use crate::place::spot;
use crate::terminal::width;
use crate::text::shown;
use crate::words;

/// An assertion, and where it was found.
#[derive(Clone, Debug, PartialEq, Eq)]
pub struct Source {
    pub file: String,
    /// The line of the file on which the text begins, from 1.
    pub line: usize,
    pub text: Vec<u8>,
}

impl Source {
    /// A place in the text, as FILE:LINE:COLUMN.
    pub fn at(&self, place: usize) -> String {
        let spot = spot(&self.text, place);
        format!("{}:{}:{}", self.file, self.line + spot.line - 1, spot.column)
    }
}

/// The class by name, and the numbers.
pub fn class_text(values: &[Vec<u8>], answer: &Answer) -> String {
    let Answer { rank, rounds, reached, .. } = answer;
    let class = shown(class(values, answer));
    format!("class {class}\nrank {rank} of {}\nrounds {rounds}\nreached {reached}\n", values.len())
}

pub fn class<'a>(values: &'a [Vec<u8>], answer: &Answer) -> &'a [u8] {
    values.get(usize::from(answer.rank)).map_or(&[], Vec::as_slice)
}

pub fn class_json(values: &[Vec<u8>], answer: &Answer) -> Object {
    Object::default()
        .truth("answered", true)
        .text("class", class(values, answer))
        .number("rank", answer.rank.into())
        .number("values", values.len())
        .number("rounds", answer.rounds)
        .number("reached", answer.reached)
}

/// Where and why assertions were set aside, each with the line and a caret.
pub fn all_set_aside(query: &Query, sources: &[Source], answer: &Answer) -> String {
    let items = sources.iter().zip(&answer.entries).filter(|(_, entry)| entry.reason != 0);
    items.map(|(source, entry)| set_aside(query, source, *entry)).collect()
}

fn set_aside(query: &Query, source: &Source, entry: Entry) -> String {
    let Entry { reason, place } = entry;
    let spot = spot(&source.text, place);
    let drawn = spot.drawn(source.line + spot.line - 1, width());
    let words = words::reason(entry, &source.text, query);
    format!("{}: set aside: {words} (reason {reason} at {place})\n{drawn}", source.at(place))
}

pub fn entry_json(query: &Query, source: &Source, standing: Option<&str>, entry: Entry) -> String {
    let spot = spot(&source.text, entry.place);
    let object = Object::default().text("file", &source.file);
    let object = object.number("line", source.line + spot.line - 1).number("column", spot.column);
    let object = match standing {
        Some(standing) => object.text("standing", standing),
        None => object,
    };
    let object = object.number("reason", entry.reason.into()).number("place", entry.place);
    object.text("words", words::reason(entry, &source.text, query)).done()
}

pub fn refusal_text(refusal: Refusal) -> String {
    let Refusal { number, place } = refusal;
    format!("refused {number} at {place}: {}", words::refusal(number))
}

pub fn refusal_json(refusal: Refusal) -> Object {
    let object = Object::default().truth("answered", false).number("number", refusal.number.into());
    object.number("place", refusal.place).text("words", words::refusal(refusal.number))
}
