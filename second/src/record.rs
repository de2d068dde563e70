//! The query record: a query, or the refusal with its number and place.

use crate::bounded::Bounded;
use crate::check::POLICY;
use crate::limits::{self, Range};

/// Why a record gives no query.
#[derive(Clone, Copy, Debug, PartialEq, Eq)]
pub struct Refusal {
    pub number: u8,
    pub place: usize,
}

pub const OVERSIZE: u8 = 1;
pub const VERSION: u8 = 2;
pub const NOT_FITTING: u8 = 3;
pub const COUNT: u8 = 4;
pub const LENGTH: u8 = 5;
pub const BYTE: u8 = 6;
pub const REPEATED: u8 = 7;
pub const STANDING: u8 = 8;
pub const ROOM: u8 = 9;
pub const ROOT_ASKS: u8 = 10;

#[derive(Clone, Copy, Debug, PartialEq, Eq)]
pub struct Attribute<'a> {
    pub name: &'a [u8],
    pub value: &'a [u8],
}

/// An assertion as handed in: its standing and its text.
#[derive(Clone, Copy, Debug, PartialEq, Eq)]
pub struct Statement<'a> {
    pub standing: u8,
    /// Where the text begins in the record.
    pub start: usize,
    pub text: &'a [u8],
}

pub struct Query<'a> {
    pub record: &'a [u8],
    pub values: Bounded<&'a [u8], { limits::VALUES.most }>,
    pub requesters: Bounded<&'a [u8], { limits::REQUESTERS.most }>,
    pub attributes: Bounded<Attribute<'a>, { limits::ATTRIBUTES.most }>,
    pub statements: Vec<Statement<'a>>,
}

impl<'a> Query<'a> {
    pub fn top(&self) -> u8 {
        self.values.len() as u8 - 1
    }

    pub fn report_bytes(&self) -> usize {
        limits::REPORT_HEAD + limits::REPORT_ENTRY * self.statements.len()
    }
}

/// Reads a record from left to right.
pub fn read(record: &[u8]) -> Result<Query<'_>, Refusal> {
    if record.len() > limits::RECORD_BYTES {
        return refuse(OVERSIZE, 0);
    }
    if record.first() != Some(&limits::RECORD_VERSION) {
        return refuse(VERSION, 0);
    }
    let mut cursor = Cursor { record, place: 1 };
    let mut query = Query {
        record,
        values: Bounded::new(&[]),
        requesters: Bounded::new(&[]),
        attributes: Bounded::new(Attribute { name: &[], value: &[] }),
        statements: Vec::new(),
    };
    read_values(&mut cursor, &mut query)?;
    read_requesters(&mut cursor, &mut query)?;
    read_attributes(&mut cursor, &mut query)?;
    read_statements(&mut cursor, &mut query)?;
    if cursor.place < record.len() {
        return refuse(NOT_FITTING, cursor.place);
    }
    Ok(query)
}

fn read_values<'a>(cursor: &mut Cursor<'a>, query: &mut Query<'a>) -> Result<(), Refusal> {
    for _ in 0..cursor.count(limits::VALUES)? {
        let length = cursor.length(limits::VALUE_BYTES)?;
        let start = cursor.place;
        let value = cursor.content(length)?;
        no_nul(value, start)?;
        if query.values.contains(&value) {
            return refuse(REPEATED, start);
        }
        query.values.push(value);
    }
    Ok(())
}

fn read_requesters<'a>(cursor: &mut Cursor<'a>, query: &mut Query<'a>) -> Result<(), Refusal> {
    for _ in 0..cursor.count(limits::REQUESTERS)? {
        let length = cursor.length(limits::REQUESTER_BYTES)?;
        let start = cursor.place;
        let requester = cursor.content(length)?;
        no_nul(requester, start)?;
        if requester == POLICY {
            return refuse(ROOT_ASKS, start);
        }
        query.requesters.push(requester);
    }
    Ok(())
}

fn read_attributes<'a>(cursor: &mut Cursor<'a>, query: &mut Query<'a>) -> Result<(), Refusal> {
    for _ in 0..cursor.count(limits::ATTRIBUTES)? {
        let length = cursor.length(limits::NAME_BYTES)?;
        let start = cursor.place;
        let name = cursor.content(length)?;
        attribute_name(name, start)?;
        if query.attributes.iter().any(|earlier| earlier.name == name) {
            return refuse(REPEATED, start);
        }
        let length = cursor.length(limits::ATTRIBUTE_BYTES)?;
        let start = cursor.place;
        let value = cursor.content(length)?;
        no_nul(value, start)?;
        query.attributes.push(Attribute { name, value });
    }
    Ok(())
}

fn read_statements<'a>(cursor: &mut Cursor<'a>, query: &mut Query<'a>) -> Result<(), Refusal> {
    let count = cursor.count(limits::ASSERTIONS)?;
    query.statements.reserve_exact(count);
    for _ in 0..count {
        let place = cursor.place;
        let standing = cursor.byte()?;
        if standing > limits::STANDING_MOST {
            return refuse(STANDING, place);
        }
        let length = cursor.length(limits::TEXT_BYTES)?;
        let start = cursor.place;
        let text = cursor.content(length)?;
        query.statements.push(Statement { standing, start, text });
    }
    Ok(())
}

/// A letter, then letters, digits and underscores.
fn attribute_name(name: &[u8], start: usize) -> Result<(), Refusal> {
    let permitted = |(index, byte): (usize, &u8)| match index {
        0 => byte.is_ascii_alphabetic(),
        _ => byte.is_ascii_alphanumeric() || *byte == b'_',
    };
    match name.iter().enumerate().position(|item| !permitted(item)) {
        Some(index) => refuse(BYTE, start + index),
        None => Ok(()),
    }
}

fn no_nul(content: &[u8], start: usize) -> Result<(), Refusal> {
    match content.iter().position(|&byte| byte == 0) {
        Some(index) => refuse(BYTE, start + index),
        None => Ok(()),
    }
}

fn refuse<T>(number: u8, place: usize) -> Result<T, Refusal> {
    Err(Refusal { number, place })
}

/// A place in the record, before which all is read.
struct Cursor<'a> {
    record: &'a [u8],
    place: usize,
}

impl<'a> Cursor<'a> {
    fn byte(&mut self) -> Result<u8, Refusal> {
        Ok(self.content(1)?[0])
    }

    fn count(&mut self, range: Range) -> Result<usize, Refusal> {
        let place = self.place;
        let count = usize::from(self.byte()?);
        if range.holds(count) {
            Ok(count)
        } else {
            refuse(COUNT, place)
        }
    }

    fn length(&mut self, range: Range) -> Result<usize, Refusal> {
        let place = self.place;
        let bytes = self.content(2)?;
        let length = usize::from(bytes[0]) << 8 | usize::from(bytes[1]);
        if range.holds(length) {
            Ok(length)
        } else {
            refuse(LENGTH, place)
        }
    }

    fn content(&mut self, length: usize) -> Result<&'a [u8], Refusal> {
        match self.record[self.place..].get(..length) {
            Some(content) => {
                self.place += length;
                Ok(content)
            }
            None => refuse(NOT_FITTING, self.place),
        }
    }
}
