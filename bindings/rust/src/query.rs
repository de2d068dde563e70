//! A query to be written as a record.

use crate::limits::{self, Range};

/// What is known of an assertion's origin.
#[derive(Clone, Copy, Debug, PartialEq, Eq)]
pub enum Standing {
    /// A credential whose signature wasn't verified: it is set aside.
    Unverified = 0,
    /// A local assertion, which is trusted.
    Local = 1,
    /// A credential whose signature was verified.
    Verified = 2,
}

/// The parts of a query, in the record's order.
#[derive(Clone, Debug, Default, PartialEq, Eq)]
pub struct Query {
    /// Compliance values, weakest first.
    pub values: Vec<Vec<u8>>,
    pub requesters: Vec<Vec<u8>>,
    /// Names and values.
    pub attributes: Vec<(Vec<u8>, Vec<u8>)>,
    pub assertions: Vec<(Standing, Vec<u8>)>,
}

/// An item of a query, by its kind and its number in its group, from 0.
#[derive(Clone, Copy, Debug, PartialEq, Eq)]
pub enum Item {
    Values,
    Value(usize),
    Requesters,
    Requester(usize),
    Attributes,
    Name(usize),
    Attribute(usize),
    Assertions,
    Assertion(usize),
    Record,
}

/// What is wrong with an item.
#[derive(Clone, Copy, Debug, PartialEq, Eq)]
pub enum What {
    /// A count or length, and the range that it isn't in.
    Range(usize, Range),
    /// A byte that isn't permitted, and its place in the item.
    Byte(u8, usize),
    /// It stood before, with this number.
    Repeated(usize),
    /// A requester is named POLICY, as whom nobody asks.
    Policy,
}

/// Why a query can't be written as a record that is read.
#[derive(Clone, Copy, Debug, PartialEq, Eq)]
pub struct Fault {
    pub item: Item,
    pub what: What,
}

impl Query {
    /// Adds a local assertion.
    pub fn local(&mut self, text: impl Into<Vec<u8>>) {
        self.assertions.push((Standing::Local, text.into()));
    }

    /// Adds a credential whose signature was verified.
    pub fn verified(&mut self, text: impl Into<Vec<u8>>) {
        self.assertions.push((Standing::Verified, text.into()));
    }

    /// The record, or the first thing for which it would be refused.
    pub fn record(&self) -> Result<Vec<u8>, Fault> {
        self.check()?;
        let record = self.write();
        in_range(Item::Record, record.len(), Range { least: 1, most: limits::RECORD_BYTES })?;
        Ok(record)
    }

    fn check(&self) -> Result<(), Fault> {
        in_range(Item::Values, self.values.len(), limits::VALUES)?;
        for (index, value) in self.values.iter().enumerate() {
            content(Item::Value(index), value, limits::VALUE_BYTES)?;
            distinct(Item::Value(index), value, self.values[..index].iter())?;
        }
        in_range(Item::Requesters, self.requesters.len(), limits::REQUESTERS)?;
        for (index, requester) in self.requesters.iter().enumerate() {
            content(Item::Requester(index), requester, limits::REQUESTER_BYTES)?;
            if requester == b"POLICY" {
                return Err(Fault { item: Item::Requester(index), what: What::Policy });
            }
        }
        self.check_attributes()?;
        in_range(Item::Assertions, self.assertions.len(), limits::ASSERTIONS)?;
        for (index, (_, text)) in self.assertions.iter().enumerate() {
            in_range(Item::Assertion(index), text.len(), limits::TEXT_BYTES)?;
        }
        Ok(())
    }

    fn check_attributes(&self) -> Result<(), Fault> {
        in_range(Item::Attributes, self.attributes.len(), limits::ATTRIBUTES)?;
        for (index, (name, value)) in self.attributes.iter().enumerate() {
            in_range(Item::Name(index), name.len(), limits::NAME_BYTES)?;
            no_byte(Item::Name(index), name, |place, byte| !in_name(place, byte))?;
            distinct(Item::Name(index), name, self.attributes[..index].iter().map(|earlier| &earlier.0))?;
            content(Item::Attribute(index), value, limits::ATTRIBUTE_BYTES)?;
        }
        Ok(())
    }

    /// The bytes; every count and length was tested.
    fn write(&self) -> Vec<u8> {
        let mut record = vec![limits::RECORD_VERSION, self.values.len() as u8];
        self.values.iter().for_each(|value| measured(&mut record, value));
        record.push(self.requesters.len() as u8);
        self.requesters.iter().for_each(|requester| measured(&mut record, requester));
        record.push(self.attributes.len() as u8);
        for (name, value) in &self.attributes {
            measured(&mut record, name);
            measured(&mut record, value);
        }
        record.push(self.assertions.len() as u8);
        for (standing, text) in &self.assertions {
            record.push(*standing as u8);
            measured(&mut record, text);
        }
        record
    }
}

fn measured(record: &mut Vec<u8>, content: &[u8]) {
    record.extend_from_slice(&(content.len() as u16).to_be_bytes());
    record.extend_from_slice(content);
}

/// A letter, then letters, digits and underscores.
fn in_name(place: usize, byte: u8) -> bool {
    byte.is_ascii_alphabetic() || place > 0 && (byte.is_ascii_digit() || byte == b'_')
}

fn content(item: Item, content: &[u8], range: Range) -> Result<(), Fault> {
    in_range(item, content.len(), range)?;
    no_byte(item, content, |_, byte| byte == 0)
}

fn in_range(item: Item, number: usize, range: Range) -> Result<(), Fault> {
    match range.holds(number) {
        true => Ok(()),
        false => Err(Fault { item, what: What::Range(number, range) }),
    }
}

fn no_byte(item: Item, content: &[u8], refused: impl Fn(usize, u8) -> bool) -> Result<(), Fault> {
    match content.iter().enumerate().find(|(place, byte)| refused(*place, **byte)) {
        None => Ok(()),
        Some((place, byte)) => Err(Fault { item, what: What::Byte(*byte, place) }),
    }
}

fn distinct<'a>(item: Item, content: &[u8], mut earlier: impl Iterator<Item = &'a Vec<u8>>) -> Result<(), Fault> {
    match earlier.position(|other| other == content) {
        None => Ok(()),
        Some(index) => Err(Fault { item, what: What::Repeated(index) }),
    }
}
