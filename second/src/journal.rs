//! The journal of answers on a lent page, from the rules alone.
//!
//! A page is read into its answers; the page that an operation ends with is
//! written anew from answers, whole. The operation is then the row of single
//! byte stores that leads from the one page to the other.

use crate::limits::{CLOSING, JOURNAL_BYTES, JOURNAL_VERSION};
use crate::record::{LENGTH, NOT_FITTING, ROOM, VERSION};

/// A single byte store.
#[derive(Clone, Copy, Debug, PartialEq, Eq)]
pub struct Store {
    pub place: usize,
    pub byte: u8,
}

/// What an operation stores, in order, or the number of its refusal.
pub type Plan = Result<Vec<Store>, u8>;

/// The answer of a finished entry at the front of some bytes, and what lies
/// behind the entry.
fn finished(bytes: &[u8]) -> Option<(&[u8], &[u8])> {
    let (length, behind) = bytes.split_first_chunk()?;
    let length = usize::from(u16::from_be_bytes(*length));
    let (answer, behind) = behind.split_at_checked(length)?;
    let (closing, rest) = behind.split_first()?;
    (length > 0 && *closing == CLOSING).then_some((answer, rest))
}

/// The answers of the finished entries from the front of a page.
pub fn answers(page: &[u8]) -> Vec<&[u8]> {
    let mut found = Vec::new();
    let mut rest = page.get(1..).unwrap_or_default();
    while let Some((answer, behind)) = finished(rest) {
        found.push(answer);
        rest = behind;
    }
    found
}

/// The version and the entries with these answers.
fn written(answers: &[&[u8]]) -> Vec<u8> {
    let mut bytes = vec![JOURNAL_VERSION];
    for answer in answers {
        bytes.extend((answer.len() as u16).to_be_bytes());
        bytes.extend(*answer);
        bytes.push(CLOSING);
    }
    bytes
}

/// The page of a size that holds these answers and nothing else, if they fit.
pub fn page(answers: &[&[u8]], size: usize) -> Option<Vec<u8>> {
    let room = answers.iter().all(|answer| answer.len() <= JOURNAL_BYTES.most);
    let mut bytes = room.then(|| written(answers))?;
    (bytes.len() <= size).then(|| {
        bytes.resize(size, 0);
        bytes
    })
}

fn well_sized(page: &[u8]) -> Result<(), u8> {
    match page.first() {
        Some(version) if JOURNAL_BYTES.holds(page.len()) => match *version == JOURNAL_VERSION {
            true => Ok(()),
            false => Err(VERSION),
        },
        _ => Err(LENGTH),
    }
}

/// What appending an answer stores, in order.
pub fn append(lent: &[u8], answer: &[u8]) -> Plan {
    if answer.is_empty() {
        return Err(LENGTH);
    }
    well_sized(lent)?;
    let mut held = answers(lent);
    let start = written(&held).len();
    if page(&held, lent.len()).as_deref() != Some(lent) {
        return Err(NOT_FITTING);
    }
    held.push(answer);
    let after = page(&held, lent.len()).ok_or(ROOM)?;
    let end = written(&held).len();
    Ok((start..end).map(|place| Store { place, byte: after[place] }).collect())
}

/// What recovery stores, in order: from the page's end towards the front.
pub fn recover(lent: &[u8]) -> Plan {
    well_sized(lent)?;
    let held = answers(lent);
    let start = written(&held).len();
    let after = page(&held, lent.len()).expect("what a page holds fits on it");
    Ok((start..lent.len()).rev().map(|place| Store { place, byte: after[place] }).collect())
}

/// Makes stores in their order.
pub fn make(stores: &[Store], page: &mut [u8]) {
    for store in stores {
        page[store.place] = store.byte;
    }
}
