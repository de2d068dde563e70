//! The library between fences: bytes around the page and the record's own bytes
//! must be as they were after every call.

use second::Outcome;

use crate::library;

const FENCE: usize = 64;
const POST: u8 = 0xc3;

/// The library, asked with a record in memory of its own length and a page
/// between fences. Panics where a byte that wasn't lent for writing has changed.
pub fn fenced(record: &[u8], page: &mut [u8]) -> Outcome {
    between_fences(library, record, page)
}

pub fn between_fences<T>(asked: impl FnOnce(&[u8], &mut [u8]) -> T, record: &[u8], page: &mut [u8]) -> T {
    let own: Box<[u8]> = record.into();
    let outcome = between_posts(page, |lent| asked(&own, lent));
    assert!(*own == *record, "the record is written");
    outcome
}

/// Lends a copy of a page between fences. Panics where a byte beside it has changed.
pub fn between_posts<A>(page: &mut [u8], asked: impl FnOnce(&mut [u8]) -> A) -> A {
    let mut field = vec![POST; page.len() + 2 * FENCE];
    let lent = FENCE..FENCE + page.len();
    field[lent.clone()].copy_from_slice(page);
    let answer = asked(&mut field[lent.clone()]);
    page.copy_from_slice(&field[lent.clone()]);
    let posts = field[..lent.start].iter().chain(&field[lent.end..]);
    assert!(posts.copied().all(|post| post == POST), "a byte beside the page is written");
    answer
}
