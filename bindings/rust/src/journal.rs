//! The journal of answers on a lent page, by the proved static library.
//!
//! ```
//! use lampsickle::journal;
//!
//! let mut page = journal::empty(64).unwrap();
//! journal::append(&mut page, b"rank 1").unwrap();
//! journal::append_cut(&mut page, b"rank 0", 5).unwrap(); // the power fails
//! journal::recover(&mut page).unwrap();
//! assert_eq!(journal::answers(&page).collect::<Vec<_>>(), [b"rank 1"]);
//! ```

use crate::limits::{CLOSING, JOURNAL, JOURNAL_VERSION};
use crate::Refusal;

/// What the library gives back: 0 and 0, or a refusal's number and place.
#[repr(C)]
struct Outcome {
    number: u8,
    place: usize,
}

// `bindings/include/lampsickle_journal.h` has the contracts in words.
extern "C" {
    fn lampsickle_journal_append_cut(
        page: *mut u8,
        page_length: usize,
        answer: *const u8,
        answer_length: usize,
        stores: usize,
    ) -> Outcome;
    fn lampsickle_journal_append(page: *mut u8, page_length: usize, answer: *const u8, answer_length: usize)
        -> Outcome;
    fn lampsickle_journal_recover_cut(page: *mut u8, page_length: usize, stores: usize) -> Outcome;
    fn lampsickle_journal_recover(page: *mut u8, page_length: usize) -> Outcome;
}

fn granted(outcome: Outcome) -> Result<(), Refusal> {
    match outcome.number {
        0 => Ok(()),
        number => Err(Refusal { number, place: outcome.place }),
    }
}

/// Appends an answer. A refusal stores nothing.
pub fn append(page: &mut [u8], answer: &[u8]) -> Result<(), Refusal> {
    // SAFETY: both pointers come from slices, so they aren't null, the lengths
    // are theirs, and a unique and a shared borrow don't overlap. The library
    // reads and writes within them for any bytes and lengths. So below.
    granted(unsafe { lampsickle_journal_append(page.as_mut_ptr(), page.len(), answer.as_ptr(), answer.len()) })
}

/// Makes the first stores of appending, as a power cut behind them leaves the
/// page: two of the length, the answer's, then that of the closing byte.
pub fn append_cut(page: &mut [u8], answer: &[u8], stores: usize) -> Result<(), Refusal> {
    let (start, length) = (page.as_mut_ptr(), page.len());
    // SAFETY: as in `append`.
    granted(unsafe { lampsickle_journal_append_cut(start, length, answer.as_ptr(), answer.len(), stores) })
}

/// Keeps the finished entries and clears the rest. A refusal stores nothing.
pub fn recover(page: &mut [u8]) -> Result<(), Refusal> {
    // SAFETY: as in `append`.
    granted(unsafe { lampsickle_journal_recover(page.as_mut_ptr(), page.len()) })
}

/// Makes the first stores of recovery, from the page's end towards the front.
pub fn recover_cut(page: &mut [u8], stores: usize) -> Result<(), Refusal> {
    // SAFETY: as in `append`.
    granted(unsafe { lampsickle_journal_recover_cut(page.as_mut_ptr(), page.len(), stores) })
}

/// A page without entries, if a page may have that size.
pub fn empty(size: usize) -> Option<Vec<u8>> {
    JOURNAL.holds(size).then(|| {
        let mut page = vec![0; size];
        page[0] = JOURNAL_VERSION;
        page
    })
}

/// The answers of the finished entries from the front. This walk isn't proved.
pub fn answers(page: &[u8]) -> Answers<'_> {
    Answers { rest: page.get(1..).unwrap_or_default() }
}

pub struct Answers<'a> {
    rest: &'a [u8],
}

impl<'a> Iterator for Answers<'a> {
    type Item = &'a [u8];

    fn next(&mut self) -> Option<&'a [u8]> {
        let [high, low, behind @ ..] = self.rest else { return None };
        let length = usize::from(u16::from_be_bytes([*high, *low]));
        if length == 0 || behind.get(length) != Some(&CLOSING) {
            return None;
        }
        self.rest = &behind[length + 1..];
        Some(&behind[..length])
    }
}
