//! Answers to KeyNote (RFC 2704) queries, by the proved static library.
//!
//! [`answer`] is the library's function with slices for pointers; [`ask`] brings
//! the page and reads the report. [`Query`] builds records. [`journal`] keeps
//! answers on a page.
//!
//! ```
//! use lampsickle::{ask, Query};
//!
//! let mut query = Query::default();
//! query.values = vec![b"hold".to_vec(), b"immediate".to_vec()];
//! query.requesters = vec![b"a".to_vec()];
//! query.local("Authorizer: \"POLICY\"\nLicensees: \"a\"");
//! let answer = ask(&query.record().unwrap()).unwrap();
//! assert_eq!((answer.rank, answer.rounds, answer.reached), (1, 2, 2));
//! assert_eq!(answer.entries[0].reason, 0);
//! ```

pub mod journal;
pub mod limits;
mod query;
pub mod register;

pub use query::{Fault, Item, Query, Standing, What};

/// The result of a query, as the library gives it.
#[repr(C)]
#[derive(Clone, Copy, Debug, Default, PartialEq, Eq)]
pub struct Outcome {
    /// 0 for an answer, 1 to 10 for a refusal.
    pub number: u8,
    /// Where in the record a refusal's cause lies.
    pub place: usize,
    /// The class: 0 for the weakest compliance value.
    pub rank: u8,
    /// How many rounds the ranks took to settle.
    pub rounds: usize,
    /// How many principals POLICY reaches, itself among them.
    pub reached: usize,
}

// `bindings/include/lampsickle.h` has the contract in words.
extern "C" {
    fn lampsickle_answer(record: *const u8, record_length: usize, page: *mut u8, page_length: usize) -> Outcome;
}

/// Answers the query in a record and writes the report to the front of a page.
///
/// Any record and any page will do. An answer to n assertions writes 3 + 3n
/// bytes; a refusal writes nothing.
pub fn answer(record: &[u8], page: &mut [u8]) -> Outcome {
    // SAFETY: both pointers come from slices, so they aren't null, the lengths
    // are theirs, and a shared and a unique borrow don't overlap. The library
    // reads and writes within them for any bytes and lengths.
    unsafe { lampsickle_answer(record.as_ptr(), record.len(), page.as_mut_ptr(), page.len()) }
}

/// An answered query.
#[derive(Clone, Debug, PartialEq, Eq)]
pub struct Answer {
    pub rank: u8,
    pub rounds: usize,
    pub reached: usize,
    /// What became of each assertion, in the record's order.
    pub entries: Vec<Entry>,
}

/// What became of an assertion: reason 0 is kept; else the place lies in its text.
#[derive(Clone, Copy, Debug, PartialEq, Eq)]
pub struct Entry {
    pub reason: u8,
    pub place: usize,
}

/// A refusal: why, and where in the record or the register's bytes.
#[derive(Clone, Copy, Debug, PartialEq, Eq)]
pub struct Refusal {
    pub number: u8,
    pub place: usize,
}

/// Answers the query in a record.
pub fn ask(record: &[u8]) -> Result<Answer, Refusal> {
    let mut page = [0; limits::PAGE];
    let outcome = answer(record, &mut page);
    match outcome.number {
        0 => {
            Ok(Answer { rank: outcome.rank, rounds: outcome.rounds, reached: outcome.reached, entries: entries(&page) })
        }
        number => Err(Refusal { number, place: outcome.place }),
    }
}

fn entries(page: &[u8; limits::PAGE]) -> Vec<Entry> {
    let (head, rest) = page.split_at(limits::REPORT_HEAD);
    let length = usize::from(u16::from_be_bytes([head[1], head[2]]));
    let entry = |entry: &[u8]| Entry { reason: entry[0], place: usize::from(u16::from_be_bytes([entry[1], entry[2]])) };
    rest[..length].chunks_exact(limits::REPORT_ENTRY).map(entry).collect()
}
