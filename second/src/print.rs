//! What the program prints for a record.

use std::fmt::Write;

use crate::limits;
use crate::{answer, record};

/// A page that any report fits on.
pub const PAGE: usize = limits::REPORT_HEAD + limits::REPORT_ENTRY * limits::ASSERTIONS.most;

pub fn print(record: &[u8]) -> String {
    let mut page = [0; PAGE];
    let outcome = answer(record, &mut page);
    if outcome.number != 0 {
        return format!("refused {} at {}\n", outcome.number, outcome.place);
    }
    let values = record::read(record).map_or(0, |query| query.values.len());
    let mut lines =
        format!("rank {} of {values}\nrounds {}\nreached {}\n", outcome.rank, outcome.rounds, outcome.reached);
    let length = usize::from(u16::from_be_bytes([page[1], page[2]]));
    let entries = page[limits::REPORT_HEAD..][..length].chunks_exact(limits::REPORT_ENTRY);
    for (index, entry) in entries.enumerate() {
        let place = u16::from_be_bytes([entry[1], entry[2]]);
        writeln!(lines, "assertion {index} reason {} at {place}", entry[0]).expect("a string takes all");
    }
    lines
}
