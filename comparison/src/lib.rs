//! The proved library beside the second evaluator.

pub mod fence;
pub mod journal;
pub mod long;
pub mod measure;
pub mod orders;
pub mod register;
pub mod rulings;

use std::fmt::Write;

use second::compare::Implementation;
use second::print::PAGE;
use second::{limits, Outcome};

/// The proved library, as an implementation to compare.
pub fn library(record: &[u8], page: &mut [u8]) -> Outcome {
    let lampsickle::Outcome { number, place, rank, rounds, reached } = lampsickle::answer(record, page);
    Outcome { number, place, rank, rounds, reached }
}

/// What the program prints for a record, if an implementation answers it.
pub fn printed(implementation: Implementation, record: &[u8]) -> String {
    let mut page = [0; PAGE];
    let outcome = implementation(record, &mut page);
    if outcome.number != 0 {
        return format!("refused {} at {}\n", outcome.number, outcome.place);
    }
    // The count of values stands behind the version.
    let mut lines =
        format!("rank {} of {}\nrounds {}\nreached {}\n", outcome.rank, record[1], outcome.rounds, outcome.reached);
    let length = usize::from(u16::from_be_bytes([page[1], page[2]]));
    let entries = page[limits::REPORT_HEAD..][..length].chunks_exact(limits::REPORT_ENTRY);
    for (index, entry) in entries.enumerate() {
        let place = u16::from_be_bytes([entry[1], entry[2]]);
        writeln!(lines, "assertion {index} reason {} at {place}", entry[0]).expect("a string takes all");
    }
    lines
}
