//! An independent second evaluator of KeyNote (RFC 2704) queries.
//!
//! It is written from the rules alone, to be compared with another evaluator.
//! Reason 2 is decided by Earley's recognizer over the grammars as data.

pub mod assertion;
pub mod bounded;
pub mod check;
pub mod compare;
pub mod compliance;
pub mod draft;
pub mod earley;
pub mod environment;
pub mod eval;
pub mod float;
pub mod generate;
pub mod grammar;
pub mod identify;
pub mod integer;
pub mod journal;
pub mod licence;
pub mod limits;
pub mod line;
pub mod literal;
pub mod names;
pub mod paper;
pub mod parse;
pub mod pattern;
pub mod principal;
pub mod print;
pub mod random;
pub mod reach;
pub mod record;
pub mod register;
pub mod store;
pub mod token;
pub mod unread;
pub mod workload;

use compliance::Solution;
use environment::Environment;
use line::{Fault, Listing};
use record::Query;
use store::{Assertion, Formed, Store};

/// The result of a query. A refusal has a number above 0 and gives no ranks.
#[derive(Clone, Copy, Debug, Default, PartialEq, Eq)]
pub struct Outcome {
    pub number: u8,
    pub place: usize,
    pub rank: u8,
    pub rounds: usize,
    pub reached: usize,
}

impl Outcome {
    fn refused(number: u8, place: usize) -> Self {
        Self { number, place, ..Self::default() }
    }
}

/// Answers the query in a record and writes the report to the front of a page.
/// A refusal writes nothing.
pub fn answer(record: &[u8], page: &mut [u8]) -> Outcome {
    let query = match record::read(record) {
        Ok(query) => query,
        Err(refusal) => return Outcome::refused(refusal.number, refusal.place),
    };
    let Some(report) = page.get_mut(..query.report_bytes()) else {
        return Outcome::refused(record::ROOM, 0);
    };
    let reading = read_assertions(&query);
    write_report(&reading.faults, report);
    let environment = Environment::new(&query, &reading.store);
    let solution = compliance::solve(&environment, &reading.kept, principal::canonical);
    Outcome { number: 0, place: 0, rank: solution.rank, rounds: solution.rounds, reached: solution.reached }
}

/// The solution if identifiers were equal by their bytes; none for a refusal.
pub fn solution_by_bytes(record: &[u8]) -> Option<Solution> {
    let query = record::read(record).ok()?;
    let reading = read_assertions(&query);
    let environment = Environment::new(&query, &reading.store);
    Some(compliance::solve(&environment, &reading.kept, principal::spelled))
}

/// The assertions of a query: those kept, and each one's fault or none.
pub struct Reading {
    pub store: Store,
    /// Each text that is well formed but for what its expressions for identifiers
    /// give: all that are kept, and those set aside in this query.
    pub formed: Vec<Option<Formed>>,
    pub kept: Vec<Assertion>,
    pub faults: Vec<Option<Fault>>,
}

impl Reading {
    /// Every assertion in order, if it is kept.
    pub fn assertions(&self) -> impl Iterator<Item = Option<&Assertion>> {
        let mut kept = self.kept.iter();
        self.faults.iter().map(move |fault| if fault.is_none() { kept.next() } else { None })
    }
}

/// Reads every text to its end, then gives the formed ones their identifiers.
pub fn read_assertions(query: &Query) -> Reading {
    let count = query.statements.len();
    let mut store = Store::default();
    let mut formed = Vec::with_capacity(count);
    let mut faults = Vec::with_capacity(count);
    let mut listing = Listing::new();
    for statement in query.statements.iter() {
        match assertion::read(statement, &mut listing, &mut store) {
            Ok(text) => {
                formed.push(Some(text));
                faults.push(None);
            }
            Err(fault) => {
                formed.push(None);
                faults.push(Some(fault));
            }
        }
    }
    let kept = identify::all(query, &formed, &mut store, &mut faults);
    Reading { store, formed, kept, faults }
}

fn write_report(faults: &[Option<Fault>], report: &mut [u8]) {
    let (head, entries) = report.split_at_mut(limits::REPORT_HEAD);
    let length = (entries.len() as u16).to_be_bytes();
    head.copy_from_slice(&[limits::REPORT_VERSION, length[0], length[1]]);
    for (entry, fault) in entries.chunks_exact_mut(limits::REPORT_ENTRY).zip(faults) {
        let (reason, place) = fault.map_or((0, 0), |fault| (fault.reason, fault.place as u16));
        let place = place.to_be_bytes();
        entry.copy_from_slice(&[reason, place[0], place[1]]);
    }
}
