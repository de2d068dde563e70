//! Compares an implementation with another: results, reports, and every byte
//! of the page before and after.

use std::io::{self, Write};
use std::process::{Command, Stdio};

use crate::generate::{self, coverage::Coverage};
use crate::limits;
use crate::print::{print, PAGE};
use crate::random::Random;
use crate::record::ROOM;
use crate::unread;
use crate::Outcome;

/// An evaluator: it takes a record and a page.
pub type Implementation = fn(&[u8], &mut [u8]) -> Outcome;

/// How far the sizes of pages lie around the need.
const AROUND: usize = 3;

/// What differs, and on which record.
#[derive(Clone, Debug, PartialEq, Eq)]
pub struct Difference {
    pub what: String,
    pub record: Vec<u8>,
}

impl Difference {
    /// The record in hexadecimal digits.
    pub fn hex(&self) -> String {
        self.record.iter().map(|byte| format!("{byte:02x}")).collect()
    }
}

/// A run: what it met, and how many pairs of demand 3 it compared.
#[derive(Clone, Debug, Default)]
pub struct Run {
    pub coverage: Coverage,
    pub pairs: u64,
    /// Pairs whose records differ.
    pub differing_pairs: u64,
}

/// Compares two implementations on the records of a seed and on their partners.
pub fn run(reference: Implementation, tested: Implementation, seed: u64, count: u64) -> Result<Run, Box<Difference>> {
    let mut random = Random::new(seed);
    let mut run = Run::default();
    for number in 0..count {
        let record = generate::record(seed, number);
        compare(reference, tested, &record, &mut random, &mut run.coverage)?;
        if let Some(partner) = unread::partner(&mut random, &record) {
            compare_pair(tested, &record, &partner, &mut random)?;
            run.pairs += 1;
            run.differing_pairs += u64::from(partner != record);
        }
    }
    Ok(run)
}

/// Compares two implementations on one record with pages of all sizes around
/// the need.
pub fn compare(
    reference: Implementation,
    tested: Implementation,
    record: &[u8],
    random: &mut Random,
    coverage: &mut Coverage,
) -> Result<(), Box<Difference>> {
    let need = need(reference, record);
    let further = need + random.between(AROUND + 1, 300);
    let around = need.saturating_sub(AROUND)..=need + AROUND;
    let none = (need > AROUND).then_some(0);
    for size in none.into_iter().chain(around).chain([further]) {
        let noise = noise(random, size);
        let expected = once(reference, record, &noise);
        let found = once(tested, record, &noise);
        demand(record, found == expected, || format!("{expected:?} is expected, {found:?} is found, page of {size}"))?;
        demand(record, keeps(&found, &noise, need), || format!("bytes are touched, page of {size}"))?;
        let again = once(tested, record, &noise);
        demand(record, again == found, || format!("{again:?} the second time, {found:?} the first"))?;
        if size == need || found.0.number == ROOM {
            coverage.count(&found.0, &found.1);
        }
        if size == need {
            coverage.count_query(record, &found.0, &found.1);
        }
    }
    Ok(())
}

/// Demand 3: two queries alike but for attributes not read are given the same.
pub fn compare_pair(
    tested: Implementation,
    record: &[u8],
    partner: &[u8],
    random: &mut Random,
) -> Result<(), Box<Difference>> {
    let (first_room, second_room) = (PAGE + random.below(9), PAGE + random.below(9));
    let first = once(tested, record, &noise(random, first_room));
    let second = once(tested, partner, &noise(random, second_room));
    let outcomes = (first.0, second.0);
    demand(record, outcomes.0 == outcomes.1, || format!("{outcomes:?} for a pair"))?;
    let length = limits::REPORT_HEAD + usize::from(u16::from_be_bytes([first.1[1], first.1[2]]));
    let report = |page: &[u8]| page[..length.min(PAGE)].to_vec();
    demand(record, report(&first.1) == report(&second.1), || "the reports of a pair differ".into())
}

/// Compares what a program prints for the records of a seed with what the
/// second evaluator's program prints. The program reads its standard input.
pub fn run_program(program: &str, seed: u64, count: u64) -> io::Result<Result<(), Box<Difference>>> {
    for number in 0..count {
        let record = generate::record(seed, number);
        let (expected, found) = (print(&record), printed(program, &record)?);
        let same = demand(&record, found == expected.as_bytes(), || {
            format!("{expected}is expected, printed is\n{}", String::from_utf8_lossy(&found))
        });
        if same.is_err() {
            return Ok(same);
        }
    }
    Ok(Ok(()))
}

fn printed(program: &str, record: &[u8]) -> io::Result<Vec<u8>> {
    let mut child = Command::new(program).stdin(Stdio::piped()).stdout(Stdio::piped()).spawn()?;
    let mut input = child.stdin.take().expect("a piped input");
    // A program may stop reading a record that is too long.
    match input.write_all(record) {
        Err(error) if error.kind() != io::ErrorKind::BrokenPipe => return Err(error),
        _ => drop(input),
    }
    Ok(child.wait_with_output()?.stdout)
}

/// The bytes that the report takes; 0 for a refusal.
fn need(reference: Implementation, record: &[u8]) -> usize {
    let mut page = [0; PAGE];
    match reference(record, &mut page).number {
        0 => limits::REPORT_HEAD + usize::from(u16::from_be_bytes([page[1], page[2]])),
        _ => 0,
    }
}

fn once(implementation: Implementation, record: &[u8], noise: &[u8]) -> (Outcome, Vec<u8>) {
    let mut page = noise.to_vec();
    let outcome = implementation(record, &mut page);
    (outcome, page)
}

/// Whether bytes beyond the report, or all after a refusal, kept their values.
fn keeps(found: &(Outcome, Vec<u8>), noise: &[u8], need: usize) -> bool {
    let written = if found.0.number == 0 { need } else { 0 };
    let plain = found.0.number == 0 || (found.0.rank, found.0.rounds, found.0.reached) == (0, 0, 0);
    plain && found.1[written..] == noise[written..]
}

fn noise(random: &mut Random, size: usize) -> Vec<u8> {
    let mut noise = vec![0; size];
    random.fill(&mut noise);
    noise
}

pub(crate) fn demand(record: &[u8], fine: bool, what: impl FnOnce() -> String) -> Result<(), Box<Difference>> {
    match fine {
        true => Ok(()),
        false => Err(Box::new(Difference { what: what(), record: record.to_vec() })),
    }
}
