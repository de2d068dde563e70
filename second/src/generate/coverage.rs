//! What the records of a run have met.

use std::collections::BTreeMap;
use std::fmt;

use super::crowd;
use super::float_coverage::FloatCoverage;
use super::pattern_coverage::PatternCoverage;
use super::reference_coverage::ReferenceCoverage;
use crate::environment::Environment;
use crate::eval::Evaluator;
use crate::{check, limits, read_assertions, record, solution_by_bytes, Outcome};

#[derive(Clone, Debug, Default, PartialEq, Eq)]
pub struct Coverage {
    pub numbers: BTreeMap<u8, u64>,
    pub reasons: BTreeMap<u8, u64>,
    pub ranks: BTreeMap<u8, u64>,
    pub rounds: BTreeMap<usize, u64>,
    pub reached: BTreeMap<usize, u64>,
    /// Answers that would be other ones if spellings were principals, by what
    /// would be another.
    pub spellings: BTreeMap<&'static str, u64>,
    /// Queries that are large in one way or another.
    pub crowds: BTreeMap<&'static str, u64>,
    pub patterns: PatternCoverage,
    pub floats: FloatCoverage,
    pub references: ReferenceCoverage,
}

/// What equality of bytes may change.
const SPELLINGS: [&str; 3] = ["rank", "rounds", "reached"];

/// So many different rounds must occur.
const ROUNDS: usize = 20;

/// Ways to be large.
const CROWDS: [&str; 9] = [
    "33 to 199 assertions answered",
    "200 assertions answered",
    "200 assertions in 65,535 bytes answered",
    "201 assertions refused",
    "over 201 assertions refused",
    "an assertion behind the 32nd set aside",
    "the 200th assertion set aside",
    "201 rounds",
    "3,201 principals reached",
];

impl Coverage {
    /// Counts an outcome and, where there is one, its report.
    pub fn count(&mut self, outcome: &Outcome, report: &[u8]) {
        *self.numbers.entry(outcome.number).or_default() += 1;
        if outcome.number != 0 {
            return;
        }
        *self.ranks.entry(outcome.rank).or_default() += 1;
        *self.rounds.entry(outcome.rounds).or_default() += 1;
        *self.reached.entry(outcome.reached).or_default() += 1;
        for entry in report[limits::REPORT_HEAD..].chunks_exact(limits::REPORT_ENTRY) {
            *self.reasons.entry(entry[0]).or_default() += 1;
        }
    }

    /// Counts what tells one query from another.
    pub fn count_query(&mut self, record: &[u8], outcome: &Outcome, report: &[u8]) {
        self.count_spellings(record, outcome);
        self.count_assertions(record);
        let met = crowds(record, outcome, report);
        for (what, _) in CROWDS.iter().zip(met).filter(|(_, met)| *met) {
            *self.crowds.entry(what).or_default() += 1;
        }
    }

    /// Counts what the assertions of a query hold, and what their Conditions meet.
    fn count_assertions(&mut self, record: &[u8]) {
        let Ok(query) = record::read(record) else { return };
        let reading = read_assertions(&query);
        self.references.count(&query, &reading);
        let environment = Environment::new(&query, &reading.store);
        let mut evaluator = Evaluator::new(&environment);
        for assertion in reading.kept.iter() {
            let nodes = assertion.conditions.map_or(&[][..], |row| row.of(&reading.store.nodes));
            let met = evaluator.met(assertion);
            self.patterns.count(nodes, &met.patterns);
            self.floats.count(nodes, &met.floats);
        }
        for (statement, fault) in query.statements.iter().zip(&reading.faults) {
            match fault {
                Some(fault) => self.floats.count_fault(statement.text, *fault),
                None => self.floats.count_literals(statement.text),
            }
        }
    }

    /// Counts an answer that rests on keys with several spellings.
    fn count_spellings(&mut self, record: &[u8], outcome: &Outcome) {
        let Some(other) = solution_by_bytes(record).filter(|_| outcome.number == 0) else { return };
        let changed = [outcome.rank != other.rank, outcome.rounds != other.rounds, outcome.reached != other.reached];
        for (what, _) in SPELLINGS.iter().zip(changed).filter(|(_, changed)| *changed) {
            *self.spellings.entry(what).or_default() += 1;
        }
    }

    /// What should have occurred and didn't.
    pub fn missing(&self) -> Vec<String> {
        let mut missing = Vec::new();
        let mut need = |met: bool, what: String| {
            if !met {
                missing.push(what);
            }
        };
        for number in 0..=record::ROOT_ASKS {
            need(self.numbers.contains_key(&number), format!("number {number}"));
        }
        for reason in check::REASONS {
            need(self.reasons.contains_key(&reason), format!("reason {reason}"));
        }
        for rank in 0..limits::VALUES.most as u8 {
            need(self.ranks.contains_key(&rank), format!("rank {rank}"));
        }
        need(self.rounds.len() >= ROUNDS, format!("{ROUNDS} different rounds"));
        for what in SPELLINGS {
            need(self.spellings.contains_key(what), format!("spellings of one key that change the {what}"));
        }
        for what in CROWDS {
            need(self.crowds.contains_key(what), what.into());
        }
        missing.extend(self.patterns.missing());
        missing.extend(self.floats.missing());
        missing.extend(self.references.missing());
        missing
    }
}

impl fmt::Display for Coverage {
    fn fmt(&self, formatter: &mut fmt::Formatter) -> fmt::Result {
        writeln!(formatter, "numbers {:?}", self.numbers)?;
        writeln!(formatter, "reasons {:?}", self.reasons)?;
        writeln!(formatter, "ranks   {:?}", self.ranks)?;
        writeln!(formatter, "rounds  {:?}", self.rounds)?;
        writeln!(formatter, "reached {:?}", self.reached)?;
        writeln!(formatter, "changed by spellings {:?}", self.spellings)?;
        writeln!(formatter, "large ones {:?}", self.crowds)?;
        writeln!(formatter, "{}", self.patterns)?;
        writeln!(formatter, "{}", self.floats)?;
        write!(formatter, "{}", self.references)
    }
}

/// Which of `CROWDS` an outcome meets.
fn crowds(record: &[u8], outcome: &Outcome, report: &[u8]) -> [bool; CROWDS.len()] {
    let most = limits::ASSERTIONS.most;
    if outcome.number != 0 {
        let count = record.get(outcome.place).map_or(0, |&byte| usize::from(byte));
        let refused = outcome.number == record::COUNT;
        let mut met = [false; CROWDS.len()];
        (met[3], met[4]) = (refused && count == most + 1, refused && count > most + 1);
        return met;
    }
    let entries: Vec<&[u8]> = report[limits::REPORT_HEAD..].chunks_exact(limits::REPORT_ENTRY).collect();
    let aside = |from: usize| entries.iter().skip(from).any(|entry| entry[0] != 0);
    let full = entries.len() == most;
    [
        (crowd::LEAST..most).contains(&entries.len()),
        full,
        full && record.len() == limits::RECORD_BYTES,
        false,
        false,
        aside(crowd::LEAST - 1),
        aside(most - 1),
        outcome.rounds > most,
        outcome.reached > most * limits::LICENSEES,
    ]
}
