//! What the pattern tests of a run have met.

use std::collections::BTreeMap;
use std::fmt;

use crate::eval::PatternTest;
use crate::limits;
use crate::pattern::{Fault, FAULTS};
use crate::store::Node;

#[derive(Clone, Debug, Default, PartialEq, Eq)]
pub struct PatternCoverage {
    pub kinds: BTreeMap<&'static str, u64>,
    pub faults: BTreeMap<Fault, u64>,
}

/// What tests must meet.
const KINDS: [&str; 12] = [
    "a match",
    "a miss",
    "a match of 256 bytes of pattern",
    "a match in 4,096 bytes",
    "a miss in 4,096 bytes",
    "a match of nothing in an empty string",
    "a literal",
    "a name",
    "a \"$\"",
    "joined",
    "an error under \"!\"",
    "an error before \"||\"",
];

impl PatternCoverage {
    /// Counts what the Conditions of an assertion hold and met.
    pub fn count(&mut self, nodes: &[Node], tests: &[PatternTest]) {
        tests.iter().for_each(|test| self.count_test(test));
        self.count_nodes(nodes, tests.iter().any(|test| test.found.is_err()));
    }

    fn count_test(&mut self, test: &PatternTest) {
        let found = match test.found {
            Ok(found) => found,
            Err(fault) => return *self.faults.entry(fault).or_default() += 1,
        };
        let longest = test.string.len() == limits::STRING_BYTES;
        let met = [
            found,
            !found,
            found && test.pattern.len() == limits::PATTERN_BYTES,
            found && longest,
            !found && longest,
            found && test.string.is_empty(),
        ];
        self.add_kinds(0, &met);
    }

    /// Where patterns come from, and what stands around those with an error.
    fn count_nodes(&mut self, nodes: &[Node], error: bool) {
        for pair in nodes.windows(2) {
            let met = match pair[1] {
                Node::Match => [
                    matches!(pair[0], Node::Text(_)),
                    matches!(pair[0], Node::Name(_)),
                    matches!(pair[0], Node::Dereference),
                    matches!(pair[0], Node::Join),
                    false,
                    false,
                ],
                after if pair[0] == Node::Match => {
                    let (not, or) = (matches!(after, Node::Not), matches!(after, Node::Or { .. }));
                    [false, false, false, false, error && not, error && or]
                }
                _ => continue,
            };
            self.add_kinds(6, &met);
        }
    }

    fn add_kinds(&mut self, first: usize, met: &[bool]) {
        for (kind, _) in KINDS[first..].iter().zip(met).filter(|(_, met)| **met) {
            *self.kinds.entry(kind).or_default() += 1;
        }
    }

    pub fn merge(&mut self, other: &Self) {
        for (kind, count) in &other.kinds {
            *self.kinds.entry(kind).or_default() += count;
        }
        for (fault, count) in &other.faults {
            *self.faults.entry(*fault).or_default() += count;
        }
    }

    /// What should have occurred and didn't.
    pub fn missing(&self) -> impl Iterator<Item = String> + '_ {
        let kinds =
            KINDS.into_iter().filter(|kind| !self.kinds.contains_key(kind)).map(|kind| format!("pattern: {kind}"));
        let faults = FAULTS.into_iter().filter(|fault| !self.faults.contains_key(fault));
        kinds.chain(faults.map(|fault| format!("pattern: fault {fault:?}")))
    }
}

impl fmt::Display for PatternCoverage {
    fn fmt(&self, formatter: &mut fmt::Formatter) -> fmt::Result {
        write!(formatter, "patterns {:?}\ninvalid {:?}", self.kinds, self.faults)
    }
}
