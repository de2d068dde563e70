//! More paper: pairs of queries, of which one has an assertion more, or the
//! same assertions in another order, or another text in the place of one
//! outside the reach. What an evaluator answers to both is held together.

use std::collections::BTreeMap;

use crate::check::POLICY;
use crate::compare::{demand, Difference, Implementation};
use crate::draft::Draft;
use crate::generate::{self, expression};
use crate::limits;
use crate::print::PAGE;
use crate::random::Random;
use crate::reach::{self, Place, Reach};
use crate::record::{self, Query};
use crate::{read_assertions, Outcome, Reading};

/// What pairs must meet.
const KINDS: [&str; 10] = [
    "added: the rank rises",
    "added: only rounds or reach change",
    "added: nothing changes",
    "added: set aside",
    "permuted: the report is another",
    "permuted: the report stays",
    "replaced: set aside by set aside",
    "replaced: set aside by kept",
    "replaced: kept by set aside",
    "replaced: kept by kept",
];

/// So often a text is looked for that may replace another.
const TRIES: usize = 4;

/// How many pairs of each kind a run met.
#[derive(Clone, Debug, Default)]
pub struct Paper {
    pub kinds: BTreeMap<&'static str, u64>,
}

impl Paper {
    pub fn pairs(&self) -> u64 {
        self.kinds.values().sum()
    }

    /// The kinds of which there are fewer than `least` pairs.
    pub fn missing(&self, least: u64) -> Vec<&'static str> {
        KINDS.into_iter().filter(|kind| self.kinds.get(kind).is_none_or(|&count| count < least)).collect()
    }

    fn count(&mut self, kind: &'static str) {
        *self.kinds.entry(kind).or_default() += 1;
    }
}

/// An evaluator's answer to an accepted query.
#[derive(Clone, Debug, PartialEq, Eq)]
struct Answer {
    outcome: Outcome,
    entries: Vec<[u8; limits::REPORT_ENTRY]>,
}

/// A query, what it is answered, and the second evaluator's reading of it.
struct Case<'a> {
    tested: Implementation,
    draft: Draft,
    answer: Answer,
    reach: Reach,
    places: Vec<Place>,
    /// Identifiers that the query mentions, and a stranger.
    names: Vec<Vec<u8>>,
    random: &'a mut Random,
}

/// Holds an evaluator's answers together on pairs made from the records of a
/// seed that are accepted.
pub fn run(tested: Implementation, seed: u64, count: u64) -> Result<Paper, Box<Difference>> {
    let mut paper = Paper::default();
    for number in 0..count {
        let record = generate::record(seed, number);
        let Ok(query) = record::read(&record) else { continue };
        let mut random = Random::new(seed ^ number.rotate_left(32));
        let mut case = Case::new(tested, &query, &mut random)?;
        case.add(&mut paper)?;
        case.take_away(&mut paper)?;
        case.permute(&mut paper)?;
        case.replace(&mut paper)?;
    }
    Ok(paper)
}

impl<'a> Case<'a> {
    fn new(tested: Implementation, query: &Query, random: &'a mut Random) -> Result<Self, Box<Difference>> {
        let reading = read_assertions(query);
        let reach = reach::of(query, &reading);
        let places = reach::places(query, &reading, &reach);
        let draft = Draft::of(query);
        let answer = ask(tested, &draft)?;
        Ok(Self { tested, draft, answer, reach, places, names: names(query, &reading), random })
    }

    /// An assertion more, at any place.
    fn add(&mut self, paper: &mut Paper) -> Result<(), Box<Difference>> {
        let names = self.names.clone();
        let assertion = self.assertion(&names);
        let place = self.random.below(self.draft.assertions.len() + 1);
        let mut more = self.draft.clone();
        more.assertions.insert(place, assertion);
        if !fits(&more) {
            return Ok(());
        }
        let after = ask(self.tested, &more)?;
        added(&self.answer, &after, place, &more, paper)
    }

    /// The query itself has an assertion more than one without it.
    fn take_away(&mut self, paper: &mut Paper) -> Result<(), Box<Difference>> {
        if self.draft.assertions.is_empty() {
            return Ok(());
        }
        let place = self.random.below(self.draft.assertions.len());
        let mut less = self.draft.clone();
        less.assertions.remove(place);
        let before = ask(self.tested, &less)?;
        added(&before, &self.answer, place, &self.draft, paper)
    }

    /// Rank, rounds and reached stay, and the entries move with the assertions.
    fn permute(&mut self, paper: &mut Paper) -> Result<(), Box<Difference>> {
        let mut order: Vec<usize> = (0..self.draft.assertions.len()).collect();
        for place in (1..order.len()).rev() {
            order.swap(place, self.random.below(place + 1));
        }
        if order.is_sorted() {
            return Ok(());
        }
        let mut permuted = self.draft.clone();
        permuted.assertions = order.iter().map(|&place| self.draft.assertions[place].clone()).collect();
        let found = ask(self.tested, &permuted)?;
        let entries = order.iter().map(|&place| self.answer.entries[place]).collect();
        let expected = Answer { outcome: self.answer.outcome, entries };
        demand(&permuted.record(), found == expected, || format!("{expected:?} before in order {order:?}, {found:?}"))?;
        let other = found.entries != self.answer.entries;
        paper.count(if other { "permuted: the report is another" } else { "permuted: the report stays" });
        Ok(())
    }

    /// Of an assertion outside the reach only its own entry changes when one
    /// takes its place that is set aside, or made outside that reach.
    fn replace(&mut self, paper: &mut Paper) -> Result<(), Box<Difference>> {
        let outside: Vec<usize> = (0..self.places.len()).filter(|&place| self.places[place] != Place::Within).collect();
        if outside.is_empty() {
            return Ok(());
        }
        let place = *self.random.pick(&outside);
        let Some((replaced, other)) = self.replaced(place) else { return Ok(()) };
        let found = ask(self.tested, &replaced)?;
        let mut expected = self.answer.clone();
        expected.entries[place] = found.entries[place];
        demand(&replaced.record(), found == expected, || format!("{expected:?} before {place} changed, {found:?}"))?;
        paper.count(match (self.places[place], other) {
            (Place::SetAside, Place::SetAside) => "replaced: set aside by set aside",
            (Place::SetAside, _) => "replaced: set aside by kept",
            (_, Place::SetAside) => "replaced: kept by set aside",
            _ => "replaced: kept by kept",
        });
        Ok(())
    }

    /// The query with another assertion at a place, that may stand there.
    fn replaced(&mut self, place: usize) -> Option<(Draft, Place)> {
        let strangers: Vec<Vec<u8>> = self.names.iter().filter(|name| !self.reach.holds(name)).cloned().collect();
        for _ in 0..TRIES {
            let mut replaced = self.draft.clone();
            replaced.assertions[place] = self.assertion(&strangers);
            let record = replaced.record();
            let Some(query) = record::read(&record).ok().filter(|_| fits(&replaced)) else { continue };
            let other = reach::places(&query, &read_assertions(&query), &self.reach)[place];
            if other != Place::Within {
                return Some((replaced, other));
            }
        }
        None
    }

    /// An assertion by one of the authorizers, or any other.
    fn assertion(&mut self, authorizers: &[Vec<u8>]) -> (u8, Vec<u8>) {
        let standing = *self.random.pick(&[1, 1, 1, 1, 2, 2, 0]);
        match self.random.below(6) {
            0 => other_record(self.random),
            1 if !self.draft.assertions.is_empty() => (standing, self.random.pick(&self.draft.assertions).1.clone()),
            2 => {
                let mut text = self.delegation(authorizers);
                generate::damage::bytes(self.random, &mut text);
                (standing, text)
            }
            _ => (standing, self.delegation(authorizers)),
        }
    }

    fn delegation(&mut self, authorizers: &[Vec<u8>]) -> Vec<u8> {
        let authorizer = self.random.pick(authorizers).clone();
        let most = self.random.between(1, 4);
        let licensees = expression::licensees(self.random, &self.names, most).join(&b' ');
        let authorizer = expression::literal(self.random, &authorizer);
        let mut text = [b"Authorizer: ", &authorizer[..], b"\nLicensees: ", &licensees].concat();
        if self.random.once_in(3) {
            let value = self.random.pick(&self.draft.values).clone();
            let value = expression::literal(self.random, &value);
            text.extend([b"\nConditions: true -> ", &value[..], b";"].concat());
        }
        text
    }
}

/// Adding never lowers the rank.
fn added(
    before: &Answer,
    after: &Answer,
    place: usize,
    more: &Draft,
    paper: &mut Paper,
) -> Result<(), Box<Difference>> {
    let (less, outcome) = (before.outcome, after.outcome);
    demand(&more.record(), less.rank <= outcome.rank, || format!("{less:?} without assertion {place}, {outcome:?}"))?;
    paper.count(match (after.entries[place][0], less == outcome) {
        (1.., _) => "added: set aside",
        (_, true) => "added: nothing changes",
        _ if less.rank < outcome.rank => "added: the rank rises",
        _ => "added: only rounds or reach change",
    });
    Ok(())
}

fn ask(tested: Implementation, draft: &Draft) -> Result<Answer, Box<Difference>> {
    let record = draft.record();
    let mut page = [0; PAGE];
    let outcome = tested(&record, &mut page);
    demand(&record, outcome.number == 0, || format!("{outcome:?} for a query that is fine"))?;
    let entries = page[limits::REPORT_HEAD..].chunks_exact(limits::REPORT_ENTRY).take(draft.assertions.len());
    Ok(Answer { outcome, entries: entries.map(|entry| [entry[0], entry[1], entry[2]]).collect() })
}

fn fits(draft: &Draft) -> bool {
    let texts = draft.assertions.iter().all(|(_, text)| limits::TEXT_BYTES.holds(text.len()));
    texts && limits::ASSERTIONS.holds(draft.assertions.len()) && draft.record().len() <= limits::RECORD_BYTES
}

fn names(query: &Query, reading: &Reading) -> Vec<Vec<u8>> {
    let show = |piece| reading.store.show(query, piece);
    let authorizers = reading.kept.iter().map(|assertion| show(assertion.authorizer));
    let licensees = reading.store.principals.iter().map(|&piece| show(piece));
    let mentioned = authorizers.chain(licensees).chain(query.requesters.iter().copied());
    // Those who ask, and POLICY, make a difference more often.
    let often = query.requesters.iter().copied().cycle().take(8).chain([POLICY, b"a stranger"]);
    mentioned.chain(often).map(|name| name.to_vec()).collect()
}

/// An assertion of some other record.
fn other_record(random: &mut Random) -> (u8, Vec<u8>) {
    loop {
        let record = generate::record(random.number(), random.number());
        if let Some(statement) = record::read(&record).ok().and_then(|query| query.statements.first().copied()) {
            return (statement.standing, statement.text.to_vec());
        }
    }
}
