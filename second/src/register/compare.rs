//! Compares two implementations on sequences of calls, step by step.

use std::collections::{BTreeMap, BTreeSet};

use super::sequence::{start, Manner, Start, STARTS};
use super::{layout, Call, Implementation, Reply, NUMBERS};
use crate::limits::REGISTER_PLACES;
use crate::random::Random;

/// How many calls a sequence has.
const CALLS: usize = 400;

/// What the sequences of a run met.
#[derive(Clone, Debug, Default, PartialEq, Eq)]
pub struct Met {
    pub calls: u64,
    /// How often each number was given; 0 where it was granted.
    pub numbers: BTreeMap<u8, u64>,
    /// Works of principals found, and of principals not held.
    pub found: BTreeSet<usize>,
    pub not_held: BTreeSet<usize>,
    /// Granted calls that passed to oneself.
    pub to_oneself: u64,
    /// Numbers given in sequences from each start.
    pub starts: BTreeSet<(Start, u8)>,
}

impl Met {
    /// What should have occurred and didn't.
    pub fn missing(&self) -> Vec<String> {
        let mut missing = Vec::new();
        for number in [0, 2, 5, 6].into_iter().chain(NUMBERS) {
            if !self.numbers.contains_key(&number) {
                missing.push(format!("number {number}"));
            }
        }
        for (start, number) in [
            (Start::Empty, 0),
            (Start::Empty, 18),
            (Start::Sound, 0),
            (Start::Twice, 20),
            (Start::TooManyHeld, 20),
            (Start::TooManyIssued, 20),
            (Start::Huge, 20),
            (Start::Noise, 20),
        ] {
            if !self.starts.contains(&(start, number)) {
                missing.push(format!("number {number} from {start:?}"));
            }
        }
        missing
            .extend((1..=REGISTER_PLACES).filter(|work| !self.found.contains(work)).map(|n| format!("found by {n}")));
        missing
            .extend((0..=REGISTER_PLACES).filter(|work| !self.not_held.contains(work)).map(|n| format!("not in {n}")));
        if self.to_oneself == 0 {
            missing.push("passing to oneself".into());
        }
        missing
    }

    fn count(&mut self, start: Start, call: Call, reply: Reply) {
        self.calls += 1;
        let number = match reply {
            Reply::Refused(number, _) => number,
            Reply::Granted => 0,
            Reply::Found(place, work) => {
                let works = if place.is_some() { &mut self.found } else { &mut self.not_held };
                works.insert(work);
                return;
            }
        };
        *self.numbers.entry(number).or_default() += 1;
        self.starts.insert((start, number));
        self.to_oneself += u64::from(number == 0 && matches!(call, Call::Pass(one, other, _) if one == other));
    }
}

/// Compares on the sequences 0 to count - 1 of a seed: each reply, and every
/// byte after it.
pub fn run(reference: Implementation, tested: Implementation, seed: u64, count: u64) -> Result<Met, String> {
    let mut met = Met::default();
    for number in 0..count {
        let mut random = Random::new(seed ^ number.rotate_left(32));
        // Every second one starts from the empty register.
        let begin = if number % 2 == 0 { Start::Empty } else { *random.pick(&STARTS) };
        sequence(reference, tested, &mut random, begin, &mut met)
            .map_err(|what| format!("sequence {number} of seed {seed}, {begin:?}: {what}"))?;
    }
    Ok(met)
}

fn sequence(
    reference: Implementation,
    tested: Implementation,
    random: &mut Random,
    begin: Start,
    met: &mut Met,
) -> Result<(), String> {
    let mut bytes = start(random, begin);
    let mut manner = Manner::new(random);
    let mut account = Account::default();
    for step in 0..CALLS {
        if random.once_in(100) {
            manner = Manner::new(random);
        }
        let call = manner.call(random, &bytes);
        let (mut one, mut other) = (bytes.clone(), bytes.clone());
        let (expected, found) = (reference(&mut one, call), tested(&mut other, call));
        let fail = |what: String| Err(format!("step {step}, {call:?}: {what}"));
        if found != expected {
            return fail(format!("{expected:?} is expected, {found:?} is found"));
        }
        if other != one {
            return fail(format!("other bytes after {found:?}"));
        }
        if found != Reply::Granted && other != bytes {
            return fail(format!("bytes are changed by {found:?}"));
        }
        if begin == Start::Empty {
            account.note(call, found);
            account.check(&other).or_else(fail)?;
        }
        met.count(begin, call, found);
        bytes = other;
    }
    Ok(())
}

/// What was issued and spent by the granted calls from an empty register.
#[derive(Default)]
struct Account {
    issued: u128,
    spent: u128,
    damaged: bool,
}

impl Account {
    fn note(&mut self, call: Call, reply: Reply) {
        match (call, reply) {
            (Call::Issue(_, amount), Reply::Granted) => self.issued += u128::from(amount),
            (Call::Spend(_, amount), Reply::Granted) => self.spent += u128::from(amount),
            (_, Reply::Refused(20, _)) => self.damaged = true,
            _ => (),
        }
    }

    fn check(&self, bytes: &[u8]) -> Result<(), String> {
        let register = layout::read(bytes).map_err(|refusal| format!("refused: {refusal:?}"))?;
        let held = self.issued.checked_sub(self.spent);
        match held == Some(register.held()) && u128::from(register.issued()) == self.issued && !self.damaged {
            true => Ok(()),
            false => Err(format!("issued {} spent {}, but {register:?}", self.issued, self.spent)),
        }
    }
}
