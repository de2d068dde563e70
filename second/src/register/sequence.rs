//! Generated registers to start from, and calls that suit what is held.

use super::{layout, Call, Principal, Register};
use crate::limits::{REGISTER_BYTES, REGISTER_HEAD, REGISTER_MOVES, REGISTER_PLACE, REGISTER_PLACES};
use crate::random::Random;

/// What a sequence starts from.
#[derive(Clone, Copy, Debug, PartialEq, Eq, PartialOrd, Ord)]
pub enum Start {
    Empty,
    /// Sound, with free places between held ones and numbers left at them.
    Sound,
    Twice,
    TooManyHeld,
    TooManyIssued,
    /// Moves whose sum is over eight bytes.
    Huge,
    WrongLength,
    WrongVersion,
    WrongByte,
    /// Bytes behind the right version, each as it comes.
    Noise,
}

pub const STARTS: [Start; 10] = [
    Start::Empty,
    Start::Sound,
    Start::Twice,
    Start::TooManyHeld,
    Start::TooManyIssued,
    Start::Huge,
    Start::WrongLength,
    Start::WrongVersion,
    Start::WrongByte,
    Start::Noise,
];

/// The bytes that a sequence starts from.
pub fn start(random: &mut Random, start: Start) -> Vec<u8> {
    let mut register = match start {
        Start::Empty => return layout::write(&Register::default()).to_vec(),
        _ => sound(random),
    };
    let issued = register.issued();
    match start {
        Start::Twice => {
            let &(_, principal, _) = random.pick(&register.places());
            register.put(free(random, &register), principal, 0);
        }
        Start::TooManyHeld => register.set_issued((register.held() as u64).saturating_sub(1)),
        Start::TooManyIssued => register.set_issued(REGISTER_MOVES + random.between(1, 3) as u64 * issued.max(1)),
        Start::Huge => {
            register.put(free(random, &register), 1_000, u64::MAX);
            register.put(free(random, &register), 1_001, u64::MAX - random.number() % 3);
        }
        _ => (),
    }
    let mut bytes = layout::write(&register).to_vec();
    leave_numbers(random, &mut bytes);
    damage(random, start, &mut bytes);
    bytes
}

/// At least one principal, at least two places free, moves held and issued
/// in the limit. Most hold something.
fn sound(random: &mut Random) -> Register {
    let mut register = Register::default();
    let mut issued = 0;
    for principal in 0..random.between(1, REGISTER_PLACES - 2) as Principal {
        let moves = if random.once_in(4) { 0 } else { random.between(1, 15_000) as u64 };
        register.put(free(random, &register), principal, moves);
        issued += moves;
    }
    let spent = *random.pick(&[0, 1, 500, REGISTER_MOVES - issued]);
    register.set_issued(issued.max(1) + spent.min(REGISTER_MOVES - issued.max(1)));
    if register.held() == 0 {
        let &(place, principal, _) = &register.places()[0];
        let mut one = Register::default();
        one.set_issued(register.issued());
        one.put(place, principal, 1);
        return one;
    }
    register
}

fn free(random: &mut Random, register: &Register) -> usize {
    let taken: Vec<usize> = register.places().iter().map(|place| place.0).collect();
    let free: Vec<usize> = (0..REGISTER_PLACES).filter(|place| !taken.contains(place)).collect();
    *random.pick(&free)
}

/// Numbers at places that hold nobody, sometimes.
fn leave_numbers(random: &mut Random, bytes: &mut [u8]) {
    for entry in bytes[REGISTER_HEAD..].chunks_exact_mut(REGISTER_PLACE) {
        if entry[0] == 0 && random.once_in(3) {
            random.fill(&mut entry[1..]);
        }
    }
}

fn damage(random: &mut Random, start: Start, bytes: &mut Vec<u8>) {
    match start {
        Start::WrongLength => {
            let length = *random.pick(&[0, 1, REGISTER_HEAD, REGISTER_BYTES - 1, REGISTER_BYTES + 1, 5_000]);
            bytes.resize(length, 1);
        }
        Start::WrongVersion => bytes[0] = *random.pick(&[0, 2, 255]),
        Start::WrongByte => {
            for _ in 0..random.between(1, 3) {
                let place = random.below(REGISTER_PLACES);
                bytes[REGISTER_HEAD + place * REGISTER_PLACE] = random.between(2, 255) as u8;
            }
        }
        Start::Noise => {
            let whole = random.once_in(2);
            random.fill(&mut bytes[1..]);
            if whole {
                let flags = bytes[REGISTER_HEAD..].iter_mut().step_by(REGISTER_PLACE);
                flags.for_each(|flag| *flag %= 2);
            }
        }
        _ => (),
    }
}

/// A kind of sequence: how many principals take part, how much is issued at a
/// time, and how often something is passed, spent or removed.
#[derive(Clone, Copy, Debug)]
pub struct Manner {
    principals: usize,
    largest: usize,
    /// How often an issue is about all that may be issued yet: once in so many.
    edge: usize,
    weights: [usize; 5],
}

impl Manner {
    pub fn new(random: &mut Random) -> Self {
        Self {
            principals: *random.pick(&[1, 2, 5, 64, 66, 90]),
            largest: *random.pick(&[1, 40, 9_000, 400_000]),
            edge: *random.pick(&[4, 100, 10_000]),
            weights: std::array::from_fn(|_| *random.pick(&[1, 2, 5, 30])),
        }
    }

    /// A call on the bytes of a register.
    pub fn call(&self, random: &mut Random, bytes: &[u8]) -> Call {
        let register = layout::read(bytes).unwrap_or_default();
        let one = self.principal(random, &register);
        let other = if random.once_in(6) { one } else { self.principal(random, &register) };
        let held = register.places().iter().find(|place| place.1 == one).map_or(0, |place| place.2);
        match self.kind(random) {
            0 => Call::Issue(one, self.amount(random, self.edge, REGISTER_MOVES.saturating_sub(register.issued()))),
            1 => Call::Pass(one, other, self.amount(random, 4, held)),
            2 => Call::Spend(one, self.amount(random, 4, held)),
            3 => Call::Remove(one),
            _ => Call::Find(one),
        }
    }

    fn kind(&self, random: &mut Random) -> usize {
        let mut drawn = random.below(self.weights.iter().sum());
        for (kind, weight) in self.weights.into_iter().enumerate() {
            if drawn < weight {
                return kind;
            }
            drawn -= weight;
        }
        unreachable!("a number below the sum falls to one of them")
    }

    /// One that takes part, one that is held, or anyone.
    fn principal(&self, random: &mut Random, register: &Register) -> Principal {
        let places = register.places();
        match random.below(20) {
            0 => random.number() as Principal,
            1..=5 if !places.is_empty() => random.pick(&places).1,
            _ => random.below(self.principals) as Principal,
        }
    }

    /// An amount, once in so many at a limit or just over it.
    fn amount(&self, random: &mut Random, edge: usize, limit: u64) -> u64 {
        if random.once_in(edge) {
            return limit.saturating_add(u64::from(random.once_in(3)));
        }
        match random.once_in(12) {
            true => *random.pick(&[0, 0, REGISTER_MOVES + 1, u64::MAX]),
            false => random.between(1, self.largest) as u64,
        }
    }
}
