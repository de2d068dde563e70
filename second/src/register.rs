//! The register of priority moves (W-214), by another method than a walk over
//! places: a sorted map of what is held, and a word with a bit for each place.

pub mod compare;
pub mod layout;
pub mod script;
pub mod sequence;

use std::collections::BTreeMap;

use crate::limits::{REGISTER_MOVES, REGISTER_PLACES};

/// A principal, here a four-byte number.
pub type Principal = u32;

/// What is asked of a register.
#[derive(Clone, Copy, Debug, PartialEq, Eq)]
pub enum Call {
    Issue(Principal, u64),
    /// Payer, receiver, amount.
    Pass(Principal, Principal, u64),
    Spend(Principal, u64),
    Remove(Principal),
    Find(Principal),
}

/// What a register answers.
#[derive(Clone, Copy, Debug, PartialEq, Eq)]
pub enum Reply {
    Granted,
    /// Number and place.
    Refused(u8, usize),
    /// The place, if the principal is held, and the work.
    Found(Option<usize>, usize),
}

/// The numbers of refusals, in the order in which they are tested.
pub const NUMBERS: [u8; 7] = [20, 14, 15, 16, 17, 18, 19];

/// A register, also one that was handed in damaged.
#[derive(Clone, Debug, Default, PartialEq, Eq)]
pub struct Register {
    /// All moves ever issued.
    issued: u64,
    /// Bit n is 1 where place n holds a principal.
    taken: u64,
    /// Moves by principal and place, so one that stands twice has neighbours.
    moves: BTreeMap<(Principal, u32), u64>,
}

impl Register {
    pub fn set_issued(&mut self, issued: u64) {
        self.issued = issued;
    }

    /// Puts a principal with its moves at a free place.
    pub fn put(&mut self, place: usize, principal: Principal, moves: u64) {
        let bit = 1 << place;
        assert!(self.taken & bit == 0, "place {place} is taken");
        self.taken |= bit;
        self.moves.insert((principal, place as u32), moves);
    }

    pub fn issued(&self) -> u64 {
        self.issued
    }

    /// All moves held.
    pub fn held(&self) -> u128 {
        self.moves.values().copied().map(u128::from).sum()
    }

    /// The places that hold a principal: place, principal, moves.
    pub fn places(&self) -> Vec<(usize, Principal, u64)> {
        let mut places: Vec<_> =
            self.moves.iter().map(|(&(principal, place), &moves)| (place as usize, principal, moves)).collect();
        places.sort_unstable();
        places
    }

    /// Answers a call. A refusal changes nothing.
    pub fn call(&mut self, call: Call) -> Reply {
        if let Call::Find(principal) = call {
            return self.found(principal);
        }
        if let Some(number) = NUMBERS.into_iter().find(|number| self.is_refused(*number, call)) {
            return Reply::Refused(number, 0);
        }
        match call {
            Call::Issue(to, amount) => self.issue(to, amount),
            Call::Pass(from, to, amount) => {
                self.change(from, |moves| moves - amount);
                self.change(to, |moves| moves + amount);
            }
            Call::Spend(by, amount) => self.change(by, |moves| moves - amount),
            Call::Remove(principal) => self.remove(principal),
            Call::Find(_) => (),
        }
        Reply::Granted
    }

    /// Whether a number's own cause is there. Numbers before it were tested.
    fn is_refused(&self, number: u8, call: Call) -> bool {
        match (number, call) {
            (20, _) => self.is_damaged(),
            (14, Call::Issue(_, amount) | Call::Pass(_, _, amount) | Call::Spend(_, amount)) => {
                !(1..=REGISTER_MOVES).contains(&amount)
            }
            (15, Call::Pass(from, to, _)) => !(self.knows(from) && self.knows(to)),
            (15, Call::Spend(principal, _) | Call::Remove(principal)) => !self.knows(principal),
            (16, Call::Pass(payer, _, amount) | Call::Spend(payer, amount)) => self.moves_of(payer) < amount,
            (17, Call::Issue(_, amount)) => REGISTER_MOVES - self.issued < amount,
            (18, Call::Issue(to, _)) => !self.knows(to) && self.taken == u64::MAX,
            (19, Call::Remove(principal)) => self.moves_of(principal) > 0,
            _ => false,
        }
    }

    fn is_damaged(&self) -> bool {
        let principals = self.moves.keys().map(|key| key.0);
        let twice = principals.clone().zip(principals.skip(1)).any(|(one, next)| one == next);
        twice || self.held() > u128::from(self.issued) || self.issued > REGISTER_MOVES
    }

    /// The first place of a principal.
    fn place_of(&self, principal: Principal) -> Option<u32> {
        self.moves.range((principal, 0)..=(principal, u32::MAX)).next().map(|(key, _)| key.1)
    }

    fn knows(&self, principal: Principal) -> bool {
        self.place_of(principal).is_some()
    }

    fn moves_of(&self, principal: Principal) -> u64 {
        self.place_of(principal).map_or(0, |place| self.moves[&(principal, place)])
    }

    /// The work is the count of places taken up to the one found.
    fn found(&self, principal: Principal) -> Reply {
        let place = self.place_of(principal);
        let compared = place.map_or(u64::MAX, |place| u64::MAX >> (REGISTER_PLACES as u32 - 1 - place));
        Reply::Found(place.map(|place| place as usize), (self.taken & compared).count_ones() as usize)
    }

    fn issue(&mut self, to: Principal, amount: u64) {
        match self.knows(to) {
            true => self.change(to, |moves| moves + amount),
            false => self.put(self.taken.trailing_ones() as usize, to, amount),
        }
        self.issued += amount;
    }

    fn change(&mut self, principal: Principal, changed: impl Fn(u64) -> u64) {
        if let Some(place) = self.place_of(principal) {
            self.moves.entry((principal, place)).and_modify(|moves| *moves = changed(*moves));
        }
    }

    fn remove(&mut self, principal: Principal) {
        if let Some(place) = self.place_of(principal) {
            self.moves.remove(&(principal, place));
            self.taken &= !(1 << place);
        }
    }
}

/// A function that answers a call on the bytes of a register.
pub type Implementation = fn(&mut [u8], Call) -> Reply;

/// Answers a call on the bytes of a register. A refusal and a search change
/// none of them.
pub fn answer(bytes: &mut [u8], call: Call) -> Reply {
    let mut register = match layout::read(bytes) {
        Ok(register) => register,
        Err((number, place)) => return Reply::Refused(number, place),
    };
    let reply = register.call(call);
    if reply == Reply::Granted {
        bytes.copy_from_slice(&layout::write(&register));
    }
    reply
}
