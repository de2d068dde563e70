//! A call that changes a register.

use lampsickle::register::Register;
use lampsickle::Refusal;

use crate::text::counted;

#[derive(Clone, Copy, Debug, PartialEq, Eq)]
pub enum Change {
    Issue { principal: u32, amount: u64 },
    Pass { payer: u32, receiver: u32, amount: u64 },
    Spend { payer: u32, amount: u64 },
    Remove { principal: u32 },
}

impl Change {
    /// Makes the call, by the library.
    pub fn on(self, register: &mut Register) -> Result<(), Refusal> {
        match self {
            Self::Issue { principal, amount } => register.issue(principal, amount),
            Self::Pass { payer, receiver, amount } => register.pass(payer, receiver, amount),
            Self::Spend { payer, amount } => register.spend(payer, amount),
            Self::Remove { principal } => register.remove(principal),
        }
    }

    /// What was done, in a line.
    pub fn done(self, before: &Register, after: &Register) -> String {
        match self {
            Self::Issue { principal, amount } => {
                let (amount, added) = (moves(amount), held(before, principal).is_none());
                let place = after.find(principal).place.filter(|_| added);
                let added = place.map_or(String::new(), |place| format!(", added at place {place}"));
                format!("issued {amount} to {principal}{added}; {}\n", holds(after, principal))
            }
            Self::Pass { payer, receiver, amount } if payer == receiver => {
                format!("passed {} from {payer} to itself; {}\n", moves(amount), holds(after, payer))
            }
            Self::Pass { payer, receiver, amount } => {
                let (amount, left, got) = (moves(amount), holds(after, payer), holds(after, receiver));
                format!("passed {amount} from {payer} to {receiver}; {left}, {got}\n")
            }
            Self::Spend { payer, amount } => {
                format!("spent {} of {payer}; {}\n", moves(amount), holds(after, payer))
            }
            Self::Remove { principal } => format!("removed {principal}\n"),
        }
    }
}

/// The moves that a principal holds, where it is held.
pub fn held(register: &Register, principal: u32) -> Option<u64> {
    let place = register.find(principal).place?;
    register.places().find(|held| held.place == place).map(|held| held.moves)
}

/// How many moves a principal holds, in words.
pub fn holds(register: &Register, principal: u32) -> String {
    match held(register, principal) {
        Some(count) => format!("{principal} holds {}", moves(count)),
        None => format!("{principal} isn't held"),
    }
}

pub fn moves(count: u64) -> String {
    // The library is one for 64 bits, where nothing is lost.
    counted(count as usize, "move")
}
