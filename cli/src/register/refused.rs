//! Why a call is refused, in words and with the numbers of the register at hand. The
//! number is the library's; nothing here decides.

use std::collections::BTreeMap;

use lampsickle::register::{Register, BYTES, MOVES, PLACES};
use lampsickle::Refusal;

use super::change::{held, holds, moves, Change};
use crate::text::counted;

/// Why bytes are no register.
pub fn no_register(refusal: Refusal, bytes: &[u8]) -> String {
    let Refusal { number, place } = refusal;
    let byte = bytes.get(place).copied().unwrap_or_default();
    match number {
        5 if bytes.len() > BYTES => format!("more than {BYTES} bytes, but a register has {BYTES}"),
        5 => format!("{}, but a register has {BYTES}", counted(bytes.len(), "byte")),
        2 => format!("its first byte is {byte}, but that of a register is 1"),
        6 => format!("its byte {place} is {byte}, but there a place is marked by 1, held, or 0, free"),
        _ => UNKNOWN.into(),
    }
}

const UNKNOWN: &str = "a number that isn't known";

/// Why a call on a register is refused.
pub fn words(number: u8, change: Change, register: &Register) -> String {
    match (number, change) {
        (20, _) => damage(register),
        (14, Change::Issue { amount, .. } | Change::Pass { amount, .. } | Change::Spend { amount, .. }) => {
            format!("the amount is {amount}, but 1 to {MOVES} moves are issued, passed or spent at once")
        }
        (15, _) => unknown(change, register),
        (16, Change::Pass { payer, amount, .. } | Change::Spend { payer, amount }) => {
            format!("{}, fewer than {amount}", holds(register, payer))
        }
        (17, Change::Issue { amount, .. }) => used_up(amount, register.issued()),
        (18, Change::Issue { principal, .. }) => full(principal, register),
        (19, Change::Remove { principal }) => {
            format!("{}: spend them or pass them on first", holds(register, principal))
        }
        _ => UNKNOWN.into(),
    }
}

/// Whether every call but finding is refused with 20, by the library: an issue of no
/// moves is refused with 14 otherwise.
pub fn is_damaged(register: &Register) -> bool {
    register.clone().issue(0, 0).is_err_and(|refusal| refusal.number == 20)
}

/// What makes a register a damaged one, all of it.
pub fn damage(register: &Register) -> String {
    let mut places: BTreeMap<u32, Vec<String>> = BTreeMap::new();
    for held in register.places() {
        places.entry(held.principal).or_default().push(held.place.to_string());
    }
    let mut all = Vec::new();
    for (principal, places) in places.iter().filter(|(_, places)| places.len() > 1) {
        all.push(format!("{principal} stands at several places ({})", places.join(", ")));
    }
    let (issued, held) = (register.issued(), register.held());
    if held > issued.into() {
        all.push(format!("{held} moves are held, but {issued} were ever issued"));
    }
    if issued > MOVES {
        all.push(format!("{issued} moves were ever issued, but {MOVES} are the most"));
    }
    format!("the register is damaged: {}", all.join("; "))
}

fn unknown(change: Change, register: &Register) -> String {
    let missing = |principal: u32| held(register, principal).is_none();
    match change {
        Change::Pass { payer, receiver, .. } if payer != receiver && missing(payer) && missing(receiver) => {
            format!("neither {payer}, who is to pass moves on, nor {receiver}, who is to get them, is held")
        }
        Change::Pass { payer, .. } if missing(payer) => format!("{payer}, who is to pass moves on, isn't held"),
        Change::Pass { receiver, .. } => {
            format!("{receiver}, who is to get moves, isn't held: issue moves to it first")
        }
        Change::Spend { payer, .. } => format!("{payer}, who is to spend moves, isn't held"),
        Change::Remove { principal } => format!("{principal} isn't held"),
        Change::Issue { .. } => UNKNOWN.into(),
    }
}

fn used_up(amount: u64, issued: u64) -> String {
    let left = MOVES.saturating_sub(issued);
    format!("{} ever issued of at most {MOVES}, so {left} can still be, and not {amount}", moves(issued))
}

fn full(principal: u32, register: &Register) -> String {
    let idle: Vec<String> =
        register.places().filter(|held| held.moves == 0).map(|held| held.principal.to_string()).collect();
    let idle = match idle.as_slice() {
        [] => "all of them hold moves".into(),
        some => format!("these hold no moves and can be removed: {}", some.join(", ")),
    };
    format!("{principal} isn't held, and {PLACES} others are, the most; {idle}")
}

#[cfg(test)]
mod tests {
    use super::*;

    /// Every number that a call can be refused with has words.
    #[test]
    fn every_number() {
        let register = Register::default();
        let issue = Change::Issue { principal: 7, amount: 3 };
        let pass = Change::Pass { payer: 7, receiver: 9, amount: 3 };
        let spend = Change::Spend { payer: 7, amount: 3 };
        let remove = Change::Remove { principal: 7 };
        let all: [(Change, &[u8]); 4] = [
            (issue, &[20, 14, 17, 18]),
            (pass, &[20, 14, 15, 16]),
            (spend, &[20, 14, 15, 16]),
            (remove, &[20, 15, 19]),
        ];
        for (change, numbers) in all {
            for number in 0..=255 {
                assert_eq!(words(number, change, &register) != UNKNOWN, numbers.contains(&number));
            }
        }
    }
}
