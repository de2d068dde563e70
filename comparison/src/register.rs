//! The register of priority moves: the proved library as an implementation to
//! compare, and calls to measure.

use lampsickle::{register, Refusal};
use second::limits::{REGISTER_BYTES, REGISTER_PLACES};
use second::register::{layout, Call, Register, Reply};

use crate::fence::between_posts;

/// The proved library, as an implementation to compare.
pub fn library(bytes: &mut [u8], call: Call) -> Reply {
    let done = match call {
        Call::Issue(to, amount) => register::issue(bytes, to, amount),
        Call::Pass(payer, receiver, amount) => register::pass(bytes, payer, receiver, amount),
        Call::Spend(payer, amount) => register::spend(bytes, payer, amount),
        Call::Remove(principal) => register::remove(bytes, principal),
        Call::Find(principal) => return found(register::find(bytes, principal)),
    };
    done.map_or_else(refused, |()| Reply::Granted)
}

fn refused(Refusal { number, place }: Refusal) -> Reply {
    Reply::Refused(number, place)
}

fn found(found: Result<register::Found, Refusal>) -> Reply {
    found.map_or_else(refused, |found| Reply::Found(found.place, found.work))
}

/// The library, asked with bytes between fences. Panics where a byte beside them
/// has changed.
pub fn fenced(bytes: &mut [u8], call: Call) -> Reply {
    between_posts(bytes, |lent| library(lent, call))
}

/// A call to measure, and a register that holds 64 principals.
pub struct Workload {
    pub name: &'static str,
    pub call: Call,
    pub bytes: [u8; REGISTER_BYTES],
}

/// Calls that take as long as any: those about the principal in the last place.
pub fn workloads() -> Vec<Workload> {
    let last = REGISTER_PLACES as u32 - 1;
    let full = |moves_of_last| {
        let mut register = Register::default();
        register.set_issued(500_000);
        (0..last).for_each(|principal| register.put(principal as usize, principal, 1_000));
        register.put(last as usize, last, moves_of_last);
        layout::write(&register)
    };
    [
        ("issue", Call::Issue(last, 5), 1_000),
        ("issue refused, 64 are held", Call::Issue(last + 1, 5), 1_000),
        ("pass", Call::Pass(0, last, 5), 1_000),
        ("spend", Call::Spend(last, 5), 1_000),
        ("remove", Call::Remove(last), 0),
        ("find", Call::Find(last), 1_000),
    ]
    .map(|(name, call, moves)| Workload { name, call, bytes: full(moves) })
    .into()
}
