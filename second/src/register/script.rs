//! Scripts of calls, a line each, and what they print. Beside the calls there
//! are `issued N` and `place PLACE PRINCIPAL MOVES`, which hand a register in.

use super::{layout, Call, Implementation, Register, Reply};

enum Line {
    Call(Call),
    Issued(u64),
    Place(usize, u32, u64),
}

/// Runs a script from the empty register. The lines end with what is held.
pub fn run(script: &str, implementation: Implementation) -> String {
    let mut bytes = layout::write(&Register::default());
    let mut printed = String::new();
    for line in script.lines() {
        let said = match read(line) {
            Line::Call(call) => told(implementation(&mut bytes, call)),
            Line::Issued(issued) => changed(&mut bytes, |register| register.set_issued(issued)),
            Line::Place(place, principal, moves) => {
                changed(&mut bytes, |register| register.put(place, principal, moves))
            }
        };
        printed += &format!("{line}: {said}\n");
    }
    printed + &listed(&layout::read(&bytes).expect("a register"))
}

fn changed(bytes: &mut [u8], change: impl Fn(&mut Register)) -> String {
    let mut register = layout::read(bytes).expect("a register");
    change(&mut register);
    bytes.copy_from_slice(&layout::write(&register));
    "set".into()
}

fn read(line: &str) -> Line {
    let mut words = line.split(' ');
    let word = words.next().expect("a word");
    let numbers: Vec<u64> = words.map(|number| number.parse().expect("a number")).collect();
    let principal = |index: usize| u32::try_from(numbers[index]).expect("a principal");
    match (word, numbers.len()) {
        ("issue", 2) => Line::Call(Call::Issue(principal(0), numbers[1])),
        ("pass", 3) => Line::Call(Call::Pass(principal(0), principal(1), numbers[2])),
        ("spend", 2) => Line::Call(Call::Spend(principal(0), numbers[1])),
        ("remove", 1) => Line::Call(Call::Remove(principal(0))),
        ("find", 1) => Line::Call(Call::Find(principal(0))),
        ("issued", 1) => Line::Issued(numbers[0]),
        ("place", 3) => Line::Place(numbers[0] as usize, principal(1), numbers[2]),
        _ => panic!("no such line: {line}"),
    }
}

fn told(reply: Reply) -> String {
    match reply {
        Reply::Granted => "granted".into(),
        Reply::Refused(number, place) => format!("refused {number} at {place}"),
        Reply::Found(Some(place), work) => format!("place {place} work {work}"),
        Reply::Found(None, work) => format!("not held work {work}"),
    }
}

fn listed(register: &Register) -> String {
    let mut lines = format!("issued {} held {}\n", register.issued(), register.held());
    for (place, principal, moves) in register.places() {
        lines += &format!("place {place} {principal} {moves}\n");
    }
    lines
}
