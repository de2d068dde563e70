//! The register: the examples of the open points, and sequences of calls.

use second::register::compare::run;
use second::register::{answer, layout, script, Call, Register, Reply};

#[test]
fn every_example() {
    let mut count = 0;
    for line in include_str!("../../data/register.tsv").lines() {
        let columns: Vec<&str> = line.split('\t').collect();
        let [name, calls, expected] = columns[..] else { panic!("three columns: {line}") };
        assert_eq!(script::run(&calls.replace('|', "\n"), answer).trim_end().replace('\n', "|"), expected, "{name}");
        count += 1;
    }
    assert!(count >= 16, "{count} examples");
}

/// All that should occur does.
#[test]
fn sequences_meet_everything() {
    let met = run(answer, answer, 214, 1_500).unwrap_or_else(|what| panic!("{what}"));
    assert_eq!(met.missing(), Vec::<String>::new(), "{met:?}");
}

/// A wrong reply, and a wrong byte, in few calls of thousands are found.
#[test]
fn a_difference_is_found() {
    let wrong_reply = |bytes: &mut [u8], call: Call| match answer(bytes, call) {
        Reply::Found(Some(place), 61) => Reply::Found(Some(place), 60),
        reply => reply,
    };
    let wrong_byte = |bytes: &mut [u8], call: Call| {
        let reply = answer(bytes, call);
        if reply == Reply::Refused(19, 0) {
            bytes[bytes.len() - 1] ^= 1;
        }
        reply
    };
    assert!(run(answer, wrong_reply, 214, 400).is_err());
    assert!(run(answer, wrong_byte, 214, 400).is_err());
}

/// What stands at a free place is no principal and no moves; it is gone after
/// a granted call.
#[test]
fn numbers_left_at_a_free_place() {
    let mut register = Register::default();
    register.set_issued(5);
    register.put(1, 7, 5);
    let clean = layout::write(&register);
    let mut bytes = clean;
    bytes[10..22].fill(0xff);
    assert_eq!(layout::read(&bytes), Ok(register));
    assert_eq!(answer(&mut bytes, Call::Find(u32::MAX)), Reply::Found(None, 1));
    assert_eq!(bytes[10..22], [0xff; 12]);
    assert_eq!(answer(&mut bytes, Call::Pass(7, 7, 5)), Reply::Granted);
    assert_eq!(bytes, clean);
}
