//! The register through both.

use comparison::register::{fenced, library, workloads};
use lampsickle::register::{Held, Register};
use second::limits::REGISTER_BYTES;
use second::register::compare::run;
use second::register::{answer, layout, script, Call, Implementation, Reply};

const SCRIPTS: &str = include_str!("../../../second/data/register.tsv");
const BOTH: [(&str, Implementation); 2] = [("library", fenced), ("second", answer)];

const SEED: u64 = 20_214;
const SEQUENCES: u64 = 4_000;

#[test]
fn open_points() {
    let mut count = 0;
    for line in SCRIPTS.lines() {
        let columns: Vec<&str> = line.split('\t').collect();
        let [name, calls, expected] = columns[..] else { panic!("three columns: {line}") };
        for (by, implementation) in BOTH {
            let printed = script::run(&calls.replace('|', "\n"), implementation);
            assert_eq!(printed.trim_end().replace('\n', "|"), expected, "{name} by {by}");
        }
        count += 1;
    }
    assert!(count >= 16, "{count} examples");
}

/// Each reply and every byte after it, in long sequences of calls, also from
/// damaged registers and from bytes that are none; all that should occur does.
#[test]
fn library_and_second_are_alike() {
    let met = run(answer, fenced, SEED, SEQUENCES).unwrap_or_else(|what| panic!("{what}"));
    assert_eq!(met.missing(), Vec::<String>::new(), "{met:?}");
    assert_eq!(met.calls, SEQUENCES * 400);
}

/// Any byte of a register set to any of some values.
#[test]
fn each_byte_damaged() {
    let full = workloads().remove(0).bytes;
    for place in 0..REGISTER_BYTES {
        for byte in [0, 1, 2, 3, 127, 128, 255] {
            for call in [Call::Issue(63, 5), Call::Pass(0, 63, 5), Call::Spend(63, 5), Call::Remove(5), Call::Find(63)]
            {
                let mut one = full;
                one[place] = byte;
                let mut other = one;
                assert_eq!(fenced(&mut one, call), answer(&mut other, call), "byte {place} is {byte}, {call:?}");
                assert_eq!(one, other, "byte {place} is {byte}, {call:?}");
            }
        }
    }
}

/// The empty register, and what the Rust type tells of a register's bytes.
#[test]
fn what_the_type_tells() {
    assert_eq!(*Register::default().bytes(), layout::write(&second::register::Register::default()));
    let full = workloads().remove(0).bytes;
    let (ours, theirs) = (Register::new(&full).expect("a register"), layout::read(&full).expect("a register"));
    let places: Vec<_> = ours.places().map(|Held { place, principal, moves }| (place, principal, moves)).collect();
    assert_eq!(places, theirs.places());
    assert_eq!((ours.issued(), ours.held()), (theirs.issued(), theirs.held()));
    for length in (0..2 * REGISTER_BYTES).filter(|length| *length != REGISTER_BYTES) {
        let mut bytes = vec![1; length];
        assert_eq!(Register::new(&bytes).expect_err("no register").number, 5);
        assert_eq!(lampsickle::register::empty(&mut bytes).expect_err("another length").number, 5);
        assert_eq!(bytes, vec![1; length]);
    }
}

/// Calls that are measured are granted, but for the one that is to be refused.
#[test]
fn what_is_measured() {
    for mut workload in workloads() {
        let reply = library(&mut workload.bytes, workload.call);
        match workload.name {
            "find" => assert_eq!(reply, Reply::Found(Some(63), 64)),
            "issue refused, 64 are held" => assert_eq!(reply, Reply::Refused(18, 0)),
            name => assert_eq!(reply, Reply::Granted, "{name}"),
        }
    }
}
