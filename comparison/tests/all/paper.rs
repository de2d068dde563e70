//! More paper never lowers a class: pairs of queries put to both evaluators.

use comparison::fence::fenced;
use second::compare::Implementation;
use second::paper::run;
use second::{answer, Outcome};

const SEED: u64 = 211;
const COUNT: u64 = 4_000;

/// The library, which must answer as the second evaluator does.
fn both(record: &[u8], page: &mut [u8]) -> Outcome {
    let mut other = page.to_vec();
    let outcome = fenced(record, page);
    assert_eq!((answer(record, &mut other), &other[..]), (outcome, &page[..]), "{record:02x?}");
    outcome
}

#[test]
fn more_paper() {
    let paper = run(both, SEED, COUNT).unwrap_or_else(|difference| panic!("{}\n{}", difference.what, difference.hex()));
    println!("{} pairs: {:#?}", paper.pairs(), paper.kinds);
    assert_eq!(paper.missing(100), Vec::<&str>::new());
    assert!(paper.pairs() > 10_000, "{}", paper.pairs());
}

/// What a wrong evaluator is found by, on its own answers alone.
fn caught(wrong: Implementation) -> String {
    run(wrong, SEED, COUNT).expect_err("a difference").what
}

/// The right answer with a change to it and to the report's entries.
fn changed(record: &[u8], page: &mut [u8], change: fn(&mut Outcome, &mut [u8])) -> Outcome {
    let mut outcome = answer(record, page);
    if outcome.number == 0 {
        let length = usize::from(u16::from_be_bytes([page[1], page[2]]));
        change(&mut outcome, &mut page[3..3 + length]);
    }
    outcome
}

#[test]
fn a_crowd_lowers() {
    let what = caught(|record, page| {
        changed(record, page, |outcome, entries| {
            outcome.rank = outcome.rank.saturating_sub(u8::from(entries.len() > 3 * 12));
        })
    });
    assert!(what.contains("without assertion"), "{what}");
}

/// Everything set aside counts against the rank.
#[test]
fn faults_lower() {
    let what = caught(|record, page| {
        changed(record, page, |outcome, entries| {
            let faults = entries.chunks(3).filter(|entry| entry[0] != 0).count();
            outcome.rank = outcome.rank.saturating_sub(faults as u8);
        })
    });
    assert!(what.contains("without assertion") || what.contains("changed"), "{what}");
}

/// Everything set aside counts as reached: neither more paper nor another order
/// shows it.
#[test]
fn faults_are_reached() {
    let what = caught(|record, page| {
        changed(record, page, |outcome, entries| {
            outcome.reached += entries.chunks(3).filter(|entry| entry[0] != 0).count();
        })
    });
    assert!(what.contains("changed"), "{what}");
}

/// Entries in the order of their reasons.
#[test]
fn sorted_entries() {
    let what = caught(|record, page| changed(record, page, |_, entries| entries.sort_unstable()));
    assert!(what.contains("in order") || what.contains("changed"), "{what}");
}

#[test]
fn an_entry_shows_its_neighbour() {
    let what = caught(|record, page| {
        changed(record, page, |_, entries| {
            if entries.len() > 3 && entries[0] > 0 {
                entries[3] = entries[0];
            }
        })
    });
    assert!(what.contains("in order") || what.contains("changed"), "{what}");
}
