//! Generated records: what they must meet, and the comparison itself.

use second::compare::{run, Implementation};
use second::{answer, Outcome};

const SEED: u64 = 20_260_101;

/// The second evaluator against itself: the harness runs, and what the records
/// meet is what it should be. Another implementation takes its place.
#[test]
fn itself() {
    let run = run(answer, answer, SEED, 24_000)
        .unwrap_or_else(|difference| panic!("{}\n{}", difference.what, difference.hex()));
    println!("{}\npairs {} of which {} differ", run.coverage, run.pairs, run.differing_pairs);
    assert_eq!(run.coverage.missing(), Vec::<String>::new());
    assert!(run.differing_pairs > 10_000, "{}", run.differing_pairs);
}

fn is_caught(broken: Implementation) {
    assert!(run(answer, broken, SEED, 2_000).is_err());
}

fn changed(record: &[u8], page: &mut [u8], change: fn(&mut Outcome)) -> Outcome {
    let mut outcome = answer(record, page);
    change(&mut outcome);
    outcome
}

#[test]
fn refuses_all() {
    is_caught(|_, _| Outcome { number: 2, ..Outcome::default() });
}

#[test]
fn always_lowest() {
    is_caught(|record, page| changed(record, page, |outcome| outcome.rank = 0));
}

#[test]
fn invents_rounds() {
    is_caught(|record, page| changed(record, page, |outcome| outcome.rounds = outcome.rounds.min(5)));
}

#[test]
fn invents_reached() {
    is_caught(|record, page| changed(record, page, |outcome| outcome.reached = outcome.reached.min(10)));
}

#[test]
fn moves_a_place() {
    is_caught(|record, page| changed(record, page, |outcome| outcome.place = outcome.place.min(300)));
}

#[test]
fn blank_report() {
    is_caught(|record, page| answer(record, &mut page.to_vec()));
}

#[test]
fn touches_the_page() {
    is_caught(|record, page| {
        let outcome = answer(record, page);
        if let Some(byte) = page.last_mut() {
            *byte ^= 1;
        }
        outcome
    });
}

#[test]
fn forgets_nothing() {
    use std::sync::atomic::{AtomicUsize, Ordering};
    static CALLS: AtomicUsize = AtomicUsize::new(0);
    is_caught(|record, page| {
        let mut outcome = answer(record, page);
        if CALLS.fetch_add(1, Ordering::Relaxed) % 100 == 99 {
            outcome.rank ^= 1;
        }
        outcome
    });
}

/// Shows an attribute that nobody reads through the number of rounds.
#[test]
fn shows_an_unread_attribute() {
    use second::compare::compare_pair;
    use second::random::Random;
    let shows: Implementation = |record, page| {
        let mut outcome = answer(record, page);
        if outcome.number == 0 {
            outcome.rounds += record.len() % 2;
        }
        outcome
    };
    let mut random = Random::new(3);
    let mut caught = 0;
    for number in 0..200 {
        let record = second::generate::record(SEED, number);
        if let Some(partner) = second::unread::partner(&mut random, &record) {
            assert!(compare_pair(answer, &record, &partner, &mut random).is_ok());
            caught += usize::from(compare_pair(shows, &record, &partner, &mut random).is_err());
        }
    }
    assert!(caught > 10, "{caught}");
}

/// Sketches that aren't damaged are kept, but for credentials made by POLICY,
/// unverified ones, and the few whose brackets nest too deeply.
#[test]
fn sketches_are_well_formed() {
    use second::generate::{of_sort, Sort};
    use second::random::Random;
    let mut random = Random::new(5);
    let mut reasons = [0; 11];
    for _ in 0..10_000 {
        let record = of_sort(&mut random, Sort::Rich);
        let mut page = [0; second::print::PAGE];
        assert_eq!(answer(&record, &mut page).number, 0);
        let length = usize::from(u16::from_be_bytes([page[1], page[2]]));
        page[3..3 + length].chunks(3).for_each(|entry| reasons[usize::from(entry[0])] += 1);
    }
    assert!(reasons[0] > 20_000 && reasons[7] < 20, "{reasons:?}");
    assert_eq!(reasons[1..7], [0; 6]);
    assert_eq!(reasons[8], 0);
}

/// Every record of tests is answered with all its assertions kept, and the
/// numbers of tests that hold differ.
#[test]
fn tallies_are_kept() {
    use second::generate::{of_sort, Sort};
    use second::random::Random;
    let mut random = Random::new(7);
    let mut ranks = std::collections::BTreeSet::new();
    for _ in 0..2_000 {
        let record = of_sort(&mut random, Sort::Tally);
        let mut page = [0; second::print::PAGE];
        let outcome = answer(&record, &mut page);
        assert_eq!((outcome.number, outcome.reached), (0, 16));
        assert_eq!(page[3..93].chunks(3).map(|entry| entry[0]).max(), Some(0));
        ranks.insert(outcome.rank);
    }
    assert!(ranks.len() > 10, "{ranks:?}");
}
