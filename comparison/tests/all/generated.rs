//! Generated records from a fixed seed.

use comparison::fence::fenced;
use comparison::long::{run, Task};
use second::{answer, Outcome};

const SEED: u64 = 27_04;
const COUNT: u64 = 24_000;

fn task(tested: second::compare::Implementation, count: u64) -> Task {
    let threads = std::thread::available_parallelism().map_or(1, usize::from);
    Task { reference: answer, tested, seed: SEED, count, threads }
}

/// Result, report and every byte of pages of every size around the need, twice,
/// and pairs of demand 3; all that should occur does.
#[test]
fn library_and_second_are_alike() {
    let run = run(task(fenced, COUNT), &|_| ()).unwrap_or_else(|found| {
        panic!("record {} of seed {SEED}: {}\n{}", found.number, found.difference.what, found.difference.hex())
    });
    assert_eq!(run.coverage.missing(), Vec::<String>::new());
    assert!(run.differing_pairs > 10_000, "{}", run.differing_pairs);
}

/// A difference in one record of thousands is found, with its number.
#[test]
fn a_difference_is_found() {
    let wrong = |record: &[u8], page: &mut [u8]| {
        let outcome = answer(record, page);
        match outcome.rounds {
            17 => Outcome { rounds: 16, ..outcome },
            _ => outcome,
        }
    };
    let found = run(task(wrong, COUNT), &|_| ()).expect_err("a difference");
    assert_eq!(found.difference.record, second::generate::record(SEED, found.number));
    assert_eq!(answer(&found.difference.record, &mut [0; second::print::PAGE]).rounds, 17);
}
