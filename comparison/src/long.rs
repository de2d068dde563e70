//! Long comparisons of two implementations, by number of record, so that a
//! difference can be met again by seed and number alone.

use std::collections::BTreeMap;
use std::sync::atomic::{AtomicBool, AtomicU64, Ordering};
use std::thread;

use second::compare::{compare, compare_pair, Difference, Implementation, Run};
use second::generate::{self, coverage::Coverage};
use second::random::Random;
use second::unread;

/// Records that a thread takes at a time.
const SHARE: u64 = 250;

/// The two to compare, and the records to compare them on.
#[derive(Clone, Copy)]
pub struct Task {
    pub reference: Implementation,
    pub tested: Implementation,
    pub seed: u64,
    pub count: u64,
    pub threads: usize,
}

/// A difference and the record's number.
#[derive(Clone, Debug)]
pub struct Found {
    pub number: u64,
    pub difference: Difference,
}

/// What the threads share.
struct Shared<'a> {
    task: Task,
    next: AtomicU64,
    stopped: AtomicBool,
    progress: &'a (dyn Fn(u64) + Sync),
}

/// Compares on the records 0 to count - 1 of a seed; `progress` is told how many
/// were taken so far.
pub fn run(task: Task, progress: &(dyn Fn(u64) + Sync)) -> Result<Run, Box<Found>> {
    let shared = Shared { task, next: AtomicU64::new(0), stopped: AtomicBool::new(false), progress };
    let results: Vec<_> = thread::scope(|scope| {
        let threads: Vec<_> = (0..task.threads.max(1)).map(|_| scope.spawn(|| work(&shared))).collect();
        threads.into_iter().map(|thread| thread.join().expect("a thread that doesn't panic")).collect()
    });
    let mut sum = Run::default();
    for result in results {
        add(&mut sum, &result?);
    }
    Ok(sum)
}

fn work(shared: &Shared) -> Result<Run, Box<Found>> {
    let mut run = Run::default();
    while !shared.stopped.load(Ordering::Relaxed) {
        let first = shared.next.fetch_add(SHARE, Ordering::Relaxed);
        if first >= shared.task.count {
            break;
        }
        (shared.progress)(first);
        for number in first..shared.task.count.min(first + SHARE) {
            one(&shared.task, number, &mut run).map_err(|difference| {
                shared.stopped.store(true, Ordering::Relaxed);
                Box::new(Found { number, difference: *difference })
            })?;
        }
    }
    Ok(run)
}

/// One record, with pages of all sizes around the need, twice each, and its
/// partner of demand 3.
pub fn one(task: &Task, number: u64, run: &mut Run) -> Result<(), Box<Difference>> {
    let mut random = Random::new(task.seed ^ number.rotate_left(32));
    let record = generate::record(task.seed, number);
    compare(task.reference, task.tested, &record, &mut random, &mut run.coverage)?;
    if let Some(partner) = unread::partner(&mut random, &record) {
        compare_pair(task.tested, &record, &partner, &mut random)?;
        run.pairs += 1;
        run.differing_pairs += u64::from(partner != record);
    }
    Ok(())
}

fn add(sum: &mut Run, run: &Run) {
    let Coverage { numbers, reasons, ranks, rounds, reached, spellings, crowds, patterns, floats, references } =
        &run.coverage;
    merge(&mut sum.coverage.numbers, numbers);
    merge(&mut sum.coverage.reasons, reasons);
    merge(&mut sum.coverage.ranks, ranks);
    merge(&mut sum.coverage.rounds, rounds);
    merge(&mut sum.coverage.reached, reached);
    merge(&mut sum.coverage.spellings, spellings);
    merge(&mut sum.coverage.crowds, crowds);
    sum.coverage.patterns.merge(patterns);
    sum.coverage.floats.merge(floats);
    sum.coverage.references.merge(references);
    sum.pairs += run.pairs;
    sum.differing_pairs += run.differing_pairs;
}

fn merge<K: Ord + Copy>(sum: &mut BTreeMap<K, u64>, counts: &BTreeMap<K, u64>) {
    for (key, count) in counts {
        *sum.entry(*key).or_default() += count;
    }
}
