//! Times of an implementation on the workloads: the median, the least and the
//! greatest of several runs, in nanoseconds for one query.

use std::hint::black_box;
use std::time::{Duration, Instant};

use second::answer;
use second::compare::Implementation;
use second::print::PAGE;
use second::workload::{self, Workload};

/// The implementations to measure. Another is added beside the first.
const IMPLEMENTATIONS: [(&str, Implementation); 1] = [("second", answer)];

const RUNS: usize = 9;
const RUN_TIME: Duration = Duration::from_millis(20);

fn main() {
    let wanted: Vec<String> = std::env::args().skip(1).collect();
    println!("{:<32}{:<10}{:>8}{:>12}{:>12}{:>12}  outcome", "workload", "by", "bytes", "median", "least", "greatest");
    for workload in workload::all() {
        if !wanted.is_empty() && !wanted.iter().any(|part| workload.name.contains(part.as_str())) {
            continue;
        }
        for (name, implementation) in IMPLEMENTATIONS {
            report(name, implementation, &workload);
        }
    }
}

fn report(name: &str, implementation: Implementation, workload: &Workload) {
    let mut page = [0; PAGE];
    let outcome = implementation(&workload.record, &mut page);
    let mut times: Vec<u128> = (0..RUNS).map(|_| time(implementation, &workload.record)).collect();
    times.sort_unstable();
    println!(
        "{:<32}{name:<10}{:>8}{:>12}{:>12}{:>12}  {} rank {} rounds {} reached {}, first reason {}",
        workload.name,
        workload.record.len(),
        times[RUNS / 2],
        times[0],
        times[RUNS - 1],
        outcome.number,
        outcome.rank,
        outcome.rounds,
        outcome.reached,
        page[3],
    );
}

/// Nanoseconds for one query, averaged over a run.
fn time(implementation: Implementation, record: &[u8]) -> u128 {
    let mut page = [0; PAGE];
    let mut queries = 0;
    let start = Instant::now();
    while start.elapsed() < RUN_TIME {
        black_box(implementation(black_box(record), black_box(&mut page)));
        queries += 1;
    }
    start.elapsed().as_nanos() / queries
}
