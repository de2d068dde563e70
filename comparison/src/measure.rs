//! Times of two implementations on the same input, taken in turns.

use std::hint::black_box;
use std::time::{Duration, Instant};

use second::compare::Implementation;
use second::print::PAGE;

use crate::register;

/// How often each is measured; odd, so that there is a median.
const RUNS: usize = 25;
const RUN_TIME: Duration = Duration::from_millis(20);

/// Nanoseconds for one operation: the medians of two implementations. The ratio is
/// how many times as fast as the second evaluator the library is: the median
/// over the turns, since a machine may change its pace between them.
#[derive(Clone, Copy, Debug)]
pub struct Medians {
    pub library: f64,
    pub second: f64,
    pub ratio: f64,
}

/// Measures both in turns. Panics where they don't answer alike. The pages
/// aren't cleared between queries.
pub fn measure(library: Implementation, second: Implementation, record: &[u8]) -> Medians {
    let (mut one, mut other) = ([0; PAGE], [0; PAGE]);
    assert_eq!(library(record, &mut one), second(record, &mut other));
    assert_eq!(one, other);
    let query = |implementation: Implementation, page: &mut [u8]| {
        black_box(implementation(black_box(record), black_box(page)));
        1
    };
    in_turns(|| query(library, &mut one), || query(second, &mut other))
}

/// Measures both in turns on the bytes of a register, which are copied for each
/// call. Panics where they don't answer alike.
pub fn measure_register(workload: &register::Workload) -> Medians {
    let call = |implementation: second::register::Implementation| {
        let mut bytes = black_box(workload.bytes);
        (implementation(&mut bytes, black_box(workload.call)), bytes)
    };
    assert_eq!(call(register::library), call(second::register::answer));
    let by = |implementation| {
        black_box(call(implementation));
        1
    };
    in_turns(|| by(register::library), || by(second::register::answer))
}

/// Measures two pieces of work in turns. Each says how many operations it was.
pub fn in_turns(mut library: impl FnMut() -> u32, mut second: impl FnMut() -> u32) -> Medians {
    let mut times = (Vec::with_capacity(RUNS), Vec::with_capacity(RUNS));
    for _ in 0..RUNS {
        times.0.push(time(&mut library));
        times.1.push(time(&mut second));
    }
    let ratios = times.0.iter().zip(&times.1).map(|(library, second)| second / library).collect();
    Medians { library: median(times.0), second: median(times.1), ratio: median(ratios) }
}

/// Measures one piece of work: the median of the runs.
pub fn alone(mut work: impl FnMut() -> u32) -> f64 {
    median((0..RUNS).map(|_| time(&mut work)).collect())
}

fn median(mut times: Vec<f64>) -> f64 {
    times.sort_by(f64::total_cmp);
    times[times.len() / 2]
}

/// Nanoseconds for one operation, averaged over a run.
fn time(work: &mut impl FnMut() -> u32) -> f64 {
    let mut operations = 0;
    let start = Instant::now();
    while start.elapsed() < RUN_TIME {
        operations += work();
    }
    start.elapsed().as_nanos() as f64 / f64::from(operations)
}
