//! Compares the proved library with the second evaluator on generated records.
//!
//! `compare SEED COUNT [THREADS]` prints what the records met, or the first
//! difference found with its record's number and bytes. It fails where there is
//! a difference, or where something that should occur doesn't.

use std::io::{stderr, IsTerminal, Write};
use std::process::ExitCode;

use comparison::fence::fenced;
use comparison::long::{run, Found, Task};
use second::compare::Run;

fn main() -> ExitCode {
    match task() {
        Some(task) => report(task, run(task, &|done| progress(done, task.count))),
        None => {
            eprintln!("usage: compare SEED COUNT [THREADS]");
            ExitCode::from(2)
        }
    }
}

fn task() -> Option<Task> {
    let arguments: Vec<String> = std::env::args().skip(1).collect();
    let numbers: Vec<u64> = arguments.iter().map(|argument| argument.parse().ok()).collect::<Option<_>>()?;
    let (seed, count, threads) = match numbers[..] {
        [seed, count] => (seed, count, std::thread::available_parallelism().map_or(1, usize::from)),
        [seed, count, threads] => (seed, count, threads as usize),
        _ => return None,
    };
    Some(Task { reference: second::answer, tested: fenced, seed, count, threads })
}

fn progress(done: u64, count: u64) {
    if done.is_multiple_of(10_000) && stderr().is_terminal() {
        eprint!("\r{done} of {count}");
        let _ = stderr().flush();
    }
}

fn report(task: Task, result: Result<Run, Box<Found>>) -> ExitCode {
    if stderr().is_terminal() {
        eprintln!();
    }
    match result {
        Ok(run) => {
            println!("{}\npairs {}, of which {} differ", run.coverage, run.pairs, run.differing_pairs);
            let missing = run.coverage.missing();
            println!("{} records of seed {} are alike; missing {missing:?}", task.count, task.seed);
            ExitCode::from(u8::from(!missing.is_empty()))
        }
        Err(found) => {
            println!(
                "record {} of seed {}: {}\n{}",
                found.number,
                task.seed,
                found.difference.what,
                found.difference.hex()
            );
            ExitCode::FAILURE
        }
    }
}
