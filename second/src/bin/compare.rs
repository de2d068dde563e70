//! Compares an implementation with the second evaluator on generated records.
//!
//! `compare SEED COUNT` prints what the records met, or the first difference
//! with its record. `compare SEED COUNT PROGRAM` compares what a program prints.

use std::process::ExitCode;

use second::answer;
use second::compare::{run, run_program, Difference, Implementation};

/// The implementation under test; another takes the place of the second here.
const TESTED: Implementation = answer;

fn main() -> ExitCode {
    let arguments: Vec<String> = std::env::args().skip(1).collect();
    let numbers: Vec<u64> = arguments.iter().take(2).filter_map(|argument| argument.parse().ok()).collect();
    let [seed, count] = numbers[..] else {
        eprintln!("usage: compare SEED COUNT [PROGRAM]");
        return ExitCode::FAILURE;
    };
    match arguments.get(2) {
        None => function(seed, count),
        Some(program) => by_program(program, seed, count),
    }
}

fn function(seed: u64, count: u64) -> ExitCode {
    match run(answer, TESTED, seed, count) {
        Ok(run) => {
            println!("{}\npairs {}, of which {} differ", run.coverage, run.pairs, run.differing_pairs);
            println!("missing {:?}", run.coverage.missing());
            ExitCode::SUCCESS
        }
        Err(difference) => show(&difference),
    }
}

fn by_program(program: &str, seed: u64, count: u64) -> ExitCode {
    match run_program(program, seed, count) {
        Err(error) => {
            eprintln!("{program}: {error}");
            ExitCode::FAILURE
        }
        Ok(Err(difference)) => show(&difference),
        Ok(Ok(())) => {
            println!("{count} records are alike");
            ExitCode::SUCCESS
        }
    }
}

fn show(difference: &Difference) -> ExitCode {
    println!("{}\n{}", difference.what, difference.hex());
    ExitCode::FAILURE
}
