//! Asks one evaluator about one workload so many times, for programs that count
//! instructions: `once library|second WORKLOAD TIMES`. `once` alone lists the
//! workloads.

use std::hint::black_box;
use std::process::ExitCode;

use comparison::library;
use second::compare::Implementation;
use second::print::PAGE;
use second::workload;

fn main() -> ExitCode {
    let arguments: Vec<String> = std::env::args().skip(1).collect();
    match &arguments[..] {
        [] => {
            workload::all().iter().for_each(|workload| println!("{}", workload.name));
            ExitCode::SUCCESS
        }
        [by, name, times] if ask(by, name, times).is_some() => ExitCode::SUCCESS,
        _ => {
            eprintln!("usage: once library|second WORKLOAD TIMES");
            ExitCode::FAILURE
        }
    }
}

fn ask(by: &str, name: &str, times: &str) -> Option<()> {
    let implementation: Implementation = match by {
        "library" => library,
        "second" => second::answer,
        _ => return None,
    };
    let times: usize = times.parse().ok()?;
    let workload = workload::all().into_iter().find(|workload| workload.name == name)?;
    let mut page = [0; PAGE];
    for _ in 0..times {
        black_box(implementation(black_box(&workload.record), black_box(&mut page)));
    }
    Some(())
}
