//! Writes generated records and the second evaluator's answers to them.
//!
//! `generate SEED COUNT FILE` writes to FILE each record behind its length,
//! four bytes, big-endian; and to FILE.outcomes one line for each record:
//! number, place, rank, rounds, reached and the report in hexadecimal digits
//! ("-" for none). It fails where the records don't meet all they should.

use std::fs::File;
use std::io::{self, BufWriter, Write};
use std::process::ExitCode;

use second::generate::{coverage::Coverage, record};
use second::print::PAGE;
use second::{answer, limits, Outcome};

fn main() -> ExitCode {
    let arguments: Vec<String> = std::env::args().skip(1).collect();
    let [seed, count, file] = &arguments[..] else {
        eprintln!("usage: generate SEED COUNT FILE");
        return ExitCode::FAILURE;
    };
    let (Ok(seed), Ok(count)) = (seed.parse(), count.parse()) else {
        eprintln!("SEED and COUNT are numbers");
        return ExitCode::FAILURE;
    };
    match write(seed, count, file) {
        Err(error) => {
            eprintln!("{file}: {error}");
            ExitCode::FAILURE
        }
        Ok(coverage) => {
            println!("{coverage}");
            let missing = coverage.missing();
            println!("missing {missing:?}");
            if missing.is_empty() {
                ExitCode::SUCCESS
            } else {
                ExitCode::FAILURE
            }
        }
    }
}

fn write(seed: u64, count: u64, file: &str) -> io::Result<Coverage> {
    let mut records = BufWriter::new(File::create(file)?);
    let mut outcomes = BufWriter::new(File::create(format!("{file}.outcomes"))?);
    let mut coverage = Coverage::default();
    for number in 0..count {
        let record = record(seed, number);
        records.write_all(&(record.len() as u32).to_be_bytes())?;
        records.write_all(&record)?;
        let mut page = [0; PAGE];
        let outcome = answer(&record, &mut page);
        let report = report(&outcome, &page);
        coverage.count(&outcome, report);
        coverage.count_query(&record, &outcome, report);
        // A page that is too small is the reader's choice, so it is counted here.
        coverage.count(&answer(&record, &mut []), &[]);
        let Outcome { number, place, rank, rounds, reached } = outcome;
        let digits: String = report.iter().map(|byte| format!("{byte:02x}")).collect();
        let digits = if digits.is_empty() { "-" } else { &digits };
        writeln!(outcomes, "{number} {place} {rank} {rounds} {reached} {digits}")?;
    }
    records.flush()?;
    outcomes.flush()?;
    Ok(coverage)
}

fn report<'a>(outcome: &Outcome, page: &'a [u8]) -> &'a [u8] {
    match outcome.number {
        0 => &page[..limits::REPORT_HEAD + usize::from(u16::from_be_bytes([page[1], page[2]]))],
        _ => &[],
    }
}
