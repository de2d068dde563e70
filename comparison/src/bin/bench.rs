//! Times of the proved library and of the second evaluator, as the tables of
//! docs/BENCHMARKS.md. `bench [NAME...]` measures the workloads whose names
//! hold one of the words; those of the journal begin with "journal", and
//! `register` stands for the calls on a register. `orders` stands for the orders
//! in which names are looked up, with the queries that look them up; `growth` for
//! all that differ in a size only: by what factor times grow where it doubles.

use comparison::journal::{self, Work};
use comparison::library;
use comparison::measure::{measure, measure_register, Medians};
use comparison::{orders, register};
use second::names::{self, KINDS, PLACES};
use second::workload::{self, Workload};

/// The word for workloads that differ in a size only.
const GROWTH: &str = "growth";

/// Conditions made to take as long as the limits allow.
const HOSTILE: [&str; 16] = [
    "long literals joined",
    "lookups of long names",
    "integers",
    "powers",
    "float literals",
    "float literals of 18 digits",
    "floats of short texts",
    "floats of 18 digits",
    "floats of no numbers",
    "float arithmetic",
    "float powers",
    "tests",
    "clauses",
    "escapes",
    "comments",
    "wrong at the end",
];

/// What two measurements of the same may differ by.
const ERROR: f64 = 0.05;

struct Row {
    name: String,
    bytes: usize,
    medians: Medians,
}

fn main() {
    let wanted: Vec<String> = std::env::args().skip(1).collect();
    queries(&wanted);
    let works: Vec<Work> = journal::works().into_iter().filter(|work| named(&work.name, &wanted)).collect();
    if !works.is_empty() {
        println!("\n| Journal | Library, µs | Second, µs | Library, times/s | Second, times/s | Ratio |\n|---|--:|--:|--:|--:|--:|");
        works.into_iter().for_each(journal_row);
    }
    registers(&wanted);
    lookups(&wanted);
}

fn journal_row(work: Work) {
    let medians = work.measure();
    println!(
        "| {} | {:.2} | {:.2} | {:.0} | {:.0} | {:.2} |",
        work.name,
        medians.library / 1e3,
        medians.second / 1e3,
        1e9 / medians.library,
        1e9 / medians.second,
        medians.ratio,
    );
}

fn queries(wanted: &[String]) {
    let growing = |name: &str| workload::grows(name) && wanted.iter().any(|word| word == GROWTH);
    let chosen = |item: &Workload| named(&item.name, wanted) || growing(&item.name);
    let workloads: Vec<Workload> = workload::all().into_iter().filter(chosen).collect();
    if workloads.is_empty() {
        return;
    }
    println!("Machine: {}. Medians of 25 runs in turns; the page is not cleared between queries.\n", machine());
    println!("| Query | Bytes | Library, µs | Second, µs | Library, answers/s | Second, answers/s | Ratio |");
    println!("|---|--:|--:|--:|--:|--:|--:|");
    let rows: Vec<Row> = workloads.into_iter().map(row).collect();
    most_hostile(&rows);
    growth(&rows);
    slower(&rows);
}

fn named(name: &str, wanted: &[String]) -> bool {
    wanted.is_empty() || wanted.iter().any(|part| name.contains(part.as_str()))
}

fn row(workload: Workload) -> Row {
    let medians = measure(library, second::answer, &workload.record);
    let row = Row { name: workload.name, bytes: workload.record.len(), medians };
    println!(
        "| {} | {} | {:.2} | {:.2} | {:.0} | {:.0} | {:.2} |",
        row.name,
        row.bytes,
        row.medians.library / 1e3,
        row.medians.second / 1e3,
        1e9 / row.medians.library,
        1e9 / row.medians.second,
        row.medians.ratio,
    );
    row
}

/// Calls on a register that holds 64 principals.
fn registers(wanted: &[String]) {
    if !named("register", wanted) {
        return;
    }
    println!("\n| Register of 64 held | Library, µs | Second, µs | Library, calls/s | Second, calls/s | Ratio |");
    println!("|---|--:|--:|--:|--:|--:|");
    for workload in register::workloads() {
        let Medians { library, second, ratio } = measure_register(&workload);
        println!(
            "| {} | {:.2} | {:.2} | {:.0} | {:.0} | {ratio:.2} |",
            workload.name,
            library / 1e3,
            second / 1e3,
            1e9 / library,
            1e9 / second
        );
    }
}

/// Names of a query looked up in each order, then by queries as a whole.
fn lookups(wanted: &[String]) {
    if !named("orders", wanted) {
        return;
    }
    let heads: Vec<&str> = orders::ORDERS.iter().map(|(name, _)| *name).collect();
    println!("\n| One of 32 names, ns a lookup | {} |", heads.join(" | "));
    println!("|---|{}", "--:|".repeat(heads.len()));
    for orders::Row { kind, place, times } in orders::rows() {
        let times: Vec<String> = times.iter().map(|time| format!("{time:.0}")).collect();
        println!("| {}, {} | {} |", kind.words(), place.words(), times.join(" | "));
    }
    println!("\n| Names of a query | Lookups | Library, µs | Second, µs | Ratio |\n|---|--:|--:|--:|--:|");
    for kind in KINDS {
        for place in PLACES {
            for (times, often) in [(Some(1), "1"), (Some(100), "100"), (None, "most")] {
                let record = names::query(kind, place, times).record();
                let Medians { library: one, second: other, ratio } = measure(library, second::answer, &record);
                let (one, other) = (one / 1e3, other / 1e3);
                println!("| {}, {} | {often} | {one:.2} | {other:.2} | {ratio:.2} |", kind.words(), place.words());
            }
        }
    }
}

fn most_hostile(rows: &[Row]) {
    let hostile = rows.iter().filter(|row| HOSTILE.contains(&row.name.as_str()));
    if let Some(row) = hostile.max_by(|a, b| a.medians.library.total_cmp(&b.medians.library)) {
        println!("\nMost hostile Conditions for the library: {}.", row.name);
    }
}

/// By what factor times grow from one size to the next, and the greatest factors.
fn growth(rows: &[Row]) {
    let of_one =
        |pair: &&[Row]| workload::GROWTH.iter().any(|start| pair.iter().all(|row| row.name.starts_with(start)));
    let pairs: Vec<&[Row]> = rows.windows(2).filter(of_one).collect();
    if pairs.is_empty() {
        return;
    }
    println!("\n| Doubled | Library, time × | Second, time × |\n|---|--:|--:|");
    let mut greatest = (0.0f64, 0.0f64);
    for pair in pairs {
        let [small, large] = [&pair[0].medians, &pair[1].medians];
        let (library, second) = (large.library / small.library, large.second / small.second);
        println!("| {} to {} | {library:.2} | {second:.2} |", pair[0].name, pair[1].name);
        greatest = (greatest.0.max(library), greatest.1.max(second));
    }
    println!("\nGreatest factor: library {:.2}, second {:.2}.", greatest.0, greatest.1);
}

/// The workloads on which the library is slower by more than measuring errs.
fn slower(rows: &[Row]) {
    let slow = rows.iter().filter(|row| row.medians.ratio < 1.0 - ERROR);
    let slow: Vec<&str> = slow.map(|row| row.name.as_str()).collect();
    match slow.is_empty() {
        true => println!("\nThe library is as fast on every query, or faster, within 5 %."),
        false => println!("\nThe library is slower by more than 5 % on: {}.", slow.join(", ")),
    }
}

fn machine() -> String {
    let information = std::fs::read_to_string("/proc/cpuinfo").unwrap_or_default();
    let model = information.lines().find_map(|line| line.strip_prefix("model name")?.split_once(": "));
    model.map_or("unknown".into(), |(_, name)| name.to_string())
}
