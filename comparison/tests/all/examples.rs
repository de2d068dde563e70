//! The open points, the rulings and the RFC's examples through both.

use comparison::fence::fenced;
use comparison::printed;
use comparison::rulings::{self, Ruled, Ruling};
use second::answer;
use second::compare::{compare, Implementation};
use second::generate::coverage::Coverage;
use second::print::PAGE;
use second::random::Random;

const OPEN_POINTS: [&str; 4] = [
    include_str!("../../../second/data/open-points.tsv"),
    include_str!("../../../second/data/open-points-02.tsv"),
    include_str!("../../../second/data/floats.tsv"),
    include_str!("../../../second/data/references.tsv"),
];
const BOTH: [(&str, Implementation); 2] = [("library", fenced), ("second", answer)];

fn unhex(digits: &str) -> Vec<u8> {
    let byte = |index: usize| u8::from_str_radix(&digits[index..index + 2], 16).expect("hex digits");
    (0..digits.len()).step_by(2).map(byte).collect()
}

fn alike(record: &[u8]) {
    let compared = compare(answer, fenced, record, &mut Random::new(1), &mut Coverage::default());
    compared.unwrap_or_else(|difference| panic!("{}\n{}", difference.what, difference.hex()));
}

#[test]
fn open_points() {
    let mut count = 0;
    for line in OPEN_POINTS.iter().flat_map(|page| page.lines()) {
        let columns: Vec<&str> = line.split('\t').collect();
        let [name, record, expected] = columns[..] else { panic!("three columns: {line}") };
        let record = unhex(record);
        for (by, implementation) in BOTH {
            assert_eq!(printed(implementation, &record).replace('\n', "|"), expected, "{name} by {by}");
        }
        alike(&record);
        count += 1;
    }
    assert_eq!(count, 549);
}

fn holds(ruling: &Ruling, implementation: Implementation) -> bool {
    let mut page = [0; PAGE];
    let outcome = implementation(&ruling.record, &mut page);
    let entry = (page[3], usize::from(u16::from_be_bytes([page[4], page[5]])));
    match ruling.ruled {
        Ruled::Refused(number, place) => (outcome.number, outcome.place) == (number, place),
        _ if outcome.number != 0 => false,
        Ruled::Rank(rank) => outcome.rank == rank,
        Ruled::Solved(rank, rounds, reached) => {
            (outcome.rank, outcome.rounds, outcome.reached) == (rank, rounds, reached)
        }
        Ruled::Entry(reason, place) => entry == (reason, place),
    }
}

#[test]
fn rulings() {
    for ruling in rulings::all() {
        for (by, implementation) in BOTH {
            let shown = printed(implementation, &ruling.record);
            assert!(holds(&ruling, implementation), "{} by {by}: {:?}, but\n{shown}", ruling.name, ruling.ruled);
        }
        alike(&ruling.record);
    }
}

#[test]
fn what_is_measured() {
    for workload in second::workload::all() {
        alike(&workload.record);
    }
}
