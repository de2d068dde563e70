//! The journal: rulings, and every cut of generated operations.

use std::collections::BTreeSet;

use comparison::journal::{broken, carry_out, case, differ, Case, Implementation, ALL, LIBRARY, SECOND};
use second::random::Random;

const RULINGS: &str = include_str!("../../../second/data/journal.tsv");
const SEED: u64 = 213;
const COUNT: u64 = 6_000;

/// Bytes in hexadecimal digits, or one byte so many times.
fn unhex(digits: &str) -> Vec<u8> {
    match digits.split_once('*') {
        Some((byte, count)) => vec![unhex(byte)[0]; count.parse().expect("a count")],
        None => {
            let byte = |index: usize| u8::from_str_radix(&digits[index..index + 2], 16).expect("hex digits");
            (0..digits.len()).step_by(2).map(byte).collect()
        }
    }
}

fn hex(bytes: &[u8]) -> String {
    bytes.iter().map(|byte| format!("{byte:02x}")).collect()
}

/// What an operation of the rulings gives; a refusal keeps the page.
fn outcome(by: Implementation, operation: &str, case: &Case) -> String {
    let mut page = case.page.clone();
    let number = match operation {
        "append" => (by.append)(&mut page, &case.answer, ALL),
        "recover" => (by.recover)(&mut page, ALL),
        other => panic!("{other}"),
    };
    match number {
        0 => hex(&page),
        number => {
            assert_eq!(page, case.page);
            format!("refused {number} at 0")
        }
    }
}

#[test]
fn rulings() {
    let mut count = 0;
    for line in RULINGS.lines().filter(|line| !line.starts_with('#')) {
        let columns: Vec<&str> = line.split('\t').collect();
        let [name, operation, page, answer, expected] = columns[..] else { panic!("five columns: {line}") };
        let case = Case { page: unhex(page), answer: unhex(answer) };
        for (by, implementation) in [("library", LIBRARY), ("second", SECOND)] {
            assert_eq!(outcome(implementation, operation, &case), expected, "{name} by {by}");
        }
        assert_eq!(differ(LIBRARY, SECOND, &case, &mut Random::new(1)), None, "{name}");
        count += 1;
    }
    assert_eq!(count, 27);
}

/// What occurs in a case.
fn kinds(case: &Case) -> Vec<String> {
    let appended = (SECOND.append)(&mut case.page.clone(), &case.answer, ALL);
    let recovered = (SECOND.recover)(&mut case.page.clone(), ALL);
    let held = second::journal::answers(&case.page).len();
    let mut kinds = vec![format!("append {appended}"), format!("recover {recovered}"), format!("entries {held}")];
    let stores = second::journal::recover(&case.page).map_or(0, |plan| plan.len());
    if appended == 0 && case.answer.len() > 255 {
        kinds.push("a high byte".into());
    }
    if appended == 0 && stores == case.answer.len() + 3 {
        kinds.push("a full page".into());
    }
    if recovered == 0 && stores == 0 {
        kinds.push("nothing to clear".into());
    }
    if case.page.len() > 65_535 || case.answer.len() > 65_535 {
        kinds.push("oversize".into());
    }
    kinds
}

const OCCUR: [&str; 15] = [
    "append 0",
    "append 2",
    "append 3",
    "append 5",
    "append 9",
    "recover 0",
    "recover 2",
    "recover 5",
    "entries 0",
    "entries 1",
    "entries 3",
    "a high byte",
    "a full page",
    "nothing to clear",
    "oversize",
];

/// Both give the same behind every store, and the library keeps the promises.
#[test]
fn every_cut() {
    let mut seen = BTreeSet::new();
    for index in 0..COUNT {
        let case = case(SEED, index);
        let mut random = Random::new(index);
        assert_eq!(differ(LIBRARY, SECOND, &case, &mut random), None, "case {index}: {case:?}");
        assert_eq!(broken(LIBRARY, &case, &mut random), None, "case {index}: {case:?}");
        let listed: Vec<&[u8]> = lampsickle::journal::answers(&case.page).collect();
        assert_eq!(listed, second::journal::answers(&case.page), "case {index}");
        seen.extend(kinds(&case));
    }
    let missing: Vec<&str> = OCCUR.into_iter().filter(|kind| !seen.contains(*kind)).collect();
    assert_eq!(missing, Vec::<&str>::new());
}

/// The first case in which an implementation breaks a promise.
fn caught(by: Implementation) -> Option<u64> {
    (0..COUNT).find(|index| broken(by, &case(SEED, *index), &mut Random::new(*index)).is_some())
}

/// The orders that ruling J01 warns of lose entries, and are found to.
#[test]
fn wrong_orders_are_found() {
    let answer_first = |page: &mut [u8], answer: &[u8], stores: usize| {
        let mut plan = second::journal::append(page, answer);
        if let Ok(plan) = &mut plan {
            plan[..answer.len() + 2].rotate_left(2);
        }
        carry_out(plan, page, stores)
    };
    let from_the_front = |page: &mut [u8], stores: usize| {
        let mut plan = second::journal::recover(page);
        if let Ok(plan) = &mut plan {
            plan.reverse();
        }
        carry_out(plan, page, stores)
    };
    assert_eq!(caught(SECOND), None);
    assert!(caught(Implementation { append: answer_first, ..SECOND }).is_some());
    assert!(caught(Implementation { recover: from_the_front, ..SECOND }).is_some());
}
