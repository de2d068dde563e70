//! Every example of the open points, as the program prints it.

use second::print::print;

fn unhex(digits: &str) -> Vec<u8> {
    let nibble = |index: usize| u8::from_str_radix(&digits[index..index + 2], 16).expect("hex digits");
    (0..digits.len()).step_by(2).map(nibble).collect()
}

#[test]
fn every_example() {
    let mut wrong = Vec::new();
    let mut count = 0;
    let pages = [
        include_str!("../../data/open-points.tsv"),
        include_str!("../../data/open-points-02.tsv"),
        include_str!("../../data/floats.tsv"),
        include_str!("../../data/references.tsv"),
    ];
    for line in pages.iter().flat_map(|page| page.lines()) {
        let columns: Vec<&str> = line.split('\t').collect();
        let [name, record, expected] = columns[..] else { panic!("three columns: {line}") };
        let printed = print(&unhex(record)).replace('\n', "|");
        if printed != expected {
            wrong.push(format!("{name}: {expected} but {printed}"));
        }
        count += 1;
    }
    assert!(wrong.is_empty(), "{}", wrong.join("\n"));
    assert_eq!(count, 549);
}
