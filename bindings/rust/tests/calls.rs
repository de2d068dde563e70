//! Calls of the library through the safe functions.

use lampsickle::{answer, ask, limits, Entry, Fault, Item, Outcome, Query, Refusal, What};

fn plain() -> Query {
    let values = vec![b"hold".to_vec(), b"immediate".to_vec()];
    Query { values, requesters: vec![b"a".to_vec()], ..Query::default() }
}

fn first_ruling() -> Vec<u8> {
    let mut query = plain();
    query.local("Authorizer: \"POLICY\"\nLicensees: \"a\"");
    query.record().expect("a query within the limits")
}

#[test]
fn first_ruling_is_answered() {
    let record = first_ruling();
    assert_eq!(record.len(), 63);
    let answer = ask(&record).expect("an answer");
    assert_eq!((answer.rank, answer.rounds, answer.reached), (1, 2, 2));
    assert_eq!(answer.entries, [Entry { reason: 0, place: 0 }]);
}

#[test]
fn the_record_in_the_examples_is_the_same() {
    assert_eq!(first_ruling(), include_bytes!("../../../examples/first-ruling.record"));
}

#[test]
fn bytes_beyond_the_report_are_kept() {
    let mut page = [0xa5; 20];
    assert_eq!(answer(&first_ruling(), &mut page).number, 0);
    assert_eq!(page[..6], [1, 0, 3, 0, 0, 0]);
    assert_eq!(page[6..], [0xa5; 14]);
}

#[test]
fn a_small_page_is_refused_and_kept() {
    for size in 0..6 {
        let mut page = vec![0xa5; size];
        assert_eq!(answer(&first_ruling(), &mut page), Outcome { number: 9, ..Outcome::default() });
        assert_eq!(page, vec![0xa5; size]);
    }
}

#[test]
fn empty_slices() {
    assert_eq!(answer(&[], &mut []), Outcome { number: 2, ..Outcome::default() });
    assert_eq!(ask(&[]), Err(Refusal { number: 2, place: 0 }));
}

#[test]
fn every_beginning_of_a_record() {
    let record = first_ruling();
    for length in 1..record.len() {
        let mut page = [7; limits::PAGE];
        let outcome = answer(&record[..length], &mut page);
        assert_eq!((outcome.number, outcome.rank, outcome.rounds, outcome.reached), (3, 0, 0, 0), "{length}");
        assert!(outcome.place <= length);
        assert_eq!(page, [7; limits::PAGE]);
    }
}

#[test]
fn oversize() {
    assert_eq!(ask(&vec![1; limits::RECORD_BYTES + 1]), Err(Refusal { number: 1, place: 0 }));
}

#[test]
fn from_many_threads() {
    let record = first_ruling();
    std::thread::scope(|scope| {
        for _ in 0..8 {
            scope.spawn(|| (0..1_000).for_each(|_| assert_eq!(ask(&record).map(|answer| answer.rank), Ok(1))));
        }
    });
}

fn fault(change: impl Fn(&mut Query)) -> Fault {
    let mut query = plain();
    change(&mut query);
    query.record().expect_err("a fault")
}

#[test]
fn faults_of_queries() {
    let too_long = fault(|query| query.values[1] = vec![b'v'; 65]);
    assert_eq!(too_long, Fault { item: Item::Value(1), what: What::Range(65, limits::VALUE_BYTES) });
    let twice = fault(|query| query.values[1] = b"hold".to_vec());
    assert_eq!(twice, Fault { item: Item::Value(1), what: What::Repeated(0) });
    let name = fault(|query| query.attributes.push((b"a-b".to_vec(), vec![])));
    assert_eq!(name, Fault { item: Item::Name(0), what: What::Byte(b'-', 1) });
    let nul = fault(|query| query.requesters.push(b"x\0".to_vec()));
    assert_eq!(nul, Fault { item: Item::Requester(1), what: What::Byte(0, 1) });
    let many = fault(|query| (0..201).for_each(|_| query.local("x")));
    assert_eq!(many, Fault { item: Item::Assertions, what: What::Range(201, limits::ASSERTIONS) });
}

/// What the builder accepts is never refused.
#[test]
fn built_records_are_read() {
    let mut query = plain();
    query.values = (0..16).map(|index| vec![b'v'; index + 1]).collect();
    query.requesters = vec![vec![0xff; 256]; 8];
    query.attributes = (0..32).map(|index| (format!("n{index}_").into_bytes(), vec![1; index * 10])).collect();
    (0..200).for_each(|index| query.verified(vec![b'#'; index + 1]));
    let answer = ask(&query.record().expect("within the limits")).expect("an answer");
    assert_eq!((answer.entries.len(), limits::PAGE), (200, 603));
}
