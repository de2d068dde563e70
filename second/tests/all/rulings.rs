//! The rulings to test against, and the limits that they name.

use second::draft::Draft;
use second::print::{print, PAGE};
use second::{answer, Outcome};

const POLICY: &str = "Authorizer: \"POLICY\"\n";

fn solved(draft: &Draft) -> (u8, usize, usize) {
    let outcome = answer(&draft.record(), &mut [0; PAGE]);
    assert_eq!((outcome.number, outcome.place), (0, 0));
    (outcome.rank, outcome.rounds, outcome.reached)
}

/// Reason and place of the first assertion.
fn entry(draft: &Draft) -> (u8, u16) {
    let mut page = [0xaa; PAGE];
    assert_eq!(answer(&draft.record(), &mut page).number, 0);
    (page[3], u16::from_be_bytes([page[4], page[5]]))
}

fn licence(authorizer: &str, licensees: &str) -> String {
    format!("Authorizer: \"{authorizer}\"\nLicensees: {licensees}")
}

fn asked_by(requesters: &[&str]) -> Draft {
    let draft = Draft::default().value("hold").value("immediate");
    requesters.iter().fold(draft, |draft, requester| draft.requester(requester))
}

fn test_holds(test: &str) -> bool {
    let draft = Draft::plain().local(format!("{POLICY}Conditions: {test};"));
    assert_eq!(entry(&draft), (0, 0), "{test}");
    solved(&draft).0 == 1
}

#[test]
fn first_ruling() {
    let draft = Draft::plain().local(licence("POLICY", "\"a\""));
    assert_eq!(solved(&draft), (1, 2, 2));
    let record = draft.record();
    assert_eq!(record.len(), 63);
    assert_eq!(print(&record), "rank 1 of 2\nrounds 2\nreached 2\nassertion 0 reason 0 at 0\n");
}

#[test]
fn loop_of_licences() {
    let web = |requester| {
        asked_by(&[requester])
            .local(licence("POLICY", "\"a\""))
            .local(licence("a", "\"b\""))
            .local(licence("b", "\"a\""))
    };
    assert_eq!(solved(&web("c")), (0, 0, 3));
    assert_eq!(solved(&web("b")), (1, 3, 3));
}

#[test]
fn no_assertions() {
    assert_eq!(solved(&Draft::plain()), (0, 0, 1));
}

#[test]
fn thresholds() {
    let rank = |requesters: &[&str], licensees| solved(&asked_by(requesters).local(licence("POLICY", licensees))).0;
    assert_eq!(rank(&["a", "c"], "2-of(\"a\",\"b\",\"c\")"), 1);
    assert_eq!(rank(&["a", "c"], "3-of(\"a\",\"b\",\"c\")"), 0);
    assert_eq!(rank(&["a"], "2-of(\"a\",\"a\")"), 1);
}

#[test]
fn third_of_five_ranks() {
    let mut draft = Draft::default().value("0").value("1").value("2").value("3").requester("r");
    for (name, value) in [("p", "0"), ("q", "1"), ("s", "2"), ("t", "2"), ("u", "3")] {
        draft = draft.local(format!("Authorizer: \"{name}\"\nLicensees: \"r\"\nConditions: true -> \"{value}\";"));
    }
    draft = draft.local(licence("POLICY", "3-of(\"p\",\"q\",\"s\",\"t\",\"u\")"));
    assert_eq!(solved(&draft).0, 2);
}

#[test]
fn tests_with_errors() {
    assert!(!test_holds("1/0 == 1 || true"));
    assert!(!test_holds("!(1/0 == 1)"));
    assert!(test_holds("true || 1/0 == 1"));
}

#[test]
fn integers() {
    for test in ["-2^2 == 4", "2^3^2 == 64", "-7/2 == -3"] {
        assert!(test_holds(test), "{test}");
    }
    for test in ["@\"-1.5\" == -2", "@\"1e3\" == 0", "@\"2147483648\" == 0"] {
        assert!(test_holds(test), "{test}");
    }
}

#[test]
fn misreadings() {
    assert_eq!(solved(&Draft::plain().local(format!("{POLICY}Licensees:"))).0, 0);
    assert_eq!(solved(&Draft::plain().local(POLICY)).0, 1);
    // Principals that POLICY doesn't reach add no rounds.
    let chain = Draft::plain().local(POLICY).local(licence("x", "\"y\"")).local(licence("y", "\"a\""));
    assert_eq!(solved(&chain), (1, 1, 1));
}

#[test]
fn faults() {
    assert_eq!(entry(&Draft::plain().local("Licensees: \"a\"")), (3, 14));
    assert_eq!(entry(&Draft::plain().local(format!("{POLICY}Licensees: \"a\" &&"))), (2, 38));
}

#[test]
fn limit_of_licensees() {
    let listed = |count| vec!["\"a\""; count].join(" && ");
    assert_eq!(entry(&Draft::plain().local(licence("POLICY", &listed(16)))), (0, 0));
    let place = 21 + 11 + 16 * 7;
    assert_eq!(entry(&Draft::plain().local(licence("POLICY", &listed(17)))), (7, place));
    let listed = |count| format!("16-of({})", vec!["\"a\""; count].join(","));
    let draft = Draft::plain().local(licence("POLICY", &listed(16)));
    assert_eq!((entry(&draft), solved(&draft).0), ((0, 0), 1));
}

#[test]
fn limit_of_assertions() {
    let with = |count| (0..count).fold(Draft::plain(), |draft, _| draft.local(POLICY));
    assert_eq!(solved(&with(200)), (1, 1, 1));
    let refused = answer(&with(201).record(), &mut [0; PAGE]);
    assert_eq!(refused, Outcome { number: 4, place: 24, ..Outcome::default() });
}

/// The report takes 603 bytes, the reach holds 3,201 principals.
#[test]
fn largest_answer() {
    assert_eq!(PAGE, 603);
    let record = second::workload::distinct(200).record();
    let mut page = [0xa5; PAGE + 1];
    assert_eq!(answer(&record, &mut page[..PAGE - 1]), Outcome { number: 9, ..Outcome::default() });
    assert_eq!(page, [0xa5; PAGE + 1]);
    let outcome = answer(&record, &mut page);
    assert_eq!(outcome, Outcome { number: 0, place: 0, rank: 1, rounds: 2, reached: 3_201 });
    assert_eq!((&page[..3], page[PAGE]), (&[1, 2, 88][..], 0xa5));
    assert!(page[3..PAGE].iter().all(|&byte| byte == 0));
    let outcome = answer(&second::workload::chain(200).record(), &mut page);
    assert_eq!(outcome, Outcome { number: 0, place: 0, rank: 1, rounds: 201, reached: 201 });
}

#[test]
fn limit_of_text() {
    let long = |count: usize| Draft::plain().local(format!("{POLICY}#{}", "x".repeat(count - 22)));
    assert_eq!(solved(&long(8_192)), (1, 1, 1));
    let refused = answer(&long(8_193).record(), &mut [0; PAGE]);
    assert_eq!(refused, Outcome { number: 5, place: 26, ..Outcome::default() });
}
