//! Pattern tests of the library, one in a query, beside the second evaluator's
//! matcher.

use comparison::library;
use second::draft::Draft;
use second::generate::pattern::{pattern, string};
use second::limits;
use second::pattern::matches;
use second::print::PAGE;
use second::random::Random;

const TEXT: &str = "Authorizer: \"POLICY\"\nConditions: s ~= p -> \"yes\"; !(s ~= p) -> \"no\";";

/// What the library answers: none where the test is an error.
fn tested(pattern: &[u8], string: &[u8]) -> Option<bool> {
    let draft = Draft::default().value("error").value("no").value("yes").requester("a");
    let record = draft.attribute("p", pattern).attribute("s", string).local(TEXT).record();
    let outcome = library(&record, &mut [0; PAGE]);
    assert_eq!(outcome.number, 0);
    [None, Some(false), Some(true)][usize::from(outcome.rank)]
}

/// A million pairs; those that a record can't hold are left out.
#[test]
fn a_million_pairs() {
    let mut random = Random::new(208);
    let mut counts = [0; 3];
    while counts.iter().sum::<usize>() < 1_000_000 {
        let pattern = pattern(&mut random);
        for _ in 0..10 {
            let string = string(&mut random, &pattern);
            let held = |bytes: &[u8]| bytes.len() <= limits::ATTRIBUTE_BYTES.most && !bytes.contains(&0);
            if !held(&pattern) || !held(&string) {
                continue;
            }
            let expected = matches(&pattern, &string).ok();
            let shown = (String::from_utf8_lossy(&pattern), String::from_utf8_lossy(&string));
            assert_eq!(tested(&pattern, &string), expected, "{shown:?}");
            counts[expected.map_or(0, |found| 1 + usize::from(found))] += 1;
        }
    }
    assert!(counts.iter().all(|count| *count > 50_000), "{counts:?}");
}
