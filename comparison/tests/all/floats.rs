//! Floats of the library, one test in a query, beside the second evaluator's.

use comparison::{library, printed};
use second::draft::Draft;
use second::float::from_text;
use second::generate::decimal::{literal, number, text, Binary};
use second::generate::float::{digits, end, in_field, mixed, test};
use second::print::PAGE;
use second::random::Random;

/// What an implementation makes of a test: none where it is an error.
fn tested(implementation: second::compare::Implementation, draft: Draft, test: &str) -> Option<bool> {
    let text = format!("Authorizer: \"POLICY\"\nConditions: {test} -> \"yes\"; !({test}) -> \"no\";");
    let mut page = [0; PAGE];
    let outcome = implementation(&draft.local(&text).record(), &mut page);
    assert_eq!((outcome.number, page[3]), (0, 0), "{text}");
    [None, Some(false), Some(true)][usize::from(outcome.rank)]
}

fn asked() -> Draft {
    Draft::default().value("error").value("no").value("yes").requester("a")
}

/// That an operand is this float: an expression that isn't rounded says which.
fn is(operand: &str, float: f32) -> String {
    let sign = if float < 0.0 { "-" } else { "" };
    let expected = format!("{sign}({})", Binary::of(float.abs()).expression());
    format!("({operand} <= {expected} && {operand} >= {expected})")
}

fn converts(text: &str, operand: &str) {
    let test = is(operand, from_text(text.as_bytes()));
    assert_eq!(tested(library, asked().attribute("x", text), &test), Some(true), "{text}: {test}");
}

/// A million texts, most of them ties or beside one; a third are literals.
#[test]
fn a_million_conversions() {
    let mut random = Random::new(204);
    for round in 0..1_000_000 {
        match round % 6 {
            0 | 1 => {
                let literal = literal(&mut random);
                converts(&literal, &literal);
            }
            2 => converts(&text(&mut random), "&x"),
            _ => converts(&number(&mut random), "&x"),
        }
    }
}

/// Operations, exponents and orderings, with their errors.
#[test]
fn operations() {
    let mut random = Random::new(205);
    let mut counts = [0; 3];
    for _ in 0..300_000 {
        let test = if random.once_in(10) { end(&mut random) } else { test(&mut random) };
        let draft = || asked().attribute("one", "1").attribute("seven", "-7").attribute("half", "-0.5");
        let expected = tested(second::answer, draft(), &test);
        assert_eq!(tested(library, draft(), &test), expected, "{test}");
        counts[expected.map_or(0, |held| 1 + usize::from(held))] += 1;
    }
    assert!(counts.iter().all(|count| *count > 5_000), "{counts:?}");
}

/// Floats where others belong, and the other way round: reasons and places.
#[test]
fn faults() {
    const POLICY: &str = "Authorizer: \"POLICY\"\n";
    let mut random = Random::new(206);
    for round in 0..200_000 {
        let text = match round % 4 {
            0 => in_field(&mut random),
            1 => format!("{POLICY}{}", digits(&mut random)),
            _ => format!("{POLICY}Conditions: {};", mixed(&mut random)),
        };
        let record = Draft::plain().attribute("x", "1").local(&text).record();
        assert_eq!(printed(library, &record), printed(second::answer, &record), "{text}");
    }
}
