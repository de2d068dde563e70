//! Principals by reference: expressions come out as they do in Conditions, and an
//! answer stays where each stands as its literal; what counts as read of a query.

use second::draft::Draft;
use second::environment::Environment;
use second::eval::Evaluator;
use second::generate::{of_sort, Sort};
use second::line::{Label, Listing};
use second::print::PAGE;
use second::random::Random;
use second::record::{self, Query};
use second::store::{Assertion, Licence, Store};
use second::unread::read_attributes;
use second::{answer, read_assertions};

/// A literal in octal digits.
fn literal(value: &[u8]) -> String {
    let digits: String = value.iter().map(|byte| format!("\\{byte:03o}")).collect();
    format!("\"{digits}\"")
}

/// A field's tokens as they stand, one space between them.
fn spelled(text: &[u8], listing: &Listing, label: Label) -> Option<Vec<u8>> {
    let tokens = listing.tokens_of(listing.field(label)?);
    Some(tokens.iter().map(|token| token.spelling(text)).collect::<Vec<_>>().join(&b' '))
}

/// The constants that stand before a field.
fn constants_before(text: &[u8], listing: &Listing, label: Label) -> Vec<u8> {
    let earlier = listing.fields.iter().take_while(|field| field.label != label);
    let constants = earlier.into_iter().any(|field| field.label == Label::Constants);
    let spelled = spelled(text, listing, Label::Constants).filter(|_| constants).unwrap_or_default();
    [b"Local-Constants: ", &spelled[..], b"\n"].concat()
}

/// What an Authorizer's expression gives, asked as a test: whether it is the value,
/// and whether it is anything at all.
fn as_a_test(draft: &Draft, expression: &[u8], constants: &[u8], value: &[u8]) -> (bool, bool) {
    let holds = |test: Vec<u8>| {
        let mut asked = draft.clone();
        asked.assertions = vec![(1, [constants, b"Authorizer: \"POLICY\"\nConditions: ", &test, b";"].concat())];
        let mut page = [0; PAGE];
        let outcome = answer(&asked.record(), &mut page);
        assert_eq!((outcome.number, page[3]), (0, 0), "{}", asked.assertions[0].1.escape_ascii());
        outcome.rank + 1 == asked.values.len() as u8
    };
    let equal = [expression, b" == ", literal(value).as_bytes()].concat();
    (holds(equal), holds([expression, b" >= \"\""].concat()))
}

#[test]
fn as_in_conditions() {
    let mut random = Random::new(203);
    let (mut fine, mut errors) = (0, 0);
    for _ in 0..4_000 {
        let record = of_sort(&mut random, Sort::Reference);
        let query = record::read(&record).unwrap();
        let reading = read_assertions(&query);
        let environment = Environment::new(&query, &reading.store);
        let mut evaluator = Evaluator::new(&environment);
        for (statement, formed) in query.statements.iter().zip(&reading.formed) {
            let Some(formed) = formed else { continue };
            let mut listing = Listing::new();
            listing.list(statement.text);
            let constants = constants_before(statement.text, &listing, Label::Authorizer);
            let expression = spelled(statement.text, &listing, Label::Authorizer).unwrap();
            let value = evaluator.string(formed.authorizer.nodes, formed.authorizer_constants);
            // A longer one has no literal.
            let literal = value.unwrap_or_default();
            if literal.len() > 1_000 {
                continue;
            }
            let found = as_a_test(&Draft::of(&query), &expression, &constants, literal);
            assert_eq!(found, (value.is_ok(), value.is_ok()), "{}", statement.text.escape_ascii());
            match value {
                Ok(_) => fine += 1,
                Err(_) => errors += 1,
            }
        }
    }
    assert!(fine > 10_000 && errors > 50, "{fine} {errors}");
}

/// Licensees with every principal by its literal.
fn licensees(query: &Query, store: &Store, assertion: &Assertion) -> Option<String> {
    let fields = assertion.licensees?;
    let mut principals = fields.principals.of(&store.principals).iter();
    let mut stack: Vec<String> = Vec::new();
    for licence in fields.licences.of(&store.licences) {
        let next = match licence {
            Licence::Principal => literal(store.show(query, *principals.next().unwrap())),
            Licence::And | Licence::Or => {
                let [right, left] = [(); 2].map(|()| stack.pop().unwrap());
                format!("({left} {} {right})", if *licence == Licence::And { "&&" } else { "||" })
            }
            Licence::Threshold { least, listed } => {
                let list = stack.split_off(stack.len() - usize::from(*listed));
                format!("{least}-of({})", list.join(","))
            }
        };
        stack.push(next);
    }
    Some(stack.pop().unwrap_or_default())
}

/// The texts that are kept with literals for principals, the others as they are.
fn by_literals(record: &[u8]) -> Draft {
    let query = record::read(record).unwrap();
    let reading = read_assertions(&query);
    let mut draft = Draft::of(&query);
    for (place, assertion) in reading.assertions().enumerate() {
        let Some(assertion) = assertion else { continue };
        let text = query.statements[place].text;
        let mut listing = Listing::new();
        listing.list(text);
        let authorizer = literal(reading.store.show(&query, assertion.authorizer));
        let mut other = format!("Authorizer: {authorizer}\n").into_bytes();
        if let Some(licensees) = licensees(&query, &reading.store, assertion) {
            other.extend(format!("Licensees: {licensees}\n").bytes());
        }
        if let Some(conditions) = spelled(text, &listing, Label::Conditions) {
            other.extend(constants_before(text, &listing, Label::Conditions));
            other.extend([b"Conditions: ", &conditions[..], b"\n"].concat());
        }
        draft.assertions[place].1 = other;
    }
    draft
}

#[test]
fn by_literals_instead() {
    let mut random = Random::new(2_030);
    let (mut compared, mut changed) = (0, 0);
    for sort in [Sort::Reference, Sort::Rich].into_iter().cycle().take(8_000) {
        let record = of_sort(&mut random, sort);
        let draft = by_literals(&record);
        // Sixteen long ones have no room, and brackets may be too many.
        let mut pages = [[0; PAGE]; 2];
        let before = answer(&record, &mut pages[0]);
        let after = answer(&draft.record(), &mut pages[1]);
        let kept =
            |page: &[u8]| page[3..].chunks(3).take(draft.assertions.len()).map(|entry| entry[0]).collect::<Vec<_>>();
        if after.number == 0 && kept(&pages[0]) == kept(&pages[1]) {
            assert_eq!(before, after, "{}", record.escape_ascii());
            compared += 1;
            changed += usize::from(before.rank > 0);
        }
    }
    assert!(compared > 7_000 && changed > 1_500, "{compared} {changed}");
}

/// Which of the attributes a, b, c and d are read where these texts stand.
fn read(assertions: &[(u8, &str)]) -> String {
    let mut draft = Draft::plain().attribute("a", "b").attribute("b", "k").attribute("c", "").attribute("d", "d");
    for (standing, text) in assertions {
        draft = draft.assertion(*standing, text);
    }
    let record = draft.record();
    let query = record::read(&record).unwrap();
    let names = query.attributes.iter().zip(read_attributes(&query));
    names.filter(|(_, read)| *read).map(|(attribute, _)| char::from(attribute.name[0])).collect()
}

#[test]
fn what_counts_as_read() {
    let policy = "Authorizer: \"POLICY\"\n";
    assert_eq!(read(&[(1, policy)]), "");
    // Reached or not.
    assert_eq!(read(&[(1, "Authorizer: a\nLicensees: \"x\" || b . \"\"")]), "ab");
    assert_eq!(read(&[(2, "Licensees: 1-of((b), d)\nAuthorizer: \"nobody\"")]), "bd");
    // Conditions only where they are reached.
    assert_eq!(read(&[(1, "Authorizer: a\nConditions: d == \"\";")]), "a");
    assert_eq!(read(&[(1, &format!("{policy}Licensees: a")), (1, "Authorizer: a\nConditions: d == \"\";")]), "ad");
    // Set aside for an identifier, or for POLICY in a credential.
    assert_eq!(read(&[(1, "Authorizer: c\nLicensees: d")]), "cd");
    assert_eq!(read(&[(1, "Authorizer: \"\"\nLicensees: d\nConditions: a == \"\";")]), "d");
    assert_eq!(read(&[(2, "Authorizer: \"POLICY\"\nLicensees: d")]), "d");
    // With a fault of another reason, or not verified, nothing is read.
    assert_eq!(read(&[(1, "Authorizer: a\nLicensees: d .")]), "");
    assert_eq!(read(&[(1, "Authorizer: a\nLicensees: d\nConditions: true")]), "");
    assert_eq!(read(&[(0, "Authorizer: a\nLicensees: d")]), "");
    // A constant hides a name from where it stands on.
    assert_eq!(read(&[(1, "Local-Constants: a=\"x\"\nAuthorizer: a\nLicensees: a || d")]), "d");
    assert_eq!(read(&[(1, "Authorizer: a\nLocal-Constants: a=\"x\" d=\"y\"\nLicensees: a || d")]), "a");
    // "$" reads all, whatever it looks up.
    assert_eq!(read(&[(1, "Authorizer: \"x\"\nLicensees: $\"a\"")]), "abcd");
    assert_eq!(read(&[(1, "Local-Constants: a=\"x\"\nAuthorizer: $\"a\"")]), "abcd");
    assert_eq!(read(&[(1, "Authorizer: \"x\"\nLicensees: $\"a\" .")]), "");
    // A name in quotes is none.
    assert_eq!(read(&[(1, "Authorizer: \"a\"\nLicensees: \"b\" . \"c\"")]), "");
}

/// The first fault of an identifier stands where its field does.
#[test]
fn the_earlier_field_first() {
    let entry = |standing: u8, text: &str| {
        let mut page = [0; PAGE];
        answer(&Draft::plain().attribute("p", "POLICY").assertion(standing, text).record(), &mut page);
        (page[3], usize::from(u16::from_be_bytes([page[4], page[5]])))
    };
    assert_eq!(entry(1, "Authorizer: (x)\nLicensees: y"), (10, 13));
    assert_eq!(entry(1, "Licensees: \"a\" || ($y)\nAuthorizer: x"), (10, 19));
    assert_eq!(entry(2, "Authorizer: ((p) . \"\")\nLicensees: y"), (9, 14));
    assert_eq!(entry(2, "Licensees: \"a\" || y\nAuthorizer: p"), (10, 18));
    assert_eq!(entry(2, "Licensees: \"a\"\nAuthorizer: \"\" . (p)"), (9, 27));
    assert_eq!(entry(2, "Licensees: \"a\"\nAuthorizer: \"\" . (p)\nConditions: true; false"), (2, 59));
    assert_eq!(entry(1, "Licensees: \"a\"\nAuthorizer: \"\" . (p)"), (0, 0));
}
