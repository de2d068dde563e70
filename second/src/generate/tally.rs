//! Fifteen tests in one record. Its rank is the number of tests that hold, so
//! that none hides another.

use super::expression;
use super::float;
use super::pattern;
use super::scene::Scene;
use crate::draft::Draft;
use crate::limits;
use crate::random::Random;

const TESTS: usize = limits::VALUES.most - 1;

/// A test that is longer is made anew, so that all of them fit in a record.
const TEST_BYTES: usize = 2_000;

/// Attributes that the tests here read, besides those of the scene.
const ATTRIBUTES: [(&str, &str); 4] = [("one", "1"), ("seven", "-7"), ("empty", ""), ("half", "-0.5")];

pub fn record(random: &mut Random) -> Vec<u8> {
    let scene = Scene::new(random);
    let mut draft = (0..=TESTS).fold(Draft::default(), |draft, value| draft.value(format!("v{value}")));
    draft.requesters = scene.requesters.clone();
    draft.attributes = scene.attributes.clone();
    draft.attributes.retain(|attribute| attribute.1.len() <= 1_000);
    for (name, value) in ATTRIBUTES {
        draft = draft.attribute(name, value);
    }
    draft = draft.attribute("long", vec![b'v'; limits::ATTRIBUTE_BYTES.most]);
    let valid = pattern::valid(random);
    draft = draft.attribute(pattern::SUBJECT, pattern::string(random, &valid)).attribute(pattern::PATTERN, valid);
    draft = draft.attribute(pattern::BROKEN_PATTERN, pattern::broken(random));
    for index in 0..TESTS {
        let text = counted(random, &scene, &draft, index);
        draft = draft.local(text);
    }
    (1..=TESTS).fold(draft, |draft, count| draft.local(threshold(count))).record()
}

/// The assertion of one test.
fn counted(random: &mut Random, scene: &Scene, draft: &Draft, index: usize) -> Vec<u8> {
    let test = test(random, scene, draft);
    let conditions = [b"Conditions: ", &test[..], b";\n"].concat();
    let authorizer = format!("Authorizer: \"p{index}\"\n").into_bytes();
    // Constants hide attributes where they stand before Conditions.
    let constants = *random.pick(&["one=\"2\" empty=\"x\"", "seven=\"7\"", "long=\"\" true=\"1\""]);
    let constants = format!("Local-Constants: {constants}\n").into_bytes();
    match random.below(6) {
        0 => [constants, authorizer, conditions].concat(),
        1 => [authorizer, conditions, constants].concat(),
        _ => [authorizer, conditions].concat(),
    }
}

/// So many tests hold: that many values are reached.
fn threshold(count: usize) -> String {
    let all: Vec<String> = (0..TESTS).map(|index| format!("\"p{index}\"")).collect();
    format!("Authorizer: \"POLICY\"\nLicensees: {count}-of({})\nConditions: true -> \"v{count}\";\n", all.join(","))
}

fn test(random: &mut Random, scene: &Scene, draft: &Draft) -> Vec<u8> {
    match random.below(17) {
        0..=3 => integers(random).into(),
        4 => converted(random).into(),
        5 => lengths(random).into(),
        6 => strings(random).into(),
        7 => joined_names(random, draft),
        8 => spellings(random).into(),
        9 | 10 => short(random, pattern::test),
        11..=14 => float::test(random).into(),
        _ => short(random, |random| expression::test(random, scene, 4).join(&b' ')),
    }
}

/// Makes tests until one isn't too long.
fn short(random: &mut Random, make: impl Fn(&mut Random) -> Vec<u8>) -> Vec<u8> {
    loop {
        let test = make(random);
        if test.len() <= TEST_BYTES {
            return test;
        }
    }
}

fn comparison(random: &mut Random) -> &'static str {
    *random.pick(&["==", "!=", "<", ">", "<=", ">="])
}

/// An operation on integers near the ends of their range, and near 0.
fn integers(random: &mut Random) -> String {
    const NUMBERS: [&str; 20] = [
        "0",
        "1",
        "2",
        "3",
        "7",
        "30",
        "31",
        "32",
        "46340",
        "46341",
        "65536",
        "2147483647",
        "-1",
        "(-2)",
        "-3",
        "(-7)",
        "(-2147483647)",
        "@\"-2147483648\"",
        "@seven",
        "@half",
    ];
    const OPERATORS: [&str; 6] = ["+", "-", "*", "/", "%", "^"];
    let mut number = || *random.pick(&NUMBERS);
    let [a, b, c, d] = [number(), number(), number(), number()];
    let (first, second) = (*random.pick(&OPERATORS), *random.pick(&OPERATORS));
    let compared = comparison(random);
    match random.below(6) {
        0 => format!("{a} {first} {b} {second} {c} {compared} {d}"),
        1 => format!("{a} {first} {b} {compared} {c} {second} {d}"),
        2 => format!("-{a} {first} -{b} {compared} {c}"),
        3 => format!("!({a} {first} {b} {compared} {c})"),
        4 => format!("{a} {first} {b} {compared} {c} || true"),
        _ => format!("{a} {first} {b} {compared} {c}"),
    }
}

/// Text that is a number, nearly one, or none.
fn converted(random: &mut Random) -> String {
    const TEXTS: [&str; 24] = [
        "0",
        "-0",
        "-0.0",
        "-0.5",
        "0.5",
        "1.",
        ".5",
        "-",
        "",
        "--1",
        "+1",
        " 1",
        "1 ",
        "1e3",
        "00012",
        "12.34.5",
        "2147483647.9",
        "2147483648",
        "-2147483648",
        "-2147483648.0",
        "-2147483648.5",
        "-2147483649",
        "-1.0000001",
        "99999999999999999999.5",
    ];
    const NUMBERS: [&str; 8] = ["0", "1", "-1", "12", "2147483647", "-2147483647", "-2", "-2147483647 - 1"];
    let (text, number) = (*random.pick(&TEXTS), *random.pick(&NUMBERS));
    format!("@\"{text}\" {} {number}", comparison(random))
}

/// Strings whose lengths are near the greatest.
fn lengths(random: &mut Random) -> String {
    let end = *random.pick(&["", " . one", " . empty", " . \"\"", " . seven", " . one . empty"]);
    let string = format!("long . long{end}");
    let test =
        *random.pick(&["S != \"\"", "$(S) == \"\"", "@(S) == 0", "!(S == \"\")", "one . (S) > long", "S == long"]);
    test.replace('S', &string)
}

/// Strings alike but for their ends, and what "$" finds.
fn strings(random: &mut Random) -> String {
    const STRINGS: [&str; 18] = [
        "\"\"",
        "\"a\"",
        "\"ab\"",
        "\"abc\"",
        "\"b\"",
        "\"A\"",
        "\"\\377\"",
        "\"\\001\"",
        "\"1\"",
        "\"one\"",
        "one",
        "empty",
        "unset",
        "$\"one\"",
        "$(\"o\" . \"ne\")",
        "$$\"unset\"",
        "_MIN_TRUST",
        "$\"_MAX_TRUST\"",
    ];
    let (left, right) = (*random.pick(&STRINGS), *random.pick(&STRINGS));
    let joined = *random.pick(&["", " . \"a\"", " . \"\"", " . one"]);
    format!("{left}{joined} {} {right}", comparison(random))
}

/// Spellings of the same string, and of strings that look the same.
fn spellings(random: &mut Random) -> String {
    const ALIKE: [&[&str]; 14] = [
        &["\\n", "\\012", "\\n\\\n \t\n"],
        &["\\r", "\\015"],
        &["\\t", "\\011", "\t"],
        &["\\f", "\\014", "\x0c"],
        &["\\0", "0", "\\060", "\\\n0"],
        &["\\00", "00", "\\060\\060"],
        &["\\000", "000", "0\\00"],
        &["\\0000", "0000"],
        &["\\1", "1", "\\061"],
        &["\\18", "18", "1\\8", "\\061\\070"],
        &["\\01", "\\001", "\x01"],
        &["\\1018", "A8", "\\A8", "\\101\\8"],
        &["\\377", "\\37\\7", "377", "\\0377"],
        &["\\\\", "\\134", "\\\"", "\\042", "\\q", "q"],
    ];
    let same = *random.pick(&ALIKE);
    let other = if random.once_in(4) { *random.pick(&ALIKE) } else { same };
    format!("\"{}\" {} \"{}\"", random.pick(same), comparison(random), random.pick(other))
}

/// The two names that stand for lists, against the lists.
fn joined_names(random: &mut Random, draft: &Draft) -> Vec<u8> {
    let (name, items) = match random.below(2) {
        0 => ("_VALUES", &draft.values),
        _ => ("_ACTION_AUTHORIZERS", &draft.requesters),
    };
    let name = if random.once_in(3) { format!("$\"{name}\"") } else { name.into() };
    let list = items.join(&b',');
    let list = expression::literal(random, &list);
    [name.as_bytes(), b" ", comparison(random).as_bytes(), b" ", &list].concat()
}
