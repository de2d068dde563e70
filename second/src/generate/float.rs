//! Tests of floats: conversions and operations with results that are known, ends of
//! the range, and floats where others belong.

use super::decimal::{literal, number, text, Binary};
use super::expression;
use crate::float;
use crate::integer::Error;
use crate::limits;
use crate::random::Random;

/// Conditions with digits near the most there may be, before the point and behind it.
pub fn digits(random: &mut Random) -> String {
    let count = limits::FLOAT_DIGITS + random.below(3) - 1;
    let whole = random.between(1, count - 1);
    let digit = *random.pick(&["0", "1", "9"]);
    let number = format!("{}.{}", digit.repeat(whole), digit.repeat(count - whole));
    let test = *random.pick(&[
        "N > 0.5",
        "&\"N\" > 0.5",
        "&\"-N\" < -0.5",
        "x == \"\" || 1.5 < -N",
        "1.0 ^ N > 0.0",
        "x == N",
        "N == N",
    ]);
    let text = *random.pick(&["Conditions: T;", "Conditions: !(T);", "Conditions: true -> { T; };"]);
    text.replace('T', &test.replace('N', &number))
}

/// An assertion with a float in any of its fields.
pub fn in_field(random: &mut Random) -> String {
    const TEXTS: [&str; 10] = [
        "Authorizer: F",
        "Authorizer: \"POLICY\"\nLicensees: F",
        "Authorizer: \"POLICY\"\nLicensees: 2-of(\"a\", F)",
        "Authorizer: \"POLICY\"\nLicensees: F-of(\"a\")",
        "Local-Constants: c=F\nAuthorizer: \"POLICY\"",
        "Authorizer: \"POLICY\"\nSignature: F",
        "KeyNote-Version: F\nAuthorizer: \"POLICY\"",
        "Authorizer: \"POLICY\"\nComment: F",
        "Authorizer: \"POLICY\"\nConditions: true -> F;",
        "Authorizer: \"POLICY\"\nConditions: F;",
    ];
    let float = *random.pick(&["1.5", "2.0", "&x", "1.0000000000000000000"]);
    random.pick(&TEXTS).replace('F', float)
}

/// A test whose operands are of any types: most are set aside at the first that is
/// of another type than the ones before it.
pub fn mixed(random: &mut Random) -> String {
    const OPERANDS: [&str; 14] = [
        "1.5",
        "0.25",
        "&x",
        "(&x)",
        "-1.5",
        "(1.5)",
        "1",
        "@x",
        "(-2)",
        "x",
        "\"1\"",
        "$x",
        "true",
        "1.0000000000000000000",
    ];
    const OPERATORS: [&str; 7] = ["+", "-", "*", "/", "^", "%", "."];
    const COMPARISONS: [&str; 7] = ["==", "!=", "<", ">", "<=", ">=", "~="];
    // Mostly floats, so that what is wrong stands at any place.
    let mut operand = || if random.once_in(3) { *random.pick(&OPERANDS) } else { *random.pick(&OPERANDS[..6]) };
    let [a, b, c, d] = [operand(), operand(), operand(), operand()];
    let mut operator = || if random.once_in(4) { *random.pick(&OPERATORS) } else { *random.pick(&OPERATORS[..5]) };
    let [first, second] = [operator(), operator()];
    let compared = if random.once_in(2) { *random.pick(&COMPARISONS) } else { ordering(random) };
    match random.below(6) {
        0 => format!("{a} {compared} {b}"),
        1 => format!("{a} {first} {b} {compared} {c} {second} {d}"),
        2 => format!("!({a} {first} ({b} {second} {c}) {compared} {d})"),
        3 => format!("true && {a} {compared} {b} {first} {c}"),
        4 => format!("{a} {first} {b}"),
        _ => format!("{a} {first} {b} {compared} {c}"),
    }
}

/// A test at an end of the range: where results become infinite, or zero, and
/// exponents have no power.
pub fn end(random: &mut Random) -> String {
    const TESTS: [&str; 28] = [
        "1.0 ^ 64.0 > 0.0",
        "1.0 ^ 65.0 > 0.0",
        "!((-1.0) ^ 65.0 >= 0.0)",
        "0.5 ^ 65.0 >= 0.0",
        "1.0 ^ 0.5 > 0.0",
        "1.0 ^ -1.0 > 0.0",
        "0.0 ^ -0.0 > 0.0",
        "1.0 ^ (1.0 / 0.0) > 0.0 || true",
        "M + M > 0.0",
        "M - -M > 0.0",
        "-M - M < 0.0",
        "-M + -M < 0.0",
        // Half of the last bit is a tie, which would be infinite; less isn't.
        "M + 2.0 ^ 64.0 * 2.0 ^ 39.0 > 0.0",
        "M + 16777215.0 * 2.0 ^ 64.0 * 2.0 ^ 15.0 >= M",
        "M - 2.0 ^ 64.0 * 2.0 ^ 39.0 < M",
        "-M - 2.0 ^ 64.0 * 2.0 ^ 39.0 < 0.0",
        "M * 1.0 >= M",
        "M * 1.0000002 >= M",
        "M / 0.99999994 >= M",
        "M / M >= 1.0",
        "2.0 ^ 64.0 ^ 2.0 > 0.0",
        "(-2.0) ^ 63.0 * 2.0 ^ 64.0 < 0.0",
        "L > 0.0 && L / 1.5 > 0.0",
        "L / 2.0 <= 0.0",
        "L / 2.0 > 0.0 || L * 1.5 > L",
        "L * 2.5 <= L + L",
        "-L / 2.0 >= 0.0 && 1.0 / (-L / 2.0) < 0.0",
        "1.0 / L > 0.0",
    ];
    let greatest = "(16777215.0 * 2.0 ^ 64.0 * 2.0 ^ 40.0)";
    let least = "(0.5 ^ 64.0 * 0.5 ^ 64.0 * 0.5 ^ 21.0)";
    random.pick(&TESTS).replace('M', greatest).replace('L', least)
}

/// A test of floats.
pub fn test(random: &mut Random) -> String {
    match random.below(5) {
        0 => converted(random),
        1 => calculated(random),
        2 => exact(random),
        3 if random.once_in(2) => end(random),
        _ => {
            let (left, right) = (operand(random), operand(random));
            format!("{left} {} {right}", ordering(random))
        }
    }
}

fn ordering(random: &mut Random) -> &'static str {
    *random.pick(&["<", ">", "<=", ">="])
}

/// A conversion, which is to be a float exactly, or one beside it.
fn converted(random: &mut Random) -> String {
    let (text, operand) = match random.below(3) {
        0 => {
            let text = literal(random);
            (text.clone(), text)
        }
        1 => {
            let text = number(random);
            (text.clone(), format!("&\"{text}\""))
        }
        _ => {
            let text = text(random);
            let literal = expression::literal(random, text.as_bytes());
            (text, format!("&{}", String::from_utf8(literal).expect("ASCII")))
        }
    };
    let expected = nearly(random, float::from_text(text.as_bytes()));
    match random.below(4) {
        0 => format!("{operand} {} {expected}", ordering(random)),
        _ => format!("{operand} <= {expected} && {operand} >= {expected}"),
    }
}

/// The float itself as an expression that isn't rounded, or seldom one beside it.
fn nearly(random: &mut Random, float: f32) -> String {
    let bits = float.abs().to_bits();
    let beside = match random.below(6) {
        0 => bits + 1,
        1 => bits.saturating_sub(1),
        _ => bits,
    };
    let sign = if float.is_sign_negative() { "-" } else { "" };
    format!("{sign}({})", Binary::of(f32::from_bits(beside)).expression())
}

/// A power, or two operations, whose result is to be a float exactly.
fn exact(random: &mut Random) -> String {
    loop {
        let (expression, result) = if random.once_in(2) { raised(random) } else { twice(random) };
        if let Ok(float) = result {
            let expected = nearly(random, float);
            return format!("{expression} <= {expected} && {expression} >= {expected}");
        }
    }
}

/// A base near 1 with an exponent.
fn raised(random: &mut Random) -> (String, Result<f32, Error>) {
    const BASES: [&str; 10] =
        ["1.1", "0.9", "1.0000001", "3.3", "0.3", "1.7", "0.99999994", "2.5", "1.00000011920928955", "0.1"];
    let base = *random.pick(&BASES);
    let exponent = random.between(2, 64);
    let value = |text: &str| float::from_text(text.as_bytes());
    (format!("{base} ^ {exponent}.0"), float::power(value(base), exponent as f32))
}

fn twice(random: &mut Random) -> (String, Result<f32, Error>) {
    type Operation = (char, fn(f32, f32) -> Result<f32, Error>);
    const OPERATIONS: [Operation; 4] =
        [('+', float::add), ('-', float::subtract), ('*', float::multiply), ('/', float::divide)];
    let [a, b, c] = [(); 3].map(|_| literal(random));
    let [x, y, z] = [&a, &b, &c].map(|text| float::from_text(text.as_bytes()));
    let ((first, compute), (second, go_on)) = (*random.pick(&OPERATIONS), *random.pick(&OPERATIONS));
    (format!("({a} {first} {b}) {second} {c}"), compute(x, y).and_then(|result| go_on(result, z)))
}

/// An operand near an end of the range, near 0, or near 1.
fn operand(random: &mut Random) -> String {
    const NUMBERS: [&str; 30] = [
        "0.0",
        "1.0",
        "0.5",
        "1.5",
        "2.0",
        "3.0",
        "0.1",
        "10.0",
        "1.1",
        "63.0",
        "64.0",
        "16777216.0",
        "16777217.0",
        "99999999999999999.9",
        "0.00000000000000001",
        "(-1.0)",
        "-0.0",
        "-2.0",
        "(-0.5)",
        "&seven",
        "&half",
        "&one",
        "&unset",
        "(2.0 ^ 64.0)",
        "(0.5 ^ 64.0)",
        "(2.0 ^ 63.0 * 2.0 ^ 64.0)",
        "(0.5 ^ 64.0 * 0.5 ^ 62.0)",
        "(0.5 ^ 64.0 * 0.5 ^ 64.0 * 0.5 ^ 21.0)",
        "(16777215.0 * 2.0 ^ 64.0 * 2.0 ^ 40.0)",
        "(-16777215.0 * 2.0 ^ 64.0 * 2.0 ^ 40.0)",
    ];
    match random.below(5) {
        0 => literal(random),
        1 => format!("&\"{}\"", number(random)),
        _ => random.pick(&NUMBERS).to_string(),
    }
}

/// Exponents that are whole numbers from 0 to 64, and others.
fn exponent(random: &mut Random) -> String {
    const OTHERS: [&str; 14] = [
        "65.0",
        "64.00001",
        "63.99999999",
        "0.5",
        "-1.0",
        "-0.0",
        "&\"-0\"",
        "&one",
        "&half",
        "128.0",
        "0.00000000000000001",
        "4294967297.0",
        "64.0",
        "0.0",
    ];
    match random.below(2) {
        0 => random.pick(&OTHERS).to_string(),
        _ => format!("{}.0", random.below(65)),
    }
}

/// An operation, or two, that may be an error.
fn calculated(random: &mut Random) -> String {
    let [a, b, c, d] = [(); 4].map(|_| operand(random));
    let mut operation = || match random.below(6) {
        0 => ("^", Some(exponent(random))),
        1 => ("+", None),
        2 => ("-", None),
        3 => ("*", None),
        4 => ("/", None),
        _ => ("^", None),
    };
    let (first, small) = operation();
    let (second, _) = operation();
    let b = small.unwrap_or(b);
    let compared = ordering(random);
    match random.below(6) {
        0 => format!("{a} {first} {b} {second} {c} {compared} {d}"),
        1 => format!("{a} {first} {b} {compared} {c} {second} {d}"),
        2 => format!("-{a} {first} {b} {compared} {c}"),
        3 => format!("!({a} {first} {b} {compared} {c})"),
        4 => format!("{a} {first} {b} {compared} {c} || true"),
        _ => format!("{a} {first} {b} {compared} {c}"),
    }
}
