//! Expressions as trees, computed here by recursion over wide integers and wide
//! floats, against the same expressions written as Conditions with the fewest brackets.

use second::answer;
use second::draft::Draft;
use second::print::PAGE;
use second::random::Random;

/// A tree; its type follows from its place.
enum Tree {
    Number(i64),
    Real(&'static str),
    Text(&'static str),
    Name(&'static str),
    Truth(bool),
    Unary(&'static str, Box<Tree>),
    Binary(&'static str, Box<Tree>, Box<Tree>),
}

use Tree::{Binary, Name, Number, Real, Text, Truth, Unary};

const ATTRIBUTES: [(&str, &str); 4] = [("x", "y"), ("y", "-7.5"), ("z", "z"), ("big", "2147483647")];
const TEXTS: [&str; 10] = ["", "x", "y", "z", "-7.5", "12", "big", "a b", "16777217", "0.0000000000000000001"];
const NUMBERS: [i64; 8] = [0, 1, 2, 3, 31, 46_341, 65_536, 2_147_483_647];
const REALS: [&str; 9] =
    ["0.0", "1.0", "2.0", "0.1", "3.25", "64.0", "16777217.0", "99999999999999999.9", "0.00000000000000001"];

fn string(random: &mut Random, depth: usize) -> Tree {
    match random.below(if depth == 0 { 2 } else { 4 }) {
        0 => Text(TEXTS[random.below(TEXTS.len())]),
        1 => Name(random.pick(&ATTRIBUTES).0),
        2 => Unary("$", Box::new(string(random, depth - 1))),
        _ => Binary(".", Box::new(string(random, depth - 1)), Box::new(string(random, depth - 1))),
    }
}

fn integer(random: &mut Random, depth: usize) -> Tree {
    match random.below(if depth == 0 { 1 } else { 6 }) {
        0 => Number(*random.pick(&NUMBERS)),
        1 => Unary("-", Box::new(integer(random, depth - 1))),
        2 => Unary("@", Box::new(string(random, depth - 1))),
        _ => {
            let operator = *random.pick(&["+", "-", "*", "/", "%", "^"]);
            Binary(operator, Box::new(integer(random, depth - 1)), Box::new(integer(random, depth - 1)))
        }
    }
}

fn float(random: &mut Random, depth: usize) -> Tree {
    match random.below(if depth == 0 { 1 } else { 6 }) {
        0 => Real(REALS[random.below(REALS.len())]),
        1 => Unary("-", Box::new(float(random, depth - 1))),
        2 => Unary("&", Box::new(string(random, depth - 1))),
        _ => {
            let operator = *random.pick(&["+", "-", "*", "/", "^", "*", "/"]);
            Binary(operator, Box::new(float(random, depth - 1)), Box::new(float(random, depth - 1)))
        }
    }
}

fn test(random: &mut Random, depth: usize) -> Tree {
    match random.below(if depth == 0 { 1 } else { 9 }) {
        0 => Truth(random.once_in(2)),
        1 => Unary("!", Box::new(test(random, depth - 1))),
        2 | 3 => {
            let operator = *random.pick(&["&&", "||"]);
            Binary(operator, Box::new(test(random, depth - 1)), Box::new(test(random, depth - 1)))
        }
        4 | 5 => {
            let operator = *random.pick(&["<", ">", "<=", ">="]);
            Binary(operator, Box::new(float(random, depth - 1)), Box::new(float(random, depth - 1)))
        }
        way => {
            let operator = *random.pick(&["==", "!=", "<", ">", "<=", ">="]);
            let mut side = || if way == 6 { string(random, depth - 1) } else { integer(random, depth - 1) };
            Binary(operator, Box::new(side()), Box::new(side()))
        }
    }
}

/// Binding strength; a tree of a weaker one stands in brackets.
fn strength(tree: &Tree) -> u8 {
    match tree {
        Binary(operator, ..) => match *operator {
            "||" => 1,
            "&&" => 2,
            "+" | "-" | "." => 5,
            "*" | "/" | "%" => 6,
            "^" => 7,
            _ => 4,
        },
        Unary("!", _) => 3,
        Unary(..) => 8,
        _ => 9,
    }
}

fn write(tree: &Tree, least: u8, text: &mut String) {
    let bracket = strength(tree) < least;
    text.push_str(if bracket { "(" } else { "" });
    match tree {
        Number(number) => text.push_str(&number.to_string()),
        Real(number) => text.push_str(number),
        Text(content) => *text += &format!("\"{content}\""),
        Name(name) => text.push_str(name),
        Truth(truth) => *text += &truth.to_string(),
        Unary(operator, inner) => {
            text.push_str(operator);
            // "!" takes a negation or a comparison.
            write(inner, if *operator == "!" { 3 } else { 8 }, text);
        }
        Binary(operator, left, right) => {
            write(left, strength(tree), text);
            *text += &format!(" {operator} ");
            write(right, strength(tree) + 1, text);
        }
    }
    text.push_str(if bracket { ")" } else { "" });
}

enum Value {
    Number(i64),
    Real(f32),
    Text(String),
    Truth(bool),
}

/// The value, or none for an error.
fn value(tree: &Tree) -> Option<Value> {
    Some(match tree {
        Number(number) => Value::Number(*number),
        Real(number) => Value::Real(number.parse().expect("a number")),
        Text(text) => Value::Text(text.to_string()),
        Name(name) => Value::Text(lookup(name)),
        Truth(truth) => Value::Truth(*truth),
        Unary(operator, inner) => match (*operator, value(inner)?) {
            ("!", Value::Truth(truth)) => Value::Truth(!truth),
            ("-", Value::Number(number)) => Value::Number(ranged(-i128::from(number))?),
            ("-", Value::Real(number)) => Value::Real(-number),
            ("&", Value::Text(text)) => Value::Real(real(&text)),
            ("$", Value::Text(text)) => Value::Text(lookup(&text)),
            ("@", Value::Text(text)) => Value::Number(converted(&text)),
            _ => panic!("types"),
        },
        Binary("&&", left, right) => match value(left)? {
            Value::Truth(false) => Value::Truth(false),
            _ => value(right)?,
        },
        Binary("||", left, right) => match value(left)? {
            Value::Truth(true) => Value::Truth(true),
            _ => value(right)?,
        },
        Binary(operator, left, right) => match (value(left)?, value(right)?) {
            (Value::Number(left), Value::Number(right)) => match compared(operator, &left, &right) {
                Some(truth) => Value::Truth(truth),
                None => Value::Number(calculated(operator, left.into(), right.into())?),
            },
            (Value::Real(left), Value::Real(right)) => match compared(operator, &left, &right) {
                Some(truth) => Value::Truth(truth),
                None => Value::Real(calculated_widely(operator, left, right)?),
            },
            (Value::Text(left), Value::Text(right)) => match compared(operator, &left, &right) {
                Some(truth) => Value::Truth(truth),
                None => Value::Text(left + &right),
            },
            _ => panic!("types"),
        },
    })
}

fn compared<T: PartialOrd>(operator: &str, left: &T, right: &T) -> Option<bool> {
    Some(match operator {
        "==" => left == right,
        "!=" => left != right,
        "<" => left < right,
        ">" => left > right,
        "<=" => left <= right,
        ">=" => left >= right,
        _ => return None,
    })
}

fn calculated(operator: &str, left: i128, right: i128) -> Option<i64> {
    match operator {
        "+" => ranged(left + right),
        "-" => ranged(left - right),
        "*" => ranged(left * right),
        "/" => (right != 0).then(|| left / right).and_then(ranged),
        "%" => (right != 0).then(|| left % right).and_then(ranged),
        _ if right < 0 => None,
        _ if right == 0 => Some(1),
        _ if left == -1 => Some(if right % 2 == 0 { 1 } else { -1 }),
        _ if left.abs() < 2 => ranged(left),
        _ if right > 40 => None,
        _ => left.checked_pow(right as u32).and_then(ranged),
    }
}

/// By way of 64-bit floats: rounding twice gives what rounding once does.
fn calculated_widely(operator: &str, left: f32, right: f32) -> Option<f32> {
    let (wide, other) = (f64::from(left), f64::from(right));
    let result = match operator {
        "+" => wide + other,
        "-" => wide - other,
        "*" => wide * other,
        "/" => wide / other,
        _ => {
            let times = (0..=64u8).find(|&times| f64::from(times) == other)?;
            (0..times).fold(1.0, |product, _| f64::from((product * wide) as f32))
        }
    };
    Some(result as f32).filter(|result| result.is_finite())
}

fn ranged(number: i128) -> Option<i64> {
    i32::try_from(number).ok().map(i64::from)
}

fn lookup(name: &str) -> String {
    let found = ATTRIBUTES.iter().find(|(known, _)| *known == name);
    found.map_or(String::new(), |(_, value)| value.to_string())
}

/// Digits with at most one sign and point.
fn is_number(text: &str) -> bool {
    let shape = text.strip_prefix('-').unwrap_or(text);
    let parts: Vec<&str> = shape.split('.').collect();
    let digits = |part: &&str| !part.is_empty() && part.bytes().all(|byte| byte.is_ascii_digit());
    parts.len() <= 2 && parts.iter().all(digits)
}

/// "&" for the few texts that occur.
fn real(text: &str) -> f32 {
    let short = text.bytes().filter(u8::is_ascii_digit).count() <= 18;
    if is_number(text) && short {
        text.parse().expect("a number")
    } else {
        0.0
    }
}

/// "@" for the few texts that occur.
fn converted(text: &str) -> i64 {
    if !is_number(text) {
        return 0;
    }
    let number = text.parse::<f64>().expect("a number").floor();
    if (f64::from(i32::MIN)..=f64::from(i32::MAX)).contains(&number) {
        number as i64
    } else {
        0
    }
}

#[test]
fn trees_and_texts() {
    let mut random = Random::new(17);
    let mut met = [0; 3];
    for _ in 0..60_000 {
        let depth = random.between(1, 6);
        let tree = test(&mut random, depth);
        let mut text = String::from("Authorizer: \"POLICY\"\nConditions: ");
        write(&tree, 0, &mut text);
        text.push(';');
        let draft = ATTRIBUTES.iter().fold(Draft::plain(), |draft, (name, value)| draft.attribute(name, value));
        let mut page = [0; PAGE];
        let outcome = answer(&draft.local(&text).record(), &mut page);
        assert_eq!(page[3], 0, "{text}");
        let expected = match value(&tree) {
            Some(Value::Truth(truth)) => usize::from(truth),
            _ => 2,
        };
        met[expected] += 1;
        assert_eq!(outcome.rank, u8::from(expected == 1), "{text}");
    }
    assert!(met.iter().all(|&count| count > 3_000), "{met:?}");
}
