//! What the floats of a run have met.

use std::cmp::Ordering;
use std::collections::BTreeMap;
use std::fmt;

use super::decimal::Binary;
use crate::check::LIMIT;
use crate::earley::Recognizer;
use crate::eval::FloatStep;
use crate::float::{self, Decimal};
use crate::grammar;
use crate::integer::Error;
use crate::limits;
use crate::line::{Fault, Label, Listing, GRAMMAR};
use crate::store::{Comparison, Node, Operation};
use crate::token::{Kind, Token};

#[derive(Clone, Debug, Default, PartialEq, Eq)]
pub struct FloatCoverage {
    pub kinds: BTreeMap<&'static str, u64>,
}

/// What conversions must meet.
const TEXTS: [&str; 13] = [
    "text of 18 digits",
    "text of 19 digits",
    "text of more digits",
    "text of another form",
    "an empty string",
    "a whole number",
    "a point",
    "a negative number",
    "a negative zero",
    "a tie to the float below",
    "a tie to the float above",
    "just below a tie",
    "just above a tie",
];

/// What operations must meet, with the words for each operation's results.
const RESULTS: [(Operation, &str, &str); 5] = [
    (Operation::Add, "a sum", "a sum that is an error"),
    (Operation::Subtract, "a difference", "a difference that is an error"),
    (Operation::Multiply, "a product", "a product that is an error"),
    (Operation::Divide, "a quotient", "a quotient that is an error"),
    (Operation::Power, "a power", "a power that is an error"),
];
const OPERATIONS: [&str; 11] = [
    "a result below the normal ones",
    "a result that rounds to zero",
    "zero divided by zero",
    "another number divided by zero",
    "an exponent of zero",
    "an exponent of negative zero",
    "an exponent of 64",
    "an exponent of 65",
    "a greater exponent",
    "a negative exponent",
    "an exponent that isn't whole",
];

/// What orderings must meet, where they hold and where they don't.
const ORDERINGS: [(Comparison, &str, &str); 4] = [
    (Comparison::Less, "< holds", "< fails"),
    (Comparison::Greater, "> holds", "> fails"),
    (Comparison::AtMost, "<= holds", "<= fails"),
    (Comparison::AtLeast, ">= holds", ">= fails"),
];
const EQUAL: [&str; 1] = ["equal floats"];

/// What literals of texts that are kept must meet.
const LITERALS: [&str; 2] = ["a literal of 18 digits", "a literal with zeros in front"];

/// Where texts come from, and what stands around an error.
const PLACES: [&str; 7] = [
    "& of a literal",
    "& of a name",
    "& of a \"$\"",
    "& of a joined string",
    "a negated float",
    "an error under \"!\"",
    "an error before \"||\"",
];

/// What texts that are set aside must meet.
const FAULTS: [&str; 22] = [
    "17th prefix operator &",
    "literal of 19 digits",
    "literal of more digits",
    "== behind a float",
    "!= behind a float",
    "~= behind a float",
    "% behind a float",
    "integer in a float's place",
    "@ in a float's place",
    "string in a float's place",
    "float in an integer's place",
    "& in an integer's place",
    "float in a string's place",
    "& in a string's place",
    "literal of 19 digits where no float may stand",
    "end of a test that is a float",
    "float in KeyNote-Version",
    "float in Local-Constants",
    "float in Authorizer",
    "float in Licensees",
    "float in Signature",
    "& in Licensees",
];

impl FloatCoverage {
    /// Counts what the Conditions of an assertion hold and met.
    pub fn count(&mut self, nodes: &[Node], steps: &[FloatStep]) {
        for step in steps {
            match step {
                FloatStep::Converted { text, float } => self.converted(text, *float),
                FloatStep::Calculated { operation, left, right, result } => {
                    self.calculated(*operation, *left, *right, *result);
                }
                FloatStep::Compared { comparison, order } => self.compared(*comparison, *order),
            }
        }
        let error = steps.iter().any(|step| matches!(step, FloatStep::Calculated { result: Err(_), .. }));
        for pair in nodes.windows(2) {
            let (before, after) = (pair[0], pair[1]);
            let (converts, compares) = (after == Node::ToFloat, matches!(before, Node::CompareFloats(_)));
            let met = [
                converts && matches!(before, Node::Text(_)),
                converts && matches!(before, Node::Name(_)),
                converts && matches!(before, Node::Dereference),
                converts && matches!(before, Node::Join),
                after == Node::NegateFloat,
                compares && error && matches!(after, Node::Not),
                compares && error && matches!(after, Node::Or { .. }),
            ];
            self.add_kinds(&PLACES, &met);
        }
    }

    fn converted(&mut self, text: &[u8], float: f32) {
        let digits = text.iter().filter(|byte| byte.is_ascii_digit()).count();
        let Some(decimal) = float::read(text) else {
            let long = is_number(text);
            let met = [
                false,
                long && digits == limits::FLOAT_DIGITS + 1,
                long && digits > limits::FLOAT_DIGITS + 1,
                !long && !text.is_empty(),
                text.is_empty(),
            ];
            return self.add_kinds(&TEXTS, &met);
        };
        let [down, up, below, above] = around_tie(decimal, float);
        let met = [
            digits == limits::FLOAT_DIGITS,
            false,
            false,
            false,
            false,
            decimal.places == 0,
            decimal.places > 0,
            decimal.negative && decimal.digits > 0,
            decimal.negative && decimal.digits == 0,
            down,
            up,
            below,
            above,
        ];
        self.add_kinds(&TEXTS, &met);
    }

    fn calculated(&mut self, operation: Operation, left: f32, right: f32, result: Result<f32, Error>) {
        let words = RESULTS.iter().find(|(known, ..)| *known == operation).expect("one of five");
        self.add(if result.is_ok() { words.1 } else { words.2 });
        let product = matches!(operation, Operation::Multiply | Operation::Divide | Operation::Power);
        let (divides, raises) = (operation == Operation::Divide, operation == Operation::Power);
        let most = limits::FLOAT_EXPONENT;
        let met = [
            result.is_ok_and(f32::is_subnormal),
            product && left != 0.0 && right != 0.0 && result == Ok(0.0),
            divides && right == 0.0 && left == 0.0,
            divides && right == 0.0 && left != 0.0,
            raises && right == 0.0 && right.is_sign_positive(),
            raises && right == 0.0 && right.is_sign_negative(),
            raises && right == most,
            raises && right == most + 1.0,
            raises && right > most + 1.0,
            raises && right < 0.0,
            raises && (0.0..=most).contains(&right) && right.fract() != 0.0,
        ];
        self.add_kinds(&OPERATIONS, &met);
    }

    fn compared(&mut self, comparison: Comparison, order: Ordering) {
        let words = ORDERINGS.iter().find(|(known, ..)| *known == comparison).expect("one of four");
        let holds = match comparison {
            Comparison::Less => order.is_lt(),
            Comparison::Greater => order.is_gt(),
            Comparison::AtMost => order.is_le(),
            _ => order.is_ge(),
        };
        self.add(if holds { words.1 } else { words.2 });
        self.add_kinds(&EQUAL, &[order.is_eq()]);
    }

    /// Counts the literals of a text that is kept.
    pub fn count_literals(&mut self, text: &[u8]) {
        let mut listing = Listing::new();
        listing.list(text);
        for token in listing.tokens.iter().filter(|token| token.kind == Kind::Float) {
            let zeros = token.spelling(text).starts_with(b"00");
            self.add_kinds(&LITERALS, &[digits(token) == limits::FLOAT_DIGITS, zeros]);
        }
    }

    /// Counts a text that is set aside by a float, or where one could have stood.
    pub fn count_fault(&mut self, text: &[u8], fault: Fault) {
        if fault.reason != GRAMMAR && fault.reason != LIMIT {
            return;
        }
        let mut listing = Listing::new();
        listing.list(text);
        let found = |token: &&Token| token.place() == fault.place;
        for field in listing.fields.iter() {
            let tokens = listing.tokens_of(field);
            let Some(token) = tokens.iter().find(found) else { continue };
            if fault.reason == LIMIT {
                return self.passed_limit(token);
            }
            if field.label != Label::Conditions {
                return self.in_field(field.label, token.kind);
            }
            let before = tokens.iter().take_while(|other| other.place() < fault.place);
            return self.in_conditions(before.map(|token| token.kind), token);
        }
    }

    fn passed_limit(&mut self, token: &Token) {
        let long = |count: usize| token.kind == Kind::Float && digits(token) == limits::FLOAT_DIGITS + count;
        let more = token.kind == Kind::Float && !long(1);
        self.add_kinds(&FAULTS, &[token.kind == Kind::Ampersand, long(1), more]);
    }

    fn in_field(&mut self, label: Label, kind: Kind) {
        let float = kind == Kind::Float;
        let met = [
            float && label == Label::Version,
            float && label == Label::Constants,
            float && label == Label::Authorizer,
            float && label == Label::Licensees,
            float && label == Label::Signature,
            kind == Kind::Ampersand && label == Label::Licensees,
        ];
        self.add_kinds(&FAULTS[16..], &met);
    }

    /// By what else could have stood there.
    fn in_conditions(&mut self, before: impl Iterator<Item = Kind>, token: &Token) {
        let grammar = grammar::of(Label::Conditions).expect("a grammar");
        let mut recognizer = Recognizer::new(grammar);
        before.for_each(|kind| {
            recognizer.take(kind);
        });
        let allows = |kind| recognizer.allows(kind);
        let (float, integer, string) = (allows(Kind::Float), allows(Kind::Digits), allows(Kind::Literal));
        // Behind a float, which has no equality, and no remainder.
        let behind = allows(Kind::Caret) && !allows(Kind::Percent);
        let is = |kind| token.kind == kind;
        let word = is(Kind::Literal) || is(Kind::Name) || is(Kind::Word);
        let met = [
            behind && is(Kind::Equal),
            behind && is(Kind::Unequal),
            behind && is(Kind::Match),
            behind && is(Kind::Percent),
            float && !integer && is(Kind::Digits),
            float && !integer && is(Kind::At),
            float && !string && word,
            integer && !float && is(Kind::Float),
            integer && !float && is(Kind::Ampersand),
            string && !float && !integer && is(Kind::Float),
            string && !float && !integer && is(Kind::Ampersand),
            is(Kind::Float) && digits(token) > limits::FLOAT_DIGITS,
            behind && is(Kind::Semicolon),
        ];
        self.add_kinds(&FAULTS[3..], &met);
    }

    fn add_kinds(&mut self, kinds: &[&'static str], met: &[bool]) {
        for (kind, _) in kinds.iter().zip(met).filter(|(_, met)| **met) {
            self.add(kind);
        }
    }

    fn add(&mut self, kind: &'static str) {
        *self.kinds.entry(kind).or_default() += 1;
    }

    pub fn merge(&mut self, other: &Self) {
        for (kind, count) in &other.kinds {
            *self.kinds.entry(kind).or_default() += count;
        }
    }

    /// What should have occurred and didn't.
    pub fn missing(&self) -> impl Iterator<Item = String> + '_ {
        let all = TEXTS.into_iter().chain(OPERATIONS).chain(EQUAL).chain(LITERALS).chain(PLACES).chain(FAULTS);
        let results = RESULTS.into_iter().flat_map(|(_, fine, error)| [fine, error]);
        let orderings = ORDERINGS.into_iter().flat_map(|(_, holds, fails)| [holds, fails]);
        let missing = |kind: &&str| !self.kinds.contains_key(kind);
        all.chain(results).chain(orderings).filter(missing).map(|kind| format!("float: {kind}"))
    }
}

/// All but the point.
fn digits(token: &Token) -> usize {
    usize::from(token.end - token.start) - 1
}

/// The form that "&" takes, of any length.
fn is_number(text: &[u8]) -> bool {
    let number = text.strip_prefix(b"-").unwrap_or(text);
    let parts: Vec<&[u8]> = number.split(|byte| *byte == b'.').collect();
    parts.len() <= 2 && parts.iter().all(|part| !part.is_empty() && part.iter().all(u8::is_ascii_digit))
}

/// Whether a decimal is a tie that its float is below of, or above of; or isn't, and
/// its last digit is next to one, below or above.
fn around_tie(decimal: Decimal, float: f32) -> [bool; 4] {
    let Decimal { digits, places, .. } = decimal;
    let float = float.abs();
    if float == 0.0 {
        return [false; 4];
    }
    let middles = [Binary::middle(f32::from_bits(float.to_bits() - 1)), Binary::middle(float)];
    let [lower, upper] = middles.map(|middle| {
        let at = |digits: u64| middle.compare(digits, places);
        (at(digits.saturating_sub(1)), at(digits), at(digits + 1))
    });
    let tie = |(_, here, _): (Ordering, Ordering, Ordering)| here.is_eq();
    let below = |(_, here, next): (Ordering, Ordering, Ordering)| here.is_lt() && next.is_ge();
    let above = |(last, here, _): (Ordering, Ordering, Ordering)| here.is_gt() && last.is_le();
    [tie(upper), tie(lower), below(upper), above(lower)]
}

impl fmt::Display for FloatCoverage {
    fn fmt(&self, formatter: &mut fmt::Formatter) -> fmt::Result {
        write!(formatter, "floats {:?}", self.kinds)
    }
}
