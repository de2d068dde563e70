//! Principals by reference: string expressions that give an identifier, others
//! that give none, and webs of delegation whose principals stand so.

use super::expression::{bracketed, joined, licensees_of, literal, token, Tokens};
use super::sketch::{Field, Sketch};
use super::{damage, scene};
use crate::check::POLICY;
use crate::draft::Draft;
use crate::limits;
use crate::random::Random;

/// Names and what they stand for.
pub type Names = [(Vec<u8>, Vec<u8>)];

/// A string expression that gives the identifier where the names stand for this.
pub fn expression(random: &mut Random, names: &Names, identifier: &[u8], depth: usize) -> Tokens {
    if depth > 0 && random.once_in(4) {
        // At the ends one side is empty.
        let place = random.below(identifier.len() + 1);
        let front = expression(random, names, &identifier[..place], depth - 1);
        return joined([front, token("."), operand(random, names, &identifier[place..], depth - 1)]);
    }
    operand(random, names, identifier, depth)
}

/// What may stand behind "." and "$".
fn operand(random: &mut Random, names: &Names, string: &[u8], depth: usize) -> Tokens {
    let holds: Vec<&Vec<u8>> = names.iter().filter(|(_, value)| value == string).map(|(name, _)| name).collect();
    match random.below(8) {
        0 | 1 if depth > 0 => bracketed(expression(random, names, string, depth - 1)),
        2 | 3 if !holds.is_empty() => vec![random.pick(&holds).to_vec()],
        4 | 5 if !holds.is_empty() && depth > 0 => {
            let name = random.pick(&holds).to_vec();
            joined([token("$"), operand(random, names, &name, depth - 1)])
        }
        _ => vec![literal(random, string)],
    }
}

/// A string expression that gives an error, nothing, or more than an identifier.
/// The name "v" stands for 2,048 bytes, "e" for none.
pub fn wrong(random: &mut Random) -> Tokens {
    const TEXTS: [&str; 24] = [
        "\"\"",
        "unset",
        "_0",
        "_max_trust",
        "e",
        "v",
        "( \"\" )",
        "( ( unset ) )",
        "\"\" . \"\"",
        "( \"\" ) . e . ( unset )",
        "$ \"unset\"",
        "$ unset",
        "$ $ e",
        "$ ( \"e\" )",
        "( $ \"v\" )",
        "v . v",
        "v . v . \"w\"",
        "( v ) . ( v . v )",
        "$ ( v . v . v )",
        "( $ ( v . v . v ) . \"a\" )",
        "$ ( v . v )",
        "$ ( v . v . \"w\" )",
        "true . False",
        "( ( ( e . \"\" ) ) )",
    ];
    match random.below(5) {
        0 => {
            let length = *random.pick(&[257, 257, 258, 300, 2_048]);
            let place = random.below(length);
            let [front, back] = [place, length - place].map(|length| vec![b'l'; length]);
            joined([vec![literal(random, &front)], token("."), vec![literal(random, &back)]])
        }
        1 => vec![literal(random, &vec![b'l'; 257])],
        _ => random.pick(&TEXTS).split(' ').flat_map(token).collect(),
    }
}

/// The most principals beside POLICY.
const PRINCIPALS: usize = 9;

/// A web whose principals stand by reference.
pub fn draft(random: &mut Random) -> Draft {
    let mut draft = Draft { values: scene::values(random), ..Draft::default() };
    let count = random.between(1, PRINCIPALS);
    let mut principals = vec![POLICY.to_vec()];
    principals.extend((1..=count).map(|number| identifier(random, number)));
    if random.once_in(4) {
        // A value that names a principal.
        let place = random.below(draft.values.len());
        let named = random.pick(&principals).clone();
        if limits::VALUE_BYTES.holds(named.len()) && !draft.values.contains(&named) {
            draft.values[place] = named;
        }
    }
    for _ in 0..random.between(1, 2) {
        let far = count - random.below(count).min(random.below(3));
        draft.requesters.push(principals[far].clone());
    }
    draft.attributes = attributes(random, &principals);
    let special = [
        (b"_MIN_TRUST".to_vec(), draft.values[0].clone()),
        (b"_MAX_TRUST".to_vec(), draft.values[draft.values.len() - 1].clone()),
        (b"_VALUES".to_vec(), draft.values.join(&b',')),
        (b"_ACTION_AUTHORIZERS".to_vec(), draft.requesters.join(&b',')),
    ];
    let names: Vec<_> = special.into_iter().chain(draft.attributes.iter().cloned()).collect();
    let smooth = random.once_in(2);
    for _ in 0..random.between(1, 8) {
        let place = draft.assertions.len().min(count);
        let from = if random.once_in(4) { random.below(count + 1) } else { place };
        let scene = Scene { names: &names, principals: &principals, values: &draft.values, smooth };
        let text = scene.text(random, from);
        let standing = *random.pick(&[1, 1, 1, 2, 2, if smooth { 1 } else { 0 }]);
        draft.assertions.push((if smooth && from == 0 { 1 } else { standing }, text));
    }
    draft
}

/// Some as long as an identifier may be, some that are keys.
fn identifier(random: &mut Random, number: usize) -> Vec<u8> {
    match random.below(8) {
        0 => format!("{number:0256}").into_bytes(),
        1 => format!("rsa-hex:{number:03x}").into_bytes(),
        2 => format!("DSA:aB{number}").into_bytes(),
        3 => format!("two words {number}").into_bytes(),
        _ => format!("p{number}").into_bytes(),
    }
}

/// Attributes that name principals, that name attributes, and that nobody reads.
fn attributes(random: &mut Random, principals: &[Vec<u8>]) -> Vec<(Vec<u8>, Vec<u8>)> {
    let mut attributes: Vec<(Vec<u8>, Vec<u8>)> = Vec::new();
    for (number, principal) in principals.iter().enumerate() {
        if !random.once_in(4) {
            attributes.push((format!("key{number}").into(), principal.clone()));
            if random.once_in(2) {
                attributes.push((format!("name{number}").into(), format!("key{number}").into()));
            }
        }
    }
    attributes.push((b"v".to_vec(), vec![b'v'; limits::ATTRIBUTE_BYTES.most]));
    attributes.push((b"e".to_vec(), Vec::new()));
    attributes.push((b"front".to_vec(), b"p".to_vec()));
    attributes.push((b"true".to_vec(), random.pick(principals).clone()));
    attributes.extend((0..random.below(4)).map(|index| (format!("unread{index}").into(), b"u".to_vec())));
    for place in (1..attributes.len()).rev() {
        attributes.swap(place, random.below(place + 1));
    }
    attributes
}

struct Scene<'a> {
    names: &'a Names,
    principals: &'a [Vec<u8>],
    values: &'a [Vec<u8>],
    /// Nothing is wrong.
    smooth: bool,
}

impl Scene<'_> {
    /// A text by one of the principals, given by its number.
    fn text(&self, random: &mut Random, from: usize) -> Vec<u8> {
        loop {
            let sketch = self.sketch(random, from);
            let damaged = !self.smooth && random.once_in(4);
            let text = if damaged { damage::text(random, sketch) } else { sketch.text(random) };
            if limits::TEXT_BYTES.holds(text.len()) {
                return text;
            }
        }
    }

    fn sketch(&self, random: &mut Random, from: usize) -> Sketch {
        let constants = if random.once_in(2) { self.constants(random) } else { Vec::new() };
        let mut order = vec!["Authorizer:", "Licensees:"];
        if random.once_in(3) {
            order.swap(0, 1);
        }
        if !constants.is_empty() {
            order.insert(random.below(3), "Local-Constants:");
        }
        if random.once_in(4) {
            order.insert(random.below(order.len() + 1), "Conditions:");
        }
        // The constants hide names from where they stand on.
        let mut names = self.names.to_vec();
        let mut fields = Vec::new();
        for label in order {
            let tokens = match label {
                "Authorizer:" => self.principal(random, &names, from, 12),
                "Licensees:" => self.licensees(random, &names, from),
                "Local-Constants:" => {
                    names.retain(|(name, _)| constants.iter().all(|(constant, _)| constant != name));
                    names.splice(..0, constants.iter().cloned());
                    let one = |(name, value): &(Vec<u8>, Vec<u8>)| {
                        [name.clone(), token("=").concat(), literal(random, value)]
                    };
                    constants.iter().flat_map(one).collect()
                }
                _ => self.conditions(random),
            };
            fields.push(Field { label: label.into(), tokens });
        }
        Sketch { fields }
    }

    /// Constants that hold principals, under names of their own or of the query.
    fn constants(&self, random: &mut Random) -> Vec<(Vec<u8>, Vec<u8>)> {
        const OWN: [&str; 3] = ["own", "Alice", "e"];
        let mut constants: Vec<(Vec<u8>, Vec<u8>)> = Vec::new();
        for _ in 0..random.between(1, 3) {
            let name = match random.once_in(2) {
                true => random.pick(&OWN).as_bytes().to_vec(),
                false => random.pick(self.names).0.clone(),
            };
            let reserved = name[0] == b'_' && (self.smooth || !random.once_in(20));
            if !reserved && constants.iter().all(|(known, _)| *known != name) {
                let value = if random.once_in(10) { Vec::new() } else { random.pick(self.principals).clone() };
                constants.push((name, value));
            }
        }
        constants
    }

    fn principal(&self, random: &mut Random, names: &Names, number: usize, share: usize) -> Tokens {
        if !self.smooth && random.once_in(share) {
            return wrong(random);
        }
        let depth = random.below(4);
        expression(random, names, &self.principals[number], depth)
    }

    /// Mostly the next principal, so that long ways are common.
    fn licensees(&self, random: &mut Random, names: &Names, from: usize) -> Tokens {
        let count = self.principals.len();
        let most = *random.pick(&[1, 1, 2, 3, 5, 16]);
        licensees_of(random, most, &mut |random| {
            let number = if random.once_in(3) { random.below(count) } else { (from + 1).min(count - 1) };
            self.principal(random, names, number, 24)
        })
    }

    fn conditions(&self, random: &mut Random) -> Tokens {
        let test = *random.pick(&["true", "key1 == \"p1\"", "e == \"\"", "$ \"front\" == \"p\"", "false"]);
        let value = random.pick(self.values).clone();
        let mut tokens: Tokens = test.split(' ').flat_map(token).collect();
        if random.once_in(2) {
            tokens.extend(joined([token("->"), vec![literal(random, &value)]]));
        }
        tokens.extend(token(";"));
        tokens
    }
}

/// A text at a limit or a fault of expressions. The query has an attribute "p" that
/// is POLICY, "k" that is a requester, "n" that is "k", "h" of 128 bytes, "v" of
/// 2,048 and "e" of none.
pub fn edge(random: &mut Random) -> String {
    const PARTS: [&str; 12] = [
        "\"a\"",
        "k",
        "$n",
        "$\"k\"",
        "(k)",
        "((\"a\") . \"b\")",
        "\"a\" . \"b\" . \"c\"",
        "$(\"k\")",
        "(($n))",
        "h . h",
        "(\"\" . k)",
        "\"a\" . (\"\" . (\"\" . \"b\"))",
    ];
    const WRONG: [&str; 10] = [
        "x . y",
        "\"\"",
        "(e)",
        "$e",
        "h . h . \"c\"",
        "v",
        "((v . v . v))",
        "($(v . v . v))",
        "(h) . (h . \"c\")",
        "unset",
    ];
    let parts = |random: &mut Random, count: usize| {
        let mut parts: Vec<&str> = (0..count).map(|_| *random.pick(&PARTS)).collect();
        if random.once_in(4) {
            parts[random.below(count)] = *random.pick(&WRONG);
        }
        parts
    };
    let near = |random: &mut Random, limit: usize| limit + random.below(3) - 1;
    let policy = "Authorizer: \"POLICY\"\n";
    match random.below(11) {
        0 => {
            let count = near(random, limits::LICENSEES);
            let operator = *random.pick(&[" && ", "||", "\n || "]);
            let mut text = parts(random, count).join(operator);
            if random.once_in(3) {
                text.push_str(*random.pick(&[
                    " .",
                    " . (",
                    " (",
                    " ||",
                    " || ($",
                    " || (",
                    " || (((",
                    " || 1-of(\"b\")",
                    ")",
                ]));
            }
            format!("{policy}Licensees: {text}")
        }
        1 => {
            let listed = *random.pick(&[1, 2, 3, 15, 16, 17]);
            let k = *random.pick(&[1, listed, listed + 1, 2]);
            format!("{policy}Licensees: {k}-of({})", parts(random, listed).join(","))
        }
        2 => {
            let depth = near(random, limits::BRACKETS);
            let inner = *random.pick(&["\"POLICY\"", "p", "$\"p\"", "1-of((\"a\"))", "k || k", "e", "(k) . \"\""]);
            let field = *random.pick(&["Authorizer: ", "Authorizer: \"POLICY\"\nLicensees: "]);
            format!("{field}{}{inner}{}", "(".repeat(depth), ")".repeat(depth))
        }
        3 => {
            let prefixes = near(random, limits::PREFIXES);
            let front = *random.pick(&["", "\"a\" . ", "(", "\"a\" . ("]);
            let close = if front.ends_with('(') { ")" } else { "" };
            let inner = *random.pick(&["n", "(n)", "$n", "($n)", "\"k\" . \"a\"", "1", "@n"]);
            let field =
                *random.pick(&["Authorizer: ", "Authorizer: p\nLicensees: ", "Authorizer: p\nLicensees: k || "]);
            format!("{field}{front}{}{inner}{close}", "$".repeat(prefixes))
        }
        4 => {
            let length = near(random, limits::PRINCIPAL_BYTES.most);
            let rest = "l".repeat(length - 128);
            let long = random
                .pick(&["h . L", "(h) . L", "L . (\"\" . h)", "(L . $\"h\")"])
                .replace('L', &format!("\"{rest}\""));
            let field = *random.pick(&["Authorizer: ", "Authorizer: p\nLicensees: k || "]);
            format!("{field}{}", long)
        }
        5 => {
            let last = *random.pick(&["\"\"", "\"w\"", "e", "h"]);
            let string = random.pick(&["v . v . S", "v . (v . S)", "(v . S) . v"]).replace('S', last);
            let whole = random.pick(&["$(S) . \"a\"", "(S)", "\"a\" . $(S)", "S"]).replace('S', &string);
            let field = *random.pick(&["Authorizer: ", "Authorizer: p\nLicensees: k || "]);
            format!("{field}{whole}")
        }
        6 | 7 => {
            // POLICY by reference, before or behind another fault or none.
            let root = *random.pick(&[
                "\"POLICY\"",
                "p",
                "(p)",
                "$\"p\"",
                "((\"POL\")) . (\"ICY\")",
                "(\"\" . p)",
                "\"policy\"",
                "p . \"\"",
                "c",
            ]);
            let other = *random.pick(&[
                "Licensees: k",
                "Licensees: x",
                "Licensees: (e) || k",
                "Licensees: k || (v)",
                "Licensees: 1-of(k, unset)",
                "Licensees: k . ",
                "Licensees: k || $",
                "Licensees: 0-of(k)",
                "Licensees: 2-of(k . k)",
                "Licensees: k k",
                "Conditions: true",
                "Conditions: 2147483648 > 0;",
                "Licensees: k |",
                "Local-Constants: _x = \"\"",
                "Local-Constants: c = \"POLICY\"",
                "Local-Constants: p = \"b\" k = \"\"",
                "Authorizer: p",
                "?",
            ]);
            let (first, second) = (format!("Authorizer: {root}"), other.to_string());
            if random.once_in(2) {
                format!("{first}\n{second}")
            } else {
                format!("{second}\n{first}")
            }
        }
        8 => {
            let literal = format!("\"{}\"", "l".repeat(near(random, limits::LITERAL_BYTES)));
            let long = random.pick(&["L", "$L . k", "(k . L)", "$(L)", "\"\" || L"]).replace('L', &literal);
            let field = *random.pick(&["Authorizer: ", "Authorizer: p\nLicensees: k || "]);
            format!("{field}{long}")
        }
        9 => {
            let licensees = *random.pick(&[
                "(\"a\" || \"b\") . \"c\"",
                "\"a\" . (\"b\" || \"c\")",
                "$(\"a\" && \"b\")",
                "\"a\" . 1-of(\"b\")",
                "1-of((k && k))",
                "1-of(1-of(k))",
                "1-of(k || k)",
                "1-of((k), $n . k,)",
                "1-of(k . )",
                "@n",
                "k . 1",
                "k . 1.5",
                "-k",
                "!k",
                "(k) (k)",
                "(k",
                "k)",
                "((k) . ",
                "$",
                "k.k.k",
                "k . k && (k) . k || ((k) . (k))",
                "1 -of (((k)) . ((k)), k)",
                "true . false",
                "_VALUES || _MIN_TRUST || _ACTION_AUTHORIZERS",
            ]);
            let authorizer = if random.once_in(4) { "e" } else { "p" };
            format!("Authorizer: {authorizer}\nLicensees: {licensees}")
        }
        _ => {
            let authorizer = *random.pick(&[
                "\"POLICY\" . ",
                "",
                "p . 5",
                "p.5",
                "1.5",
                "1",
                "p p",
                "p || p",
                "(p || p)",
                "1-of(p)",
                "(p",
                "p)",
                "$",
                "@p",
                "-p",
                "()",
                "p . ()",
                "$()",
                "_MIN_TRUST",
                "_ACTION_AUTHORIZERS",
                "$(\"p\") # x",
                "p\n .\n \"\"",
                "{p}",
                "p;",
                "p.",
                ".p",
                "p..p",
                "$$\"p\"",
                "(\"POLICY\")",
                "\"POLICY",
                "p = p",
            ]);
            format!("Authorizer: {authorizer}")
        }
    }
}
