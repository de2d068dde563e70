//! Random expressions of each type, as rows of tokens.

use super::decimal;
use super::pattern;
use super::scene::Scene;
use crate::random::Random;

pub type Tokens = Vec<Vec<u8>>;

pub fn token(spelling: impl AsRef<[u8]>) -> Tokens {
    vec![spelling.as_ref().to_vec()]
}

pub fn joined(parts: impl IntoIterator<Item = Tokens>) -> Tokens {
    parts.into_iter().flatten().collect()
}

pub fn bracketed(inner: Tokens) -> Tokens {
    joined([token("("), inner, token(")")])
}

/// Clauses, perhaps none. `depth` falls in each part of a part.
pub fn program(random: &mut Random, scene: &Scene, depth: usize) -> Tokens {
    let count = if depth == 0 { random.below(2) } else { random.below(4) };
    let clauses = (0..count).map(|_| joined([clause(random, scene, depth), token(";")]));
    clauses.flatten().collect()
}

fn clause(random: &mut Random, scene: &Scene, depth: usize) -> Tokens {
    let mut clause = test(random, scene, depth);
    match random.below(4) {
        0 => {}
        1 if depth > 0 => {
            let inner = program(random, scene, depth - 1);
            clause.extend(joined([token("->"), token("{"), inner, token("}")]));
        }
        2 => clause.extend(joined([token("->"), string(random, scene, depth)])),
        _ => {
            let value = random.pick(&scene.values).clone();
            clause.extend(joined([token("->"), vec![literal(random, &value)]]));
        }
    }
    clause
}

pub fn test(random: &mut Random, scene: &Scene, depth: usize) -> Tokens {
    const TRUTHS: [&str; 6] = ["true", "true", "TRUE", "false", "False", "tRuE"];
    if depth == 0 {
        return token(random.pick(&TRUTHS));
    }
    let depth = depth - 1;
    match random.below(10) {
        0 => token(random.pick(&TRUTHS)),
        1 => bracketed(test(random, scene, depth)),
        // "!" takes a negation or a comparison, so others stand in brackets.
        2 => joined([token("!"), bracketed(test(random, scene, depth))]),
        3 => joined([token("!"), comparison(random, scene, depth)]),
        4 | 5 => {
            let operator = *random.pick(&["&&", "||"]);
            joined([test(random, scene, depth), token(operator), test(random, scene, depth)])
        }
        _ => comparison(random, scene, depth),
    }
}

fn comparison(random: &mut Random, scene: &Scene, depth: usize) -> Tokens {
    let operator = *random.pick(&["==", "!=", "<", ">", "<=", ">=", "=="]);
    if random.once_in(12) {
        let pattern = pattern::pattern(random);
        let subject = match random.once_in(3) {
            true => string(random, scene, depth),
            false => {
                let string = pattern::string(random, &pattern);
                vec![literal(random, &string)]
            }
        };
        joined([subject, token("~="), vec![literal(random, &pattern)]])
    } else if random.once_in(24) {
        joined([string(random, scene, depth), token("~="), string(random, scene, depth)])
    } else if random.once_in(4) {
        let operator = *random.pick(&["<", ">", "<=", ">="]);
        joined([floating(random, scene, depth), token(operator), floating(random, scene, depth)])
    } else if random.once_in(2) {
        joined([string(random, scene, depth), token(operator), string(random, scene, depth)])
    } else {
        joined([integer(random, scene, depth), token(operator), integer(random, scene, depth)])
    }
}

pub fn string(random: &mut Random, scene: &Scene, depth: usize) -> Tokens {
    if depth == 0 || random.once_in(3) {
        return string_operand(random, scene, 0);
    }
    match random.below(3) {
        0 => {
            let left = string(random, scene, depth - 1);
            joined([left, token("."), string_operand(random, scene, depth - 1)])
        }
        _ => string_operand(random, scene, depth),
    }
}

/// What "$", "@" and "&" take.
fn string_operand(random: &mut Random, scene: &Scene, depth: usize) -> Tokens {
    match random.below(if depth == 0 { 4 } else { 7 }) {
        0 | 1 => {
            let word = scene.word(random);
            vec![literal(random, &word)]
        }
        2 | 3 => vec![scene.name(random)],
        4 | 5 => joined([token("$"), string_operand(random, scene, depth - 1)]),
        _ => bracketed(string(random, scene, depth - 1)),
    }
}

fn integer(random: &mut Random, scene: &Scene, depth: usize) -> Tokens {
    if depth == 0 || random.once_in(3) {
        return integer_operand(random, scene, 0);
    }
    match random.below(3) {
        0 => {
            let operator = *random.pick(&["+", "-", "*", "/", "%", "^"]);
            let left = integer(random, scene, depth - 1);
            joined([left, token(operator), integer_operand(random, scene, depth - 1)])
        }
        _ => integer_operand(random, scene, depth),
    }
}

fn integer_operand(random: &mut Random, scene: &Scene, depth: usize) -> Tokens {
    const NUMBERS: [&str; 12] = ["0", "1", "2", "3", "7", "31", "32", "10000", "2147483647", "0002", "65536", "46341"];
    match random.below(if depth == 0 { 3 } else { 6 }) {
        0 | 1 => token(random.pick(&NUMBERS)),
        2 => joined([token("@"), string_operand(random, scene, depth)]),
        3 | 4 => joined([token("-"), integer_operand(random, scene, depth - 1)]),
        _ => bracketed(integer(random, scene, depth - 1)),
    }
}

fn floating(random: &mut Random, scene: &Scene, depth: usize) -> Tokens {
    if depth == 0 || random.once_in(3) {
        return float_operand(random, scene, 0);
    }
    match random.below(3) {
        0 => {
            let operator = *random.pick(&["+", "-", "*", "/", "^"]);
            let left = floating(random, scene, depth - 1);
            joined([left, token(operator), float_operand(random, scene, depth - 1)])
        }
        _ => float_operand(random, scene, depth),
    }
}

fn float_operand(random: &mut Random, scene: &Scene, depth: usize) -> Tokens {
    const NUMBERS: [&str; 8] = ["0.0", "1.0", "2.0", "0.5", "3.0", "64.0", "007.50", "0.1"];
    match random.below(if depth == 0 { 4 } else { 7 }) {
        0 => token(random.pick(&NUMBERS)),
        1 => token(decimal::literal(random)),
        2 => joined([token("&"), string_operand(random, scene, depth)]),
        3 => {
            let text = decimal::text(random);
            joined([token("&"), vec![literal(random, text.as_bytes())]])
        }
        4 | 5 => joined([token("-"), float_operand(random, scene, depth - 1)]),
        _ => bracketed(floating(random, scene, depth - 1)),
    }
}

/// A Licensees expression over `principals`, with at most `most` occurrences.
pub fn licensees(random: &mut Random, principals: &[Vec<u8>], most: usize) -> Tokens {
    licensees_of(random, most, &mut |random| {
        let chosen = random.pick(principals).clone();
        vec![literal(random, &chosen)]
    })
}

/// A Licensees expression with at most `most` occurrences of what `principal` gives.
pub fn licensees_of(random: &mut Random, most: usize, principal: &mut dyn FnMut(&mut Random) -> Tokens) -> Tokens {
    match random.below(6) {
        0 if most >= 2 => {
            let listed = random.between(1, most.min(16));
            let k = random.between(1, listed);
            let list = (0..listed).map(|_| principal(random)).collect::<Vec<_>>();
            let list = list.join(&b","[..].to_vec());
            joined([token(k.to_string()), token("-of"), bracketed(list)])
        }
        1 | 2 if most >= 2 => {
            let left = random.between(1, most - 1);
            let operator = *random.pick(&["&&", "||"]);
            let first = licensees_of(random, left, principal);
            joined([first, token(operator), licensees_of(random, most - left, principal)])
        }
        3 => bracketed(licensees_of(random, most, principal)),
        _ => principal(random),
    }
}

/// A spelling of a literal with this value, which has no NUL.
pub fn literal(random: &mut Random, value: &[u8]) -> Vec<u8> {
    let mut spelling = vec![b'"'];
    // Some literals have no escapes but the needed ones.
    let share = *random.pick(&[2, 8, 1_000_000, 1_000_000]);
    let mut continued = false;
    for (index, &byte) in value.iter().enumerate() {
        let next = value.get(index + 1).copied().unwrap_or(0);
        let blank = matches!(byte, b' ' | b'\t' | b'\n');
        if (continued && blank) || random.once_in(share) {
            escaped(random, byte, next, &mut spelling);
        } else {
            plain(byte, &mut spelling);
        }
        continued = random.once_in(share);
        if continued {
            spelling.extend_from_slice(*random.pick(&[&b"\\\n"[..], b"\\\n  ", b"\\\n\n\t \n"]));
        }
    }
    spelling.push(b'"');
    spelling
}

fn plain(byte: u8, spelling: &mut Vec<u8>) {
    match byte {
        b'"' | b'\\' | b'\r' => spelling.extend([b'\\', byte]),
        b'\n' => spelling.extend(b"\\n"),
        _ => spelling.push(byte),
    }
}

fn escaped(random: &mut Random, byte: u8, next: u8, spelling: &mut Vec<u8>) {
    let short = byte < 0o10 && !matches!(next, b'0'..=b'7');
    let vanishing = !matches!(byte, b'n' | b'r' | b't' | b'f' | b'0'..=b'7' | b'\n');
    match byte {
        b'\n' if random.once_in(2) => spelling.extend(b"\\n"),
        b'\r' if random.once_in(2) => spelling.extend(b"\\r"),
        b'\t' if random.once_in(2) => spelling.extend(b"\\t"),
        0x0c if random.once_in(2) => spelling.extend(b"\\f"),
        // A backslash before one digit, with no octal digit behind it.
        b'0'..=b'7' if random.once_in(2) && !matches!(next, b'0'..=b'7') => spelling.extend([b'\\', byte]),
        _ if short && random.once_in(2) => spelling.extend(format!("\\0{byte:o}").bytes()),
        _ if vanishing && random.once_in(2) => spelling.extend([b'\\', byte]),
        _ => spelling.extend(format!("\\{byte:03o}").bytes()),
    }
}
