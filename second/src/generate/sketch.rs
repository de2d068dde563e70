//! A sketch of an assertion: its fields as rows of tokens, and their layout.

use super::expression::{self, literal, token, Tokens};
use super::reference;
use super::scene::Scene;
use crate::limits;
use crate::random::Random;

#[derive(Clone, Debug)]
pub struct Field {
    pub label: Vec<u8>,
    pub tokens: Tokens,
}

#[derive(Clone, Debug, Default)]
pub struct Sketch {
    pub fields: Vec<Field>,
}

/// An assertion that is well formed and keeps to the limits.
pub fn sketch(random: &mut Random, scene: &Scene) -> Sketch {
    let authorizer = scene.authorizer(random);
    let constants = constants(random, scene);
    // Principals may be named by constants that stand earlier, and by attributes.
    let named = !constants.is_empty() && random.once_in(2);
    let mut fields = Vec::new();
    let mut early = Vec::new();
    if named {
        early.push(field("Local-Constants:", assignments(random, &constants)));
    } else if !constants.is_empty() {
        fields.push(field("Local-Constants:", assignments(random, &constants)));
    }
    let mut names = if named { constants.clone() } else { Vec::new() };
    names.extend(scene.attributes.iter().cloned());
    fields.push(field("Authorizer:", principal(random, &names, &authorizer)));
    if !random.once_in(6) {
        fields.push(field("Licensees:", licensees(random, scene, &names)));
    }
    if !random.once_in(5) {
        let depth = random.between(1, 5);
        fields.push(field("Conditions:", conditions(random, scene, depth)));
    }
    if random.once_in(5) {
        fields.push(field("Comment:", comment(random)));
    }
    for place in (1..fields.len()).rev() {
        let other = random.below(place + 1);
        fields.swap(place, other);
    }
    early.append(&mut fields);
    if random.once_in(3) {
        let version = *random.pick(&["2", "02", "\"2\"", "\"\\062\""]);
        early.insert(0, field("KeyNote-Version:", token(version)));
    }
    if random.once_in(4) {
        early.push(field("Signature:", vec![literal(random, b"RSA-SHA1:00ff")]));
    }
    Sketch { fields: early }
}

fn field(label: &str, tokens: Tokens) -> Field {
    Field { label: label.into(), tokens }
}

fn constants(random: &mut Random, scene: &Scene) -> Vec<(Vec<u8>, Vec<u8>)> {
    const NAMES: [&str; 7] = ["x", "Alice", "key", "true", "dollars", "n0", "N0"];
    let mut constants: Vec<(Vec<u8>, Vec<u8>)> = Vec::new();
    if random.once_in(2) {
        return constants;
    }
    for name in NAMES {
        if random.once_in(3) {
            let value = match random.below(3) {
                0 => random.pick(&scene.principals).clone(),
                1 => b"POLICY".to_vec(),
                _ => scene.word(random),
            };
            constants.push((name.into(), value));
        }
    }
    constants
}

fn assignments(random: &mut Random, constants: &[(Vec<u8>, Vec<u8>)]) -> Tokens {
    let one = |(name, value): &(Vec<u8>, Vec<u8>)| [name.clone(), b"=".to_vec(), literal(random, value)];
    constants.iter().flat_map(one).collect()
}

/// A principal by its literal, or by an expression that gives it unless a
/// constant hides an attribute.
fn principal(random: &mut Random, names: &reference::Names, identifier: &[u8]) -> Tokens {
    let depth = random.below(4);
    reference::expression(random, names, identifier, depth)
}

fn licensees(random: &mut Random, scene: &Scene, names: &reference::Names) -> Tokens {
    if random.once_in(12) {
        return Vec::new();
    }
    let most = *random.pick(&[1, 2, 4, 16]);
    expression::licensees_of(random, most, &mut |random| {
        let usable = |value: &Vec<u8>| limits::PRINCIPAL_BYTES.holds(value.len());
        // What a name stands for may be an identifier as well.
        let identifier = match names.is_empty() || !random.once_in(8) {
            true => random.pick(&scene.principals).clone(),
            false => Some(random.pick(names).1.clone()).filter(usable).unwrap_or(b"b".to_vec()),
        };
        principal(random, names, &identifier)
    })
}

fn conditions(random: &mut Random, scene: &Scene, depth: usize) -> Tokens {
    expression::program(random, scene, depth)
}

/// Free text: some of it looks like tokens.
fn comment(random: &mut Random) -> Tokens {
    const PARTS: [&[u8]; 8] = [b"free", b"text", b"\"", b"#", b"\xff|~", b"Authorizer:", b"\\", b"\r"];
    (0..random.below(6)).map(|_| random.pick(&PARTS).to_vec()).collect()
}

impl Sketch {
    /// Lays the tokens out in lines, with comments between them.
    pub fn text(&self, random: &mut Random) -> Vec<u8> {
        let mut text = Vec::new();
        if random.once_in(6) {
            text.extend_from_slice(*random.pick(&[&b"# before all\n"[..], b" \t# x\n", b"#\n#\n"]));
        }
        let wide = random.once_in(2);
        for field in &self.fields {
            text.extend(label(random, &field.label));
            let mut last: &[u8] = b"(";
            for (index, token) in field.tokens.iter().enumerate() {
                text.extend_from_slice(gap(random, wide, index, last, token));
                text.extend_from_slice(token);
                last = token;
            }
            if field.label != b"Comment:" && random.once_in(8) {
                text.extend_from_slice(b" # behind \" it");
            }
            text.push(b'\n');
        }
        if random.once_in(2) {
            text.pop();
        }
        text
    }
}

/// Labels ignore case.
fn label(random: &mut Random, label: &[u8]) -> Vec<u8> {
    match random.below(4) {
        0 => label.to_ascii_lowercase(),
        1 => label.to_ascii_uppercase(),
        _ => label.to_vec(),
    }
}

/// What stands between two tokens so that they stay two.
fn gap(random: &mut Random, wide: bool, index: usize, last: &[u8], next: &[u8]) -> &'static [u8] {
    const GAPS: [&[u8]; 6] = [b"\t", b"  ", b"\n ", b"\n\t", b" # c\"\n ", b"\n# c\n \t#\n "];
    let apart = |byte: u8| matches!(byte, b'"' | b'(' | b')' | b'{' | b'}' | b',' | b';');
    let touching = index == 0 || apart(last[last.len() - 1]) || apart(next[0]);
    if wide && random.once_in(4) {
        return *random.pick(&GAPS);
    }
    if touching && random.once_in(2) {
        b""
    } else {
        b" "
    }
}
