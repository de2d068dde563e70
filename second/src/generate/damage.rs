//! Damage to sketches, texts and records.

use super::sketch::{Field, Sketch};
use crate::draft::Draft;
use crate::limits;
use crate::random::Random;

/// Tokens to be put where they may not belong.
const TOKENS: [&[u8]; 58] = [
    b"\"a\"",
    b"\"\"",
    b"x",
    b"true",
    b"_x",
    b"1",
    b"0",
    b"17",
    b"2147483648",
    b"1.5",
    b"12345678901234567.8",
    b"0.0000000000000000000",
    b"-of",
    b"->",
    b"&&",
    b"||",
    b"==",
    b"!=",
    b"<=",
    b">=",
    b"~=",
    b"(",
    b")",
    b"{",
    b"}",
    b",",
    b";",
    b"=",
    b"!",
    b"<",
    b">",
    b".",
    b"$",
    b"@",
    b"&",
    b"+",
    b"-",
    b"*",
    b"/",
    b"%",
    b"^",
    b"|",
    b"~",
    b"[",
    b":",
    b"\"",
    b"\"\\400\"",
    b"\"\\0\"",
    b"\\",
    b"#",
    b"\0",
    b"\r",
    b"\x0c",
    b"\xe9",
    b"\n",
    b"\n\n",
    b"\nx",
    b"\n?",
];

/// Bytes that mean something somewhere.
const BYTES: &[u8] = b"\0\r\n\t \"\\#|~&=-.:;(){}$@_09azAZ!<>\xff\x0c";

/// The text of a sketch, damaged once or a few times.
pub fn text(random: &mut Random, mut sketch: Sketch) -> Vec<u8> {
    let times = if random.once_in(3) { random.between(2, 4) } else { 1 };
    let way = random.below(3);
    for _ in 0..times {
        match way {
            0 => fields(random, &mut sketch),
            1 => tokens(random, &mut sketch),
            _ => {}
        }
    }
    let mut text = sketch.text(random);
    if way == 2 {
        for _ in 0..times {
            bytes(random, &mut text);
        }
    }
    if random.once_in(24) {
        lines(random, &mut text);
    }
    text
}

fn fields(random: &mut Random, sketch: &mut Sketch) {
    let place = random.below(sketch.fields.len());
    match random.below(8) {
        0 => {
            let copy = sketch.fields[place].clone();
            let other = random.below(sketch.fields.len() + 1);
            sketch.fields.insert(other, copy);
        }
        1 => {
            let other = random.below(sketch.fields.len());
            sketch.fields.swap(place, other);
        }
        2 if sketch.fields.len() > 1 => {
            sketch.fields.remove(place);
        }
        3 => {
            const LABELS: [&str; 7] =
                ["Authorizer", "Authorizer :", " Licensees:", "Licensee:", ":", "Conditions::", "x:"];
            sketch.fields[place].label = random.pick(&LABELS).as_bytes().to_vec();
        }
        4 => {
            const VERSIONS: [&[u8]; 8] = [b"3", b"\"3\"", b"2147483648", b"2.0", b"two", b"\"02\"", b"0", b"\"\""];
            let version = random.pick(&VERSIONS).to_vec();
            sketch.fields.insert(0, Field { label: b"KeyNote-Version:".to_vec(), tokens: vec![version] });
        }
        5 => conversions(random, &mut sketch.fields[place].tokens),
        6 => {
            const NAMES: [&[u8]; 4] = [b"unset", b"POLICY", b"_MAX_TRUST", b"\"\""];
            let token = random.pick(&NAMES).to_vec();
            let tokens = &mut sketch.fields[place].tokens;
            tokens.clear();
            tokens.push(token);
        }
        _ => sketch.fields[place].tokens.clear(),
    }
}

/// Floats and patterns where integers and equality stood, and the other way round.
fn conversions(random: &mut Random, tokens: &mut [Vec<u8>]) {
    const ORDERINGS: [&[u8]; 4] = [b"<", b">", b"<=", b">="];
    const EQUALITIES: [&[u8]; 3] = [b"==", b"!=", b"~="];
    const FLOATS: [&[u8]; 4] = [b"1.5", b"64.0", b"0.1", b"1.000000000000000000"];
    for token in tokens {
        let other: &[u8] = match token[0] {
            b'=' | b'!' if token.len() == 2 => match random.below(3) {
                0 => b"~=",
                _ => *random.pick(&ORDERINGS),
            },
            b'<' | b'>' => *random.pick(&EQUALITIES),
            b'@' => b"&",
            b'&' if token.len() == 1 => b"@",
            b'0'..=b'9' if token.contains(&b'.') => b"2",
            b'0'..=b'9' => *random.pick(&FLOATS),
            b'%' => b"/",
            b'/' => b"%",
            _ => continue,
        };
        if !random.once_in(4) {
            *token = other.to_vec();
        }
    }
}

fn tokens(random: &mut Random, sketch: &mut Sketch) {
    let field = random.below(sketch.fields.len());
    let tokens = &mut sketch.fields[field].tokens;
    let place = random.below(tokens.len().max(1));
    match random.below(5) {
        0 if !tokens.is_empty() => {
            tokens.remove(place);
        }
        1 if tokens.len() > 1 => {
            let other = random.below(tokens.len());
            tokens.swap(place, other);
        }
        2 if !tokens.is_empty() => tokens[place] = random.pick(&TOKENS).to_vec(),
        3 if !tokens.is_empty() => tokens.truncate(place),
        _ => tokens.insert(place, random.pick(&TOKENS).to_vec()),
    }
}

pub fn bytes(random: &mut Random, bytes: &mut Vec<u8>) {
    let place = random.below(bytes.len().max(1));
    match random.below(6) {
        0 if !bytes.is_empty() => {
            bytes.remove(place);
        }
        1 if bytes.len() > 1 => {
            let other = random.below(bytes.len());
            bytes.swap(place, other);
        }
        2 if !bytes.is_empty() => bytes[place] = random.number() as u8,
        3 if !bytes.is_empty() => bytes[place] = *random.pick(BYTES),
        4 if !bytes.is_empty() => {
            let end = (place + random.between(1, 30)).min(bytes.len());
            let part = bytes[place..end].to_vec();
            let other = random.below(bytes.len() + 1);
            bytes.splice(other..other, part);
        }
        _ => bytes.insert(place.min(bytes.len()), *random.pick(BYTES)),
    }
}

/// Lines of other lengths and ends.
fn lines(random: &mut Random, text: &mut Vec<u8>) {
    let ends: Vec<usize> = (0..text.len()).filter(|&index| text[index] == b'\n').collect();
    let extra: &[u8] = *random.pick(&[&b"\n"[..], b" \t", b"\r", b"  \n", b"# \0\n", b" x", b"\0"]);
    let place = if ends.is_empty() { text.len() } else { random.pick(&ends) + 1 };
    text.splice(place..place, extra.iter().copied());
}

/// A record of a draft in which something is wrong, or seems to be.
pub fn record(random: &mut Random, mut draft: Draft) -> Vec<u8> {
    match random.below(17) {
        16 => name_policy(random, &mut draft),
        0 => repeat_value(random, &mut draft),
        1 => repeat_name(random, &mut draft),
        2 => put_byte(random, &mut draft),
        3 => counts(random, &mut draft),
        4 => lengths(random, &mut draft),
        5 => draft.assertions.push((random.between(3, 255) as u8, b"#".to_vec())),
        6 => return vec![random.below(3) as u8; limits::RECORD_BYTES + random.between(1, 9)],
        7 => {
            let mut record = draft.record();
            record[0] = random.number() as u8;
            return record;
        }
        8 => return Vec::new(),
        9..=11 => {
            let mut record = draft.record();
            record.truncate(random.below(record.len()));
            return record;
        }
        12 => {
            let mut record = draft.record();
            record.extend((0..random.between(1, 9)).map(|byte| byte as u8));
            return record;
        }
        _ => {
            let mut record = draft.record();
            // Damage near the front meets counts and lengths.
            let most = record.len().min(random.between(8, 400));
            let mut front = record[..most].to_vec();
            bytes(random, &mut front);
            record.splice(..most, front);
            record.truncate(limits::RECORD_BYTES + 1);
            return record;
        }
    }
    draft.record()
}

fn repeat_value(random: &mut Random, draft: &mut Draft) {
    let value = random.pick(&draft.values).clone();
    let last = draft.values.len() - 1;
    draft.values[last] = value;
}

fn repeat_name(random: &mut Random, draft: &mut Draft) {
    draft.attributes.push((b"twice".to_vec(), Vec::new()));
    let place = random.below(draft.attributes.len() + 1);
    draft.attributes.insert(place, (b"twice".to_vec(), b"v".to_vec()));
}

/// A requester named POLICY, or nearly; sometimes with a byte that isn't permitted in it or in another.
fn name_policy(random: &mut Random, draft: &mut Draft) {
    const NAMES: [&[u8]; 8] =
        [b"POLICY", b"POLICY", b"POLICY", b"POLICY", b"policy", b"POLICY:", b"POLIC", b"POLICY\0"];
    let place = random.below(draft.requesters.len());
    draft.requesters[place] = random.pick(&NAMES).to_vec();
    if random.once_in(4) {
        let other = random.below(draft.requesters.len());
        draft.requesters[other].push(0);
    }
}

fn put_byte(random: &mut Random, draft: &mut Draft) {
    draft.attributes.push((b"n".to_vec(), b"v".to_vec()));
    let attribute = random.below(draft.attributes.len());
    let part = match random.below(4) {
        0 => &mut draft.values[0],
        1 => &mut draft.requesters[0],
        2 => &mut draft.attributes[attribute].0,
        _ => &mut draft.attributes[attribute].1,
    };
    let place = random.below(part.len() + 1);
    part.insert(place, *random.pick(&[0, 0, b'_', b'-', 0xe9]));
}

fn counts(random: &mut Random, draft: &mut Draft) {
    match random.below(6) {
        0 => draft.values.truncate(random.below(2)),
        1 => draft.values = (1..=random.between(16, 18)).map(|byte| vec![byte as u8]).collect(),
        2 => draft.requesters.clear(),
        3 => draft.requesters = vec![b"r".to_vec(); random.between(8, 10)],
        4 => {
            let count = random.between(limits::ATTRIBUTES.most, limits::ATTRIBUTES.most + 2);
            draft.attributes = (0..count).map(|index| (format!("n{index}").into(), Vec::new())).collect();
        }
        _ => {
            let count = random.between(limits::ASSERTIONS.most - 1, limits::ASSERTIONS.most + 2);
            draft.assertions = vec![(1, b"Authorizer: \"POLICY\"".to_vec()); count];
        }
    }
}

fn lengths(random: &mut Random, draft: &mut Draft) {
    let exact = |random: &mut Random, most: usize| vec![b'n'; *random.pick(&[0, 1, most, most + 1])];
    match random.below(5) {
        0 => draft.values[0] = exact(random, limits::VALUE_BYTES.most),
        1 => draft.requesters[0] = exact(random, limits::REQUESTER_BYTES.most),
        2 => draft.attributes = vec![(exact(random, limits::NAME_BYTES.most), Vec::new())],
        3 => draft.attributes = vec![(b"n".to_vec(), exact(random, limits::ATTRIBUTE_BYTES.most))],
        _ => draft.assertions = vec![(1, vec![b'#'; *random.pick(&[0, 1, 8_192, 8_193])])],
    }
}
