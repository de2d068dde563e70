//! Patterns, valid and not, and strings that they match or nearly match.

use super::expression::literal;
use crate::limits;
use crate::pattern::{read, Fault, Repeat, Tree, SPECIAL};
use crate::random::Random;

/// Bytes of patterns and strings, so few that many strings match.
const LETTERS: &[u8] = b"aaabbbccxyz019_@";

/// Ordinary bytes that look special, and others that are seldom met.
const ODD: &[u8] = b"]}-,:=!\n\t \x01\x7f\x80\xc3\xe9\xff\"#";

/// A valid pattern.
pub fn valid(random: &mut Random) -> Vec<u8> {
    loop {
        let depth = random.between(0, 3);
        let mut pattern = Vec::new();
        branches(random, depth, &mut pattern);
        if read(&pattern).is_ok() {
            return pattern;
        }
    }
}

fn branches(random: &mut Random, depth: usize, pattern: &mut Vec<u8>) {
    let count = *random.pick(&[1, 1, 1, 2, 2, 3]);
    for index in 0..count {
        if index > 0 {
            pattern.push(b'|');
        }
        for _ in 0..random.between(1, 4) {
            piece(random, depth, pattern);
        }
    }
}

fn piece(random: &mut Random, depth: usize, pattern: &mut Vec<u8>) {
    match random.below(14) {
        0 => return pattern.push(b'^'),
        1 => return pattern.push(b'$'),
        2 | 3 => pattern.push(b'.'),
        4 | 5 => set(random, pattern),
        6 => pattern.extend([b'\\', *random.pick(SPECIAL)]),
        7 => pattern.push(*random.pick(ODD)),
        8..=10 if depth > 0 => {
            pattern.push(b'(');
            branches(random, depth - 1, pattern);
            pattern.push(b')');
        }
        _ => pattern.push(*random.pick(LETTERS)),
    }
    if random.once_in(3) {
        pattern.push(*random.pick(b"**+?"));
    }
}

/// A set; it may turn out to be none.
fn set(random: &mut Random, pattern: &mut Vec<u8>) {
    const INSIDE: &[u8] = b"abcxyz01^\\[*.$(|{+?)}\n\x80\xff";
    pattern.push(b'[');
    if random.once_in(3) {
        pattern.push(b'^');
    }
    match random.below(8) {
        0 => pattern.push(b']'),
        1 => pattern.push(b'-'),
        _ => {}
    }
    for _ in 0..random.between(1, 3) {
        let byte = *random.pick(INSIDE);
        pattern.push(byte);
        if random.once_in(3) {
            pattern.extend([b'-', byte.max(*random.pick(INSIDE))]);
        }
    }
    if random.once_in(8) {
        pattern.push(b'-');
    }
    pattern.push(b']');
}

/// Patterns with each fault.
const BROKEN: [(Fault, &[&[u8]]); 10] = [
    (Fault::NoPiece, &[b"", b"|a", b"a|", b"a||b", b"()", b"(|a)", b"(a|)b", b"a()"]),
    (Fault::Repetition, &[b"*a", b"(*a)", b"a|*", b"a**", b"a+?", b"^*", b"$+", b"(a)?*", b"[ab]*+", b"x^?"]),
    (Fault::OpenGroup, &[b"(a", b"((a)", b"(a|b", b"(a(b)*"]),
    (Fault::NoGroup, &[b"a)", b")", b"(a))", b"a)|b"]),
    (Fault::Curly, &[b"a{2}", b"{", b"(a){1,2}", b"[a]{", b"a|{"]),
    (Fault::Escape, &[b"\\n", b"a\\", b"\\]", b"\\}", b"(a)\\1", b"\\-", b"\\a", b"\\/"]),
    (Fault::OpenSet, &[b"[a", b"[]", b"[^]", b"[a-", b"[", b"[^", b"[-", b"[a]-[b"]),
    (Fault::Falling, &[b"[b-a]", b"[^z-a]", b"[a-Z]", b"[]-[]"]),
    (Fault::Hyphen, &[b"[a-c-e]", b"[--a]", b"[+--]", b"[---]", b"[a--]", b"[a-b-c]", b"[ab-c-d]"]),
    (Fault::Class, &[b"[[:alpha:]]", b"[[.a.]]", b"[a[=]", b"[A-[:]", b"[^[:a]", b"[[.-.]]"]),
];

/// A pattern that isn't valid, or seldom one that is.
pub fn broken(random: &mut Random) -> Vec<u8> {
    match random.below(12) {
        0 => {
            let more = random.between(1, 3);
            long(random, limits::PATTERN_BYTES + more)
        }
        1 | 2 => damaged(random),
        way => {
            let (_, patterns) = random.pick(&BROKEN);
            let pattern = random.pick(patterns).to_vec();
            match way {
                // Behind pieces that are fine, or in brackets.
                3..=5 => [valid(random), pattern].concat(),
                6 => [b"(", &pattern[..], b")"].concat(),
                _ => pattern,
            }
        }
    }
}

/// A valid pattern with one byte more, less, or another.
fn damaged(random: &mut Random) -> Vec<u8> {
    const BYTES: &[u8] = b"^.[$()|*+?{\\]-^a:=";
    let mut pattern = valid(random);
    let place = random.below(pattern.len());
    match random.below(3) {
        0 => {
            pattern.remove(place);
        }
        1 => pattern[place] = *random.pick(BYTES),
        _ => pattern.insert(place, *random.pick(BYTES)),
    }
    pattern
}

/// A pattern of so many bytes that is valid but for its length.
pub fn long(random: &mut Random, bytes: usize) -> Vec<u8> {
    let part: &[u8] = *random.pick(&[&b"a?"[..], b"a", b"(a)", b"[ab]*", b"\\.?", b"b|a", b".*"]);
    let mut pattern = part.repeat(bytes / part.len());
    pattern.resize(bytes, b'b');
    pattern
}

/// Any pattern: mostly valid.
pub fn pattern(random: &mut Random) -> Vec<u8> {
    match random.below(8) {
        0 | 1 => broken(random),
        2 if random.once_in(4) => long(random, limits::PATTERN_BYTES),
        _ => valid(random),
    }
}

/// A string that a pattern matches but for its anchors, with a change or something
/// around it sometimes; any string for a pattern that isn't valid.
pub fn string(random: &mut Random, pattern: &[u8]) -> Vec<u8> {
    let mut string = Vec::new();
    match read(pattern) {
        Ok(tree) if !random.once_in(6) => sample(random, &tree, &mut string),
        _ => (0..random.below(8)).for_each(|_| string.push(*random.pick(LETTERS))),
    }
    match random.below(6) {
        // A newline is no end of the string.
        0 => string.insert(0, *random.pick(b"abc\n\n")),
        1 => string.push(*random.pick(b"abc\n\n")),
        2 if !string.is_empty() => {
            let place = random.below(string.len());
            string[place] = *random.pick(LETTERS);
        }
        3 if !string.is_empty() => {
            string.remove(random.below(string.len()));
        }
        _ => {}
    }
    string.truncate(limits::STRING_BYTES);
    string
}

fn sample(random: &mut Random, tree: &Tree, string: &mut Vec<u8>) {
    match tree {
        Tree::Start | Tree::End => {}
        Tree::AnyByte => {
            let bytes = if random.once_in(4) { ODD } else { LETTERS };
            string.push(*random.pick(bytes));
        }
        Tree::Byte(byte) => string.push(*byte),
        Tree::Set(set) => {
            let held: Vec<u8> = (1..=255).filter(|&byte| set.holds(byte)).collect();
            // A set may hold nothing.
            string.extend((!held.is_empty()).then(|| *random.pick(&held)));
        }
        Tree::Repeat(repeat, inner) => {
            let least = usize::from(*repeat == Repeat::Some);
            let most = if *repeat == Repeat::Optional { 1 } else { 3 };
            (0..random.between(least, most)).for_each(|_| sample(random, inner, string));
        }
        Tree::Pieces(pieces) => pieces.iter().for_each(|piece| sample(random, piece, string)),
        Tree::Branches(branches) => {
            let branch = random.pick(branches);
            sample(random, branch, string);
        }
    }
}

/// The names under which a record holds a pattern, a string for it, and a pattern
/// that is broken.
pub const PATTERN: &str = "pattern";
pub const SUBJECT: &str = "subject";
pub const BROKEN_PATTERN: &str = "broken";

/// A pattern test with its pattern in a literal, in an attribute, or joined.
pub fn test(random: &mut Random) -> Vec<u8> {
    let pattern = pattern(random);
    let string = string(random, &pattern);
    let place = random.below(pattern.len() + 1);
    let (front, back) = pattern.split_at(place);
    let mut quoted = |bytes: &[u8]| literal(random, bytes);
    let (all, string) = (quoted(&pattern), quoted(&string));
    let (front, back) = (quoted(front), quoted(back));
    let (left, right) = match random.below(12) {
        0 => (SUBJECT.into(), PATTERN.into()),
        1 => (SUBJECT.into(), format!("\"^\" . {PATTERN} . \"$\"").into_bytes()),
        2 => (SUBJECT.into(), format!("$\"{PATTERN}\"").into_bytes()),
        3 => (SUBJECT.into(), BROKEN_PATTERN.into()),
        4 => (b"long . long".to_vec(), random.pick(&LONG).as_bytes().to_vec()),
        5 | 6 => (string, [&front[..], b" . ", &back].concat()),
        7 => (string, [b"_0 . ", &all[..]].concat()),
        _ => (string, all),
    };
    let test = [&left[..], b" ~= ", &right].concat();
    match random.below(6) {
        0 => [b"!(", &test[..], b")"].concat(),
        1 => [&test[..], b" || true"].concat(),
        2 => [b"true || ", &test[..]].concat(),
        _ => test,
    }
}

/// Patterns for a string of many times "v".
const LONG: [&str; 10] = [
    "\"^(v*)*w?$\"",
    "\"w\"",
    "\"v$\"",
    "\"^(v|vv)+$\"",
    "\"(v*)*(v*)*w\"",
    "\"^(vv)*$\"",
    "\"^(vvv)*$\"",
    "\"(v?v?v?)+w|^.+$\"",
    "\"[^v]\"",
    "\"^v*^\"",
];
