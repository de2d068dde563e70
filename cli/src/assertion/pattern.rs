//! What is wrong with a pattern of "~=", and where. Whether a string matches is the
//! library's to say.

use super::PATTERN_BYTES;
use crate::text::counted;

/// What makes a pattern none: its place in the pattern, in words.
#[derive(Clone, Debug, PartialEq, Eq)]
pub struct Flaw {
    pub place: usize,
    pub words: String,
}

fn flaw<T>(place: usize, words: impl Into<String>) -> Result<T, Flaw> {
    Err(Flaw { place, words: words.into() })
}

/// The first flaw of a pattern.
pub fn flawed(pattern: &[u8]) -> Option<Flaw> {
    walk(pattern).err()
}

/// Goes through a pattern with the places of the groups that are open.
fn walk(pattern: &[u8]) -> Result<(), Flaw> {
    if pattern.len() > PATTERN_BYTES {
        let bytes = counted(pattern.len(), "byte");
        return flaw(PATTERN_BYTES, format!("a pattern has at most {PATTERN_BYTES} bytes, but this one has {bytes}"));
    }
    let mut open: Vec<usize> = Vec::new();
    // Whether the branch has a piece, and whether that piece may be repeated.
    let (mut begun, mut repeats) = (false, false);
    let mut place = 0;
    while let Some(&byte) = pattern.get(place) {
        let mut next = place + 1;
        (begun, repeats) = match byte {
            b'*' | b'+' | b'?' if repeats => (true, false),
            b'*' | b'+' | b'?' => return flaw(place, nothing_to_repeat(byte)),
            b'|' if begun => (false, false),
            b'|' => return flaw(place, "a branch before this \"|\" is empty"),
            b'(' => {
                open.push(place);
                (false, false)
            }
            b')' => match open.pop() {
                Some(_) if begun => (true, true),
                Some(_) => return flaw(place, "a branch before this \")\" is empty"),
                None => return flaw(place, "this \")\" closes nothing; as a byte it is \\)"),
            },
            b'{' => return flaw(place, "\"{\" as a byte is \\{, and there are no counted repetitions"),
            b'\\' => {
                next = place + 2;
                escaped(pattern, place)?
            }
            b'[' => {
                next = set(pattern, place)?;
                (true, true)
            }
            b'^' | b'$' => (true, false),
            _ => (true, true),
        };
        place = next;
    }
    match open.last() {
        Some(&group) => flaw(group, "this \"(\" isn't closed"),
        None if begun => Ok(()),
        None => flaw(pattern.len(), "the last branch is empty"),
    }
}

fn nothing_to_repeat(byte: u8) -> String {
    format!("there is nothing that this \"{}\" could repeat", char::from(byte))
}

fn escaped(pattern: &[u8], place: usize) -> Result<(bool, bool), Flaw> {
    match pattern.get(place + 1) {
        Some(byte) if b"^.[$()|*+?{\\".contains(byte) => Ok((true, true)),
        _ => flaw(place, "a backslash stands before one of ^ . [ $ ( ) | * + ? { \\ only"),
    }
}

/// The place behind the set that begins at a place.
fn set(pattern: &[u8], start: usize) -> Result<usize, Flaw> {
    let first = start + 1 + usize::from(pattern.get(start + 1) == Some(&b'^'));
    let at = |place: usize| pattern.get(place).copied().map_or_else(|| flaw(start, "this set isn't closed"), Ok);
    let mut place = first;
    loop {
        let byte = at(place)?;
        if byte == b']' && place > first {
            return Ok(place + 1);
        }
        if byte == b'-' && place > first && at(place + 1)? != b']' {
            return hyphen(place);
        }
        class(pattern, place)?;
        place += 1;
        // A range, but where "-" is the set's last byte.
        if byte != b'-' && at(place)? == b'-' && at(place + 1)? != b']' {
            let end = place + 1;
            class(pattern, end)?;
            match at(end)? {
                b'-' => return hyphen(end),
                last if last < byte => return flaw(end, "this range ends before it starts"),
                _ => place = end + 1,
            }
        }
    }
}

fn hyphen(place: usize) -> Result<usize, Flaw> {
    flaw(place, "\"-\" stands first or last in a set, or between the two bytes of a range")
}

fn class(pattern: &[u8], place: usize) -> Result<(), Flaw> {
    match (pattern[place], pattern.get(place + 1)) {
        (b'[', Some(b'.' | b'=' | b':')) => flaw(place, "\"[.\", \"[=\" and \"[:\" can't stand in a set"),
        _ => Ok(()),
    }
}

#[cfg(test)]
mod tests {
    use super::super::random::Random;
    use super::*;
    use lampsickle::{ask, Query};

    fn at(pattern: &str) -> Option<usize> {
        flawed(pattern.as_bytes()).map(|flaw| flaw.place)
    }

    #[test]
    fn places() {
        for fine in ["a", "^(a|b)*$", "[]a-]", "[^]-a]", "[--]", "\\{\\\\", "a}]", "(^)*", &"a?".repeat(128)] {
            assert_eq!(at(fine), None, "{fine}");
        }
        assert_eq!([at(""), at("a|"), at("(a|)"), at("|a"), at("()")], [0, 2, 3, 0, 1].map(Some));
        assert_eq!([at("*"), at("a**"), at("^*"), at("(+)")], [0, 2, 1, 1].map(Some));
        assert_eq!([at("x(a"), at("((a)"), at("a)"), at("a{2}")], [1, 0, 1, 1].map(Some));
        assert_eq!([at("a\\"), at("\\n"), at("(a)\\1")], [1, 0, 3].map(Some));
        assert_eq!([at("x[a"), at("[]"), at("[^]"), at("[a-")], [1, 0, 0, 0].map(Some));
        assert_eq!([at("[b-a]"), at("[a-c-e]"), at("[--a]"), at("[a--]")], [3, 4, 2, 3].map(Some));
        assert_eq!([at("[[:alpha:]]"), at("[A-[:]"), at(&"a?".repeat(129))], [1, 3, 256].map(Some));
    }

    fn unhex(digits: &str) -> Vec<u8> {
        let byte = |index: usize| u8::from_str_radix(&digits[index..index + 2], 16).expect("hex digits");
        (0..digits.len()).step_by(2).map(byte).collect()
    }

    #[test]
    fn rulings() {
        let lines = include_str!("../../../second/data/patterns.tsv").lines().filter(|line| !line.starts_with('#'));
        for line in lines {
            let columns: Vec<&str> = line.split('\t').collect();
            assert_eq!(flawed(&unhex(columns[1])).is_some(), columns[3] == "error", "{line}");
        }
    }

    /// Whether the library takes a pattern: one of two tests holds.
    fn by_the_library(pattern: &[u8]) -> bool {
        let mut query = Query {
            values: vec![b"no".to_vec(), b"yes".to_vec()],
            requesters: vec![b"a".to_vec()],
            attributes: vec![(b"p".to_vec(), pattern.to_vec())],
            ..Query::default()
        };
        query.local("Authorizer: \"POLICY\"\nConditions: \"a\" ~= p; !(\"a\" ~= p);");
        ask(&query.record().expect("a record")).expect("an answer").rank == 1
    }

    const PIECES: &[&[u8]] = &[
        b"a",
        b"b",
        b"^",
        b"$",
        b".",
        b"*",
        b"+",
        b"?",
        b"(",
        b")",
        b"|",
        b"[",
        b"[^",
        b"]",
        b"-",
        b"\\",
        b"{",
        b"}",
        b":",
        b"[a-c]",
        b"(a|b)",
        b"[]-a]",
        b"\\.",
        b"a?a?a?a?a?a?a?a?",
    ];

    #[test]
    fn as_the_library_takes_them() {
        let mut random = Random::new(208);
        let mut fine = 0;
        for _ in 0..20_000 {
            let pattern = random.joined(9, PIECES);
            let taken = by_the_library(&pattern);
            assert_eq!(flawed(&pattern).is_none(), taken, "{:?}", String::from_utf8_lossy(&pattern));
            fine += usize::from(taken);
        }
        assert!((1_000..19_000).contains(&fine), "{fine}");
    }
}
