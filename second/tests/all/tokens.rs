//! Tokens and literals: spellings, values and places.

use second::generate::expression;
use second::literal::{decode, scan};
use second::random::Random;
use second::token::{self, Kind, SPELLINGS};

/// The value of a literal that makes up a whole text.
fn value(text: &[u8]) -> Option<Vec<u8>> {
    let literal = scan(text, 0)?;
    assert_eq!(literal.end, text.len(), "{}", text.escape_ascii());
    let mut value = Vec::new();
    decode(text, 0, &mut value);
    assert_eq!(literal.decoded, value.len());
    Some(value)
}

fn inside(inside: &[u8]) -> Option<Vec<u8>> {
    value(&[b"\"", inside, b"\""].concat())
}

#[test]
fn any_value_by_any_spelling() {
    let mut random = Random::new(41);
    for _ in 0..50_000 {
        let length = random.below(12);
        let wanted: Vec<u8> = (0..length)
            .map(|_| match random.below(3) {
                0 => random.between(1, 255) as u8,
                1 => *random.pick(b"01234567"),
                _ => *random.pick(b"nrtf\\\"# \t\n\r\x0c"),
            })
            .collect();
        let spelling = expression::literal(&mut random, &wanted);
        assert_eq!(value(&spelling), Some(wanted), "{}", spelling.escape_ascii());
    }
}

#[test]
fn one_byte() {
    for byte in 0..=255u8 {
        let plain = match byte {
            0 | b'\n' | b'\r' | b'"' | b'\\' => None,
            _ => Some(vec![byte]),
        };
        if byte != b'"' {
            assert_eq!(inside(&[byte]), plain, "{byte}");
        }
        let escaped = match byte {
            0 => None,
            b'n' => Some(vec![b'\n']),
            b'r' => Some(vec![b'\r']),
            b't' => Some(vec![b'\t']),
            b'f' => Some(vec![0x0c]),
            b'\n' => Some(vec![]),
            _ => Some(vec![byte]),
        };
        assert_eq!(inside(&[b'\\', byte]), escaped, "{byte}");
    }
}

#[test]
fn octal_digits() {
    for number in 0..0o1000u32 {
        let digits = format!("{number:03o}");
        let expected = match number {
            0 => Some(b"000".to_vec()),
            _ => u8::try_from(number).ok().map(|byte| vec![byte]),
        };
        assert_eq!(inside(format!("\\{digits}").as_bytes()), expected);
        // A fourth digit stands for itself.
        let longer = expected.map(|value| [value, b"7".to_vec()].concat());
        assert_eq!(inside(format!("\\{digits}7").as_bytes()), longer);
    }
    for number in 0..0o100u32 {
        let digits = format!("{number:02o}");
        let expected = match number {
            0 => b"00x".to_vec(),
            1..=7 => vec![number as u8, b'x'],
            _ => format!("{digits}x").into_bytes(),
        };
        assert_eq!(inside(format!("\\{digits}x").as_bytes()), Some(expected));
    }
    for digit in b'0'..=b'9' {
        assert_eq!(inside(&[b'\\', digit, b'8']), Some(vec![digit, b'8']));
    }
}

#[test]
fn continuations() {
    assert_eq!(inside(b"a\\\n \t\n\n b"), Some(b"ab".to_vec()));
    assert_eq!(inside(b"a \\\n\\\n\\040b"), Some(b"a  b".to_vec()));
    assert_eq!(inside(b"a\\\n\r"), None);
    assert_eq!(inside(b"a\\\n\0"), None);
    assert_eq!(inside(b"a\\ \n"), None);
    assert_eq!(scan(b"\"a\\", 0), None);
    assert_eq!(scan(b"\"a\\\n ", 0), None);
    assert_eq!(scan(b"\"a\\\"", 0), None);
    assert_eq!(scan(b"\"", 0), None);
}

/// The bytes that begin a token by themselves.
#[test]
fn first_bytes() {
    for byte in 0..=255u8 {
        let begins =
            matches!(byte, b'a'..=b'z' | b'A'..=b'Z' | b'0'..=b'9' | b'_') || b"(){},;=!<>.$@&+-*/%^".contains(&byte);
        assert_eq!(token::scan(&[byte], 0, true).is_some(), begins, "{byte}");
    }
}

/// Every operator before every other is read as far as it goes.
#[test]
fn longest_reading() {
    let operators: Vec<(Kind, &str)> =
        SPELLINGS.iter().copied().filter(|(_, spelling)| !spelling.as_bytes()[0].is_ascii_uppercase()).collect();
    for licensees in [false, true] {
        for (_, first) in &operators {
            for (_, second) in &operators {
                let text = format!("{first}{second}");
                let known =
                    |(kind, spelling): &&(Kind, &str)| text.starts_with(spelling) && (licensees || *kind != Kind::Of);
                let longest = operators.iter().filter(known).max_by_key(|(_, spelling)| spelling.len()).unwrap();
                let found = token::scan(text.as_bytes(), 0, licensees).unwrap();
                assert_eq!((found.kind, usize::from(found.end)), (longest.0, longest.1.len()), "{text}");
            }
        }
    }
}

#[test]
fn numbers_and_names() {
    let read = |text: &str| {
        let token = token::scan(text.as_bytes(), 0, false).unwrap();
        (token.kind, token.end, token.value)
    };
    assert_eq!(read("12x"), (Kind::Digits, 2, 12));
    assert_eq!(read("1.x"), (Kind::Digits, 1, 1));
    assert_eq!(read("1.5.2"), (Kind::Float, 3, 0));
    assert_eq!(read("00.00"), (Kind::Float, 5, 0));
    assert_eq!(read("4294967295"), (Kind::Digits, 10, u32::MAX));
    assert_eq!(read("99999999999999999999"), (Kind::Digits, 20, u32::MAX));
    assert_eq!(read("0000000000000000000002"), (Kind::Digits, 22, 2));
    assert_eq!(read("_a9-"), (Kind::Name, 3, 0));
    assert_eq!(read("TrUe"), (Kind::Word, 4, 1));
    assert_eq!(read("false "), (Kind::Word, 5, 0));
    assert_eq!(read("truex"), (Kind::Name, 5, 0));
}
