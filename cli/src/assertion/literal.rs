//! String literals.

/// Why a literal isn't one.
#[derive(Clone, Copy, Debug, PartialEq, Eq)]
pub enum Flaw {
    /// A line, or the text, ends before it is closed.
    Open,
    Return,
    Nul,
    /// An octal escape above \377.
    Octal,
}

/// A flaw, and the place where it is met.
#[derive(Clone, Copy, Debug, PartialEq, Eq)]
pub struct Flawed {
    pub flaw: Flaw,
    pub place: usize,
}

/// What a literal stands for, and the place behind its closing quote.
pub struct Literal {
    pub value: Vec<u8>,
    pub end: usize,
}

/// Reads the literal whose opening quote stands at a place.
pub fn read(text: &[u8], start: usize) -> Result<Literal, Flawed> {
    let mut value = Vec::new();
    let mut place = start + 1;
    while text.get(place) != Some(&b'"') {
        place = unit(text, place, &mut value).map_err(|flaw| Flawed { flaw, place })?;
    }
    Ok(Literal { value, end: place + 1 })
}

/// Where the byte of a literal's value stands that has so many before it; behind the
/// last one the closing quote does.
pub fn place_of(text: &[u8], start: usize, index: usize) -> usize {
    let mut value = Vec::new();
    let mut place = start + 1;
    while text.get(place) != Some(&b'"') {
        match unit(text, place, &mut value) {
            Ok(behind) if value.len() <= index => place = behind,
            _ => break,
        }
    }
    place
}

/// What stands at a place inside; the place behind it.
fn unit(text: &[u8], place: usize, value: &mut Vec<u8>) -> Result<usize, Flaw> {
    match text.get(place) {
        Some(b'\\') => return escape(text, place + 1, value),
        Some(0) => return Err(Flaw::Nul),
        Some(b'\r') => return Err(Flaw::Return),
        Some(b'\n') | None => return Err(Flaw::Open),
        Some(byte) => value.push(*byte),
    }
    Ok(place + 1)
}

/// What stands behind a backslash; the place behind it.
fn escape(text: &[u8], place: usize, value: &mut Vec<u8>) -> Result<usize, Flaw> {
    let byte = match text.get(place).ok_or(Flaw::Open)? {
        0 => return Err(Flaw::Nul),
        b'\n' => {
            let dropped = text[place..].iter().take_while(|byte| matches!(byte, b' ' | b'\t' | b'\n'));
            return Ok(place + dropped.count());
        }
        b'0'..=b'7' => return octal(text, place, value),
        b'n' => b'\n',
        b'r' => b'\r',
        b't' => b'\t',
        b'f' => 0x0c,
        byte => *byte,
    };
    value.push(byte);
    Ok(place + 1)
}

/// "0" and one or two digits more, or three digits; any other number of them, and
/// those of value 0, stand for themselves.
fn octal(text: &[u8], place: usize, value: &mut Vec<u8>) -> Result<usize, Flaw> {
    let digits: Vec<u8> =
        text[place..].iter().take(3).copied().take_while(|byte| matches!(byte, b'0'..=b'7')).collect();
    let number = digits.iter().fold(0, |number, digit| 8 * number + u32::from(digit - b'0'));
    let least = if digits[0] == b'0' { 2 } else { 3 };
    if digits.len() < least || number == 0 {
        value.push(digits[0]);
        return Ok(place + 1);
    }
    value.push(u8::try_from(number).map_err(|_| Flaw::Octal)?);
    Ok(place + digits.len())
}

#[cfg(test)]
mod tests {
    use super::super::random::Random;
    use super::*;
    use lampsickle::{ask, Query};

    fn value(text: &[u8]) -> Result<Vec<u8>, Flaw> {
        read(text, 0).map(|literal| literal.value).map_err(|flawed| flawed.flaw)
    }

    #[test]
    fn escapes() {
        assert_eq!(value(br#""a\n\r\t\f\"\\\q""#), Ok(b"a\n\r\t\x0c\"\\q".to_vec()));
        assert_eq!(value(b"\"a\\\n \t\n\nb\" c\""), Ok(b"ab".to_vec()));
        assert_eq!(value(br#""\0\00\000\01\1\12\0123\377""#), Ok(b"000000\x01112\n3\xff".to_vec()));
        let flaws = [
            (&b"\"a"[..], Flaw::Open),
            (b"\"a\n\"", Flaw::Open),
            (b"\"\r\"", Flaw::Return),
            (b"\"\0\"", Flaw::Nul),
            (b"\"\\\0", Flaw::Nul),
            (br#""\400""#, Flaw::Octal),
        ];
        for (text, flaw) in flaws {
            assert_eq!(value(text), Err(flaw), "{text:?}");
        }
    }

    #[test]
    fn places_of_bytes() {
        let text = b"x \"a\\n\\\n  \\101b\"";
        assert_eq!([0, 1, 2, 3, 4, 9].map(|index| place_of(text, 2, index)), [3, 4, 10, 14, 15, 15]);
    }

    /// The library's word on a literal: whether it is one and stands for a value.
    fn by_the_library(literal: &[u8], value: &[u8]) -> (bool, bool) {
        let mut query = Query {
            values: vec![b"no".to_vec(), b"yes".to_vec()],
            requesters: vec![b"a".to_vec()],
            attributes: vec![(b"x".to_vec(), value.to_vec())],
            ..Query::default()
        };
        query.local([b"Authorizer: \"POLICY\"\nConditions: x == ", literal, b";"].concat());
        let answer = ask(&query.record().expect("a record")).expect("an answer");
        (answer.entries[0].reason == 0, answer.rank == 1)
    }

    const PIECES: &[&[u8]] = &[
        b"a", b"\\", b"\\", b"0", b"1", b"7", b"3", b"8", b"\\n", b"\\0", b"\\3", b"\\4", b"\"", b"\\\n", b" ", b"\t",
        b"\\\r", b"\xff", b"#", b"\r", b"\n",
    ];

    #[test]
    fn as_the_library_reads_them() {
        let mut random = Random::new(2704);
        let (mut read_ones, mut flawed) = (0, 0);
        for _ in 0..20_000 {
            let inner = random.joined(9, PIECES);
            let literal = [b"\"", &inner[..], b"\""].concat();
            match read(&literal, 0) {
                Ok(Literal { value, end }) if end == literal.len() => {
                    assert_eq!(by_the_library(&literal, &value), (true, true), "{literal:?} {value:?}");
                    read_ones += 1;
                }
                Ok(_) => {}
                Err(_) => {
                    assert!(!by_the_library(&literal, b"").0, "{literal:?}");
                    flawed += 1;
                }
            }
        }
        assert!(read_ones > 2_000 && flawed > 2_000, "{read_ones} {flawed}");
    }
}
