//! String literals: where one ends, how long its value is, and the value.

/// A literal that could be formed.
#[derive(Clone, Copy, Debug, PartialEq, Eq)]
pub struct Literal {
    /// The place behind the closing quote.
    pub end: usize,
    /// The number of bytes the literal gives.
    pub decoded: usize,
}

/// One step through the inside of a literal.
enum Step {
    /// These bytes of the text stand for themselves.
    Plain {
        from: usize,
        to: usize,
    },
    /// An escape gives this byte.
    Byte(u8),
    /// A line continuation gives nothing.
    Nothing,
    Closed,
}

/// The literal whose opening quote is at `start`, if one can be formed.
pub fn scan(text: &[u8], start: usize) -> Option<Literal> {
    let mut decoded = 0;
    let mut place = start + 1;
    loop {
        match step(text, &mut place)? {
            Step::Plain { from, to } => decoded += to - from,
            Step::Byte(_) => decoded += 1,
            Step::Nothing => {}
            Step::Closed => return Some(Literal { end: place, decoded }),
        }
    }
}

/// Appends the value of the literal at `start`, which `scan` has accepted.
pub fn decode(text: &[u8], start: usize, value: &mut Vec<u8>) {
    let mut place = start + 1;
    while let Some(step) = step(text, &mut place) {
        match step {
            Step::Plain { from, to } => value.extend_from_slice(&text[from..to]),
            Step::Byte(byte) => value.push(byte),
            Step::Nothing => {}
            Step::Closed => return,
        }
    }
}

/// Reads on at `place`; none where the literal is illegal or doesn't close.
fn step(text: &[u8], place: &mut usize) -> Option<Step> {
    let from = *place;
    match *text.get(from)? {
        b'"' => {
            *place += 1;
            Some(Step::Closed)
        }
        b'\\' => escape(text, place),
        0 | b'\n' | b'\r' => None,
        _ => {
            let special = |byte: &u8| matches!(byte, b'"' | b'\\' | 0 | b'\n' | b'\r');
            let to = from + text[from..].iter().position(special)?;
            *place = to;
            Some(Step::Plain { from, to })
        }
    }
}

/// Reads the escape whose backslash is at `place`.
fn escape(text: &[u8], place: &mut usize) -> Option<Step> {
    let behind = *place + 1;
    let byte = *text.get(behind)?;
    match byte {
        0 => None,
        b'\n' => {
            let blank = |byte: &&u8| matches!(byte, b' ' | b'\t' | b'\n');
            *place = behind + text[behind..].iter().take_while(blank).count();
            Some(Step::Nothing)
        }
        b'0'..=b'7' => octal(text, place),
        _ => {
            *place = behind + 1;
            Some(Step::Byte(match byte {
                b'n' => b'\n',
                b'r' => b'\r',
                b't' => b'\t',
                b'f' => 0x0c,
                other => other,
            }))
        }
    }
}

/// Reads a backslash with an octal digit behind it. Three digits give a byte;
/// with a first digit 0 two are enough. Too few digits, and digits that would
/// give NUL, stand for themselves.
fn octal(text: &[u8], place: &mut usize) -> Option<Step> {
    let from = *place + 1;
    let is_octal = |byte: &&u8| matches!(byte, b'0'..=b'7');
    let count = text[from..].iter().take(3).take_while(is_octal).count();
    let digits = &text[from..from + count];
    let value = digits.iter().fold(0u32, |value, digit| value * 8 + u32::from(digit - b'0'));
    let needed = if digits[0] == b'0' { 2 } else { 3 };
    if count < needed || value == 0 {
        let to = if digits[0] == b'0' { from + count } else { from + 1 };
        *place = to;
        return Some(Step::Plain { from, to });
    }
    let byte = u8::try_from(value).ok()?;
    *place = from + count;
    Some(Step::Byte(byte))
}
