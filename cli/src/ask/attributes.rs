//! Attributes: NAME=VALUE, or NAME = "VALUE" with the escapes of a literal.

use crate::arguments::Word;
use crate::assertion::literal::{self, Literal};
use crate::end::Trouble;
use crate::input::{byte_order_mark, front, too_long, FILE_BYTES};
use crate::text::{brief, quoted, shown};

/// An attribute and where it was given.
#[derive(Clone, Debug, PartialEq, Eq)]
pub struct Attribute {
    pub origin: Origin,
    pub name: Vec<u8>,
    pub value: Vec<u8>,
}

#[derive(Clone, Debug, PartialEq, Eq)]
pub enum Origin {
    /// The option with its value.
    Option(String),
    /// A file's line.
    Line(String),
}

impl Origin {
    pub fn words(&self) -> &str {
        match self {
            Self::Option(words) | Self::Line(words) => words,
        }
    }

    /// Something is wrong with the argument, or with the file.
    pub fn trouble(&self, words: &str) -> Trouble {
        let words = format!("{}: {words}", self.words());
        match self {
            Self::Option(_) => Trouble::usage(words),
            Self::Line(_) => Trouble::file(words),
        }
    }
}

/// An attribute given as a word.
pub fn pair(word: &[u8]) -> Result<Attribute, Trouble> {
    let origin = Origin::Option(format!("--attribute {}", quoted(word)));
    let (attribute, end) = one(word, word, origin)?;
    match end {
        Some(end) if end < word.len() => Err(attribute.origin.trouble("more stands behind the closing quote")),
        _ => Ok(attribute),
    }
}

/// The attributes of a file, each on a line; blank lines and lines whose text begins
/// with "#" are skipped, as is a return at a line's end.
pub fn of_file(file: &Word) -> Result<Vec<Attribute>, Trouble> {
    let name = shown(file);
    let front = front("--attributes", file, FILE_BYTES)?;
    if front.more {
        return Err(too_long("--attributes", file));
    }
    if let Some(words) = byte_order_mark(&front.bytes) {
        return Err(Trouble::file(format!("--attributes {name}: {words}")));
    }
    let (mut attributes, mut rest, mut number) = (Vec::new(), &front.bytes[..], 1);
    while !rest.is_empty() {
        let mut end = line_end(rest, 0);
        let line = rest[..end].strip_suffix(b"\r").unwrap_or(&rest[..end]);
        if !matches!(line.trim_ascii_start(), [] | [b'#', ..]) {
            let (attribute, behind) = one(rest, line, Origin::Line(format!("{name}:{number}")))?;
            attributes.push(attribute);
            end = behind.unwrap_or(end);
        }
        number += rest[..end].iter().filter(|byte| **byte == b'\n').count() + 1;
        rest = rest.get(end + 1..).unwrap_or_default();
    }
    Ok(attributes)
}

/// The end of the line on which a place lies.
fn line_end(text: &[u8], place: usize) -> usize {
    text[place..].iter().position(|byte| *byte == b'\n').map_or(text.len(), |length| place + length)
}

/// The attribute at the front of a text, whose first line is given; for one in quotes
/// also the end of its last line.
fn one(text: &[u8], line: &[u8], origin: Origin) -> Result<(Attribute, Option<usize>), Trouble> {
    let Some(equals) = line.iter().position(|byte| *byte == b'=') else {
        return Err(origin.trouble(&format!("no \"=\" between name and value in {}", quoted(line))));
    };
    let name = line[..equals].trim_ascii().to_vec();
    let value = &line[equals + 1..];
    let spaces = value.len() - value.trim_ascii_start().len();
    let read = match value.get(spaces) {
        Some(b'"') => in_quotes(text, equals + 1 + spaces).map(|(value, end)| (value, Some(end))),
        _ => plain(value, &name).map(|()| (value.to_vec(), None)),
    };
    match read {
        Ok((value, end)) => Ok((Attribute { origin, name, value }, end)),
        Err(words) => Err(origin.trouble(&words)),
    }
}

/// What a literal stands for, with nothing behind it on its line but a comment, and
/// that line's end.
fn in_quotes(text: &[u8], start: usize) -> Result<(Vec<u8>, usize), String> {
    let Ok(Literal { value, end }) = literal::read(text, start) else {
        return Err(format!(
            "{} isn't a string that is closed on its line",
            quoted(&text[start..line_end(text, start)])
        ));
    };
    let line_end = line_end(text, end);
    match text[end..line_end].trim_ascii() {
        [] | [b'#', ..] => Ok((value, line_end)),
        rest => Err(format!("{} stands behind the closing quote; a quote in a value is written \\\"", quoted(rest))),
    }
}

/// Quotes that are none of the language's.
const OTHER_QUOTES: [&str; 8] = ["'", "`", "\u{2018}", "\u{2019}", "\u{201c}", "\u{201d}", "\u{201e}", "\u{ab}"];

/// Whether a value without quotes can be meant as it is only.
fn plain(value: &[u8], name: &[u8]) -> Result<(), String> {
    let trimmed = value.trim_ascii();
    let what = if value.iter().any(u8::is_ascii_control) {
        "holds a control character"
    } else if trimmed.len() < value.len() {
        "begins or ends with a space"
    } else if value.contains(&b'"') {
        "holds a quote"
    } else if value.starts_with(b"=") {
        "begins with a second \"=\""
    } else if OTHER_QUOTES.iter().any(|quote| value.starts_with(quote.as_bytes())) {
        "begins with a quote that would be part of it"
    } else if value.windows(2).any(|pair| pair == b" #") {
        "holds a \"#\" behind a space, which is no comment there"
    } else {
        return Ok(());
    };
    let (name, value) = (brief(name), quoted(value));
    Err(format!("the value {value} {what}: say what is meant in double quotes, as {name} = \"…\""))
}

#[cfg(test)]
mod tests {
    use super::*;

    fn value(word: &str) -> Option<(String, String)> {
        let text = |bytes: Vec<u8>| String::from_utf8(bytes).expect("text");
        pair(word.as_bytes()).ok().map(|attribute| (text(attribute.name), text(attribute.value)))
    }

    #[test]
    fn in_both_notations() {
        let is = |word: &str, expected: &str| assert_eq!(value(word), Some(("n".into(), expected.into())), "{word}");
        is("n=v=w", "v=w");
        is("n=", "");
        is("n=J. Feigenbaum", "J. Feigenbaum");
        is("n =45", "45");
        is("n=a\\b", "a\\b");
        is("n=a#b", "a#b");
        is("n = \"45\"", "45");
        is("\tn=\"\" ", "");
        is("n=\"a\\\"\\t\\101 #\" # x", "a\"\tA #");
        is("n=\"a\\\n  b\"", "ab");
    }

    #[test]
    fn in_neither() {
        for word in ["n", "n= 45", "n = 45", "n=45 ", "n=\t", "n=a\"b", "n='45'", "n=45 # x", "n=\"45", "n=\"4\"5"] {
            assert_eq!(value(word), None, "{word}");
        }
        for word in
            ["n==45", "n=='45'", "n=\u{201c}45\u{201d}", "n='s-Gravenhage", "n=`45`", "n=45\r", "n=\"4\"\nx=\"5\""]
        {
            assert_eq!(value(word), None, "{word:?}");
        }
        for word in ["n=a\rb", "n=a\nb", "n=a\tb", "n=\"a\nb\""] {
            assert_eq!(value(word), None, "{word:?}");
        }
    }
}
