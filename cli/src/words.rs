//! Numbers of refusals and reasons of assertions, in words.

use lampsickle::{Entry, Query};

use crate::assertion::literal::{self, Flaw};
use crate::assertion::reading::{identifier, Text};
use crate::assertion::tokens::{label, LABELS};
use crate::assertion::{PRINCIPAL_BYTES, STRING_BYTES};
use crate::input::{byte_order_mark, RETURN};
use crate::text::{brief, counted, quoted, shown};
use crate::{could, limit};

/// Why a record is refused.
pub fn refusal(number: u8) -> &'static str {
    match number {
        1 => "the record is over 65,535 bytes",
        2 => "the record is empty, or its version isn't 1",
        3 => "a field doesn't fit in the record, or bytes are left over behind it",
        4 => "a count is out of range",
        5 => "a length is out of range",
        6 => "a byte isn't permitted here",
        7 => "this compliance value or attribute name stood before",
        8 => "a standing is above 2",
        9 => "the page for the report is too small",
        10 => "a requester is named POLICY, and nobody asks as POLICY",
        _ => "a number that isn't known",
    }
}

/// What became of an assertion in a query.
pub fn reason(entry: Entry, text: &[u8], query: &Query) -> String {
    let here = text.get(entry.place..).unwrap_or_default();
    match entry.reason {
        0 => "kept".into(),
        1 => no_token(here),
        2 => misfit(text, entry.place),
        3 => line(text, entry.place),
        4 => "this constant stands twice, or its name begins with \"_\"".into(),
        5 if here.starts_with(b")") => "the threshold is above the number of licensees in its list".into(),
        5 => "this integer is above 2147483647, or this threshold isn't from 1 to 16".into(),
        6 => "KeyNote-Version isn't 2".into(),
        7 => limit::words(text, entry.place),
        9 if entry.place > 0 => {
            let root = if here.starts_with(b"\"POLICY\"") { "" } else { "this comes to \"POLICY\"; " };
            format!("{root}a credential may not speak for POLICY; only a local assertion may")
        }
        9 => "the credential isn't verified, so its text isn't read".into(),
        10 => no_identifier(identifier(text, entry.place, query)),
        _ => "a reason that isn't known".into(),
    }
}

/// Why an expression gives no identifier.
fn no_identifier(found: Option<Text>) -> String {
    let (least, most) = (PRINCIPAL_BYTES.least, PRINCIPAL_BYTES.most);
    let rule = format!("a principal's identifier has {least} to {most} bytes");
    match found {
        Some(string) if string.error => {
            format!("this is an error: a string in it is over {STRING_BYTES} bytes; {rule}")
        }
        Some(Text { set: false, name: Some(name), .. }) => {
            format!("{} isn't set, so this is empty; {rule}", brief(&name))
        }
        Some(string) => {
            let bytes = counted(string.value.len(), "byte");
            format!("this comes to {}, which has {bytes}; {rule}", quoted(&string.value))
        }
        None => format!("this doesn't come to an identifier; {rule}"),
    }
}

fn no_token(here: &[u8]) -> String {
    match here.first() {
        Some(b'"') => match literal::read(here, 0).map_err(|flawed| flawed.flaw) {
            Err(Flaw::Return) => format!("in this string {RETURN}"),
            Err(Flaw::Nul) => "a NUL byte isn't permitted in this string".into(),
            Err(Flaw::Octal) => "an octal escape in this string is above \\377".into(),
            _ => "this string isn't closed on its line".into(),
        },
        Some(b'\r') => RETURN.into(),
        Some(0) => "a NUL byte isn't permitted".into(),
        _ => "nothing in the language begins like this".into(),
    }
}

fn misfit(text: &[u8], place: usize) -> String {
    let equality = matches!(text.get(place..place + 2), Some(b"==" | b"!="));
    match (place < text.len(), could::stood(text, place)) {
        (_, stood) if equality && could::behind_float(text, place) => {
            format!("floats aren't tested for equality; these could stand here: {stood}")
        }
        (true, stood) if stood.is_empty() => "this can't stand here by the grammar of its field".into(),
        (true, stood) => format!("this can't stand here; these could: {stood}"),
        (false, stood) if stood.is_empty() => "the text ends where its grammar asks for more".into(),
        (false, stood) => format!("the text ends where its grammar asks for more; these could follow: {stood}"),
    }
}

fn line(text: &[u8], place: usize) -> String {
    let at_start = place == 0 || text.get(place - 1) == Some(&b'\n');
    let here = text.get(place..).unwrap_or_default();
    if !at_start || here.is_empty() {
        return "there is no Authorizer field".into();
    }
    let line = here.split(|byte| *byte == b'\n').next().unwrap_or_default();
    match (byte_order_mark(line), label(line)) {
        (Some(words), _) if place == 0 => words.into(),
        (_, Some((_, length))) => {
            let label = shown(&line[..length - 1]);
            format!("the field {label} stands here a second time, or where it may not stand")
        }
        _ => beginning(line),
    }
}

/// What is wrong with the beginning of a line that has no label.
fn beginning(line: &[u8]) -> String {
    let text = line.trim_ascii_start();
    match line.first() {
        Some(b'\r') => RETURN.into(),
        _ if line.iter().all(|byte| matches!(byte, b' ' | b'\t')) => "there are no blank lines in an assertion".into(),
        Some(b' ' | b'\t') if label(text).is_some() => {
            "text before the first label: a label begins its line, so take out the space before it".into()
        }
        Some(b' ' | b'\t') => "text before the first label".into(),
        _ => unlabelled(line),
    }
}

/// A line that begins with something else than a label, a space, a tab or "#".
fn unlabelled(line: &[u8]) -> String {
    let colon = line.iter().position(|byte| *byte == b':');
    let word = colon.map_or(&[][..], |colon| &line[..colon]);
    if !word.is_empty() && word.iter().all(|byte| byte.is_ascii_alphabetic() || matches!(byte, b'-' | b'_' | b' ')) {
        let labels: Vec<&str> = LABELS.iter().map(|(label, _)| *label).collect();
        return format!("{} is no field's label; labels are {}, each with its colon", quoted(word), labels.join(", "));
    }
    "a line begins with a field's label, a space, a tab or \"#\"; this one doesn't".into()
}

#[cfg(test)]
mod tests {
    use super::*;

    fn of(number: u8, place: usize, text: &str) -> String {
        reason(Entry { reason: number, place }, text.as_bytes(), &Query::default())
    }

    #[test]
    fn reasons_of_lines() {
        assert!(of(3, 14, "Licensees: \"a\"").contains("no Authorizer"));
        assert!(of(3, 0, "Colour: red").contains("\"Colour\" is no field's label"));
        assert!(of(3, 0, "Authorizer : x").contains("\"Authorizer \" is no field's label"));
        assert!(of(3, 0, "\"a\": b").contains("begins with"));
        assert!(of(3, 2, "a\nAUTHORIZER: x").contains("AUTHORIZER stands"));
        assert!(of(3, 0, "  Authorizer: x").starts_with("text before the first label: "));
        assert!(of(3, 0, "\tx").starts_with("text before the first label"));
        assert!(of(3, 0, "\u{feff}Authorizer: x").contains("byte order mark"));
        assert!(of(3, 2, "a\n\r\n").contains("tr -d"));
        assert!(of(3, 2, "a\n \t\n").contains("no blank lines"));
    }

    #[test]
    fn reasons_of_strings() {
        assert!(of(1, 0, "\"a").contains("isn't closed"));
        assert!(of(1, 0, "\"a\r\n").contains("tr -d"));
        assert!(of(1, 0, "\r\n").contains("tr -d"));
        assert!(of(1, 0, "\"\\400\"").contains("above \\377"));
    }

    #[test]
    fn reasons_of_identifiers() {
        assert!(of(10, 13, "Authorizer: (x)").starts_with("x isn't set, so this is empty; "));
        assert!(of(10, 12, "Authorizer: $\"y\"").starts_with("y isn't set"));
        assert!(of(10, 12, "Authorizer: \"\" . x").starts_with("this comes to \"\", which has 0 bytes; "));
        let long = format!("Authorizer: (\"{}\") . \"y\"", "x".repeat(256));
        assert!(of(10, 13, &long).contains("xx…\", which has 257 bytes; a principal's identifier has 1 to 256 bytes"));
        let error = format!("Authorizer: \"a\" . $(\"{0}\" . \"{0}\" . \"{0}\")", "x".repeat(2_000));
        assert!(of(10, 12, &error).starts_with("this is an error: a string in it is over 4096 bytes; "));
        assert!(of(9, 12, "Authorizer: \"POLICY\"").starts_with("a credential may not"));
        assert!(of(9, 13, "Authorizer: (p)").starts_with("this comes to \"POLICY\"; a credential may not"));
    }

    #[test]
    fn every_one_has_words() {
        for number in 1..=10 {
            assert!(!refusal(number).contains("known"));
        }
        // No reason is 8.
        for number in [1, 2, 3, 4, 5, 6, 7, 9, 10] {
            assert!(!of(number, 0, "x").contains("known"));
        }
    }
}
