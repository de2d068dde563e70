//! Files of assertions, cut at blank lines, and what is refused of them because a
//! person could mean two things by it.

use lampsickle::limits;

use super::request::Trust;
use crate::arguments::Word;
use crate::assertion::tokens::{Field, Kind, Tokens};
use crate::end::Trouble;
use crate::input::{byte_order_mark, front, too_long, FILE_BYTES};
use crate::report::Source;
use crate::text::shown;

/// The assertions of a file.
pub fn of_file(trust: Trust, file: &Word) -> Result<Vec<Source>, Trouble> {
    let name = shown(file);
    let front = front(trust.option(), file, FILE_BYTES)?;
    let parts = split(&name, &front.bytes);
    if let Some(part) = parts.iter().find(|part| part.source.text.len() > limits::TEXT_BYTES.most) {
        let most = limits::TEXT_BYTES.most;
        return Err(part.trouble(
            0,
            &format!("this assertion goes on for more than {most} bytes, which is the most that are read"),
        ));
    }
    if front.more {
        return Err(too_long(trust.option(), file));
    }
    if parts.is_empty() {
        return Err(Trouble::file(format!("{} {name}: no assertion in it", trust.option())));
    }
    check(trust, &parts)?;
    Ok(parts.into_iter().map(|part| part.source).collect())
}

/// A part of a file between blank lines.
struct Part {
    source: Source,
    labels: Vec<Field>,
    /// What stands behind the Signature, where that is more than comments.
    beyond: Option<usize>,
}

impl Part {
    fn has(&self, field: Field) -> bool {
        self.labels.contains(&field)
    }

    /// An error at a place of the part.
    fn trouble(&self, place: usize, words: &str) -> Trouble {
        let lines = self.source.text[..place].iter().filter(|byte| **byte == b'\n').count();
        Trouble::file(format!("{}:{}: {words}", self.source.file, self.source.line + lines))
    }
}

fn check(trust: Trust, parts: &[Part]) -> Result<(), Trouble> {
    if let Some((part, place)) = parts.iter().find_map(|part| Some((part, part.beyond?))) {
        return Err(part.trouble(place, "text after the Signature, where nothing is read: take it out"));
    }
    if parts.len() > 1 {
        parts.iter().try_for_each(authorized)?;
        parts.iter().try_for_each(bounded)?;
    }
    match trust {
        Trust::Verified if parts.len() > 1 => {
            let words = "a second assertion, but --verified takes one credential; \
                         if you have verified each in this file, say --all-verified";
            Err(parts[1].trouble(0, words))
        }
        Trust::AllVerified => parts.iter().try_for_each(signed),
        _ => Ok(()),
    }
}

/// One part of several is an assertion of its own, and not what a stray blank line
/// has cut off.
fn authorized(part: &Part) -> Result<(), Trouble> {
    if part.has(Field::Authorizer) {
        return Ok(());
    }
    let words = match byte_order_mark(&part.source.text) {
        Some(words) => format!("no Authorizer in this part; {words}"),
        None => {
            "no Authorizer in this part; a blank line ends an assertion: take it out where this part belongs to the \
                 one before or after it"
                .into()
        }
    };
    Err(part.trouble(0, &words))
}

/// One part of several is not what a stray blank line has left of an assertion.
fn bounded(part: &Part) -> Result<(), Trouble> {
    if part.has(Field::Licensees) || part.has(Field::Conditions) {
        return Ok(());
    }
    let words = "neither Licensees nor Conditions in this part, so it would grant everybody: take out the blank line \
                 behind it, or write \"Conditions: true;\"";
    Err(part.trouble(0, words))
}

fn signed(part: &Part) -> Result<(), Trouble> {
    match part.has(Field::Signature) {
        true => Ok(()),
        false => Err(part.trouble(0, "no Signature in this part, so nobody can have verified it")),
    }
}

/// Cuts at blank lines, but not at those that a literal's line continuation drops.
/// A part with nothing but comments is no assertion.
fn split(file: &str, bytes: &[u8]) -> Vec<Part> {
    let mut parts = Vec::new();
    let (mut rest, mut line) = (bytes, 1);
    while !rest.is_empty() {
        let mut end = blank_end(rest);
        if end == 0 {
            let (part, behind) = one(file, line, rest);
            parts.extend(Some(part).filter(|part| !is_comment(&part.source.text)));
            end = behind;
        }
        line += rest[..end].iter().filter(|byte| **byte == b'\n').count();
        rest = &rest[end..];
    }
    parts
}

/// The end of a blank line at the front of a text; 0 where none stands there.
fn blank_end(text: &[u8]) -> usize {
    let line = text.split_inclusive(|byte| *byte == b'\n').next().unwrap_or_default();
    if is_blank(line) {
        line.len()
    } else {
        0
    }
}

fn is_blank(line: &[u8]) -> bool {
    line.iter().all(|byte| matches!(byte, b' ' | b'\t' | b'\n'))
}

fn is_comment(text: &[u8]) -> bool {
    let first = |line: &[u8]| line.iter().find(|byte| !matches!(byte, b' ' | b'\t')).copied();
    text.split(|byte| *byte == b'\n').all(|line| first(line) == Some(b'#'))
}

/// The part at the front of a text, and its end.
fn one(file: &str, line: usize, rest: &[u8]) -> (Part, usize) {
    let (mut tokens, mut labels, mut end) = (Tokens::new(rest), Vec::new(), rest.len());
    for token in tokens.by_ref() {
        match token.kind {
            Kind::Label => labels.extend(token.field),
            Kind::Blank => {
                end = token.start;
                break;
            }
            _ => {}
        }
    }
    if let Some(place) = tokens.signed() {
        end = unread_end(rest, place);
    }
    let text = rest[..end].strip_suffix(b"\n").unwrap_or(&rest[..end]).to_vec();
    let beyond = tokens.signed().and_then(|place| beyond(&text, place));
    (Part { source: Source { file: file.into(), line, text }, labels, beyond }, end)
}

/// The end of the lines behind a Signature up to a blank one.
fn unread_end(text: &[u8], place: usize) -> usize {
    let mut end = place;
    for (index, line) in text[place..].split_inclusive(|byte| *byte == b'\n').enumerate() {
        if index > 0 && is_blank(line) {
            break;
        }
        end += line.len();
    }
    end
}

/// What stands behind a place but spaces, comments and the returns of lines.
fn beyond(text: &[u8], place: usize) -> Option<usize> {
    let mut start = place;
    for line in text[place..].split_inclusive(|byte| *byte == b'\n') {
        let found = line.iter().position(|byte| !matches!(byte, b' ' | b'\t' | b'\r' | b'\n'));
        if let Some(found) = found.filter(|found| line[*found] != b'#') {
            return Some(start + found);
        }
        start += line.len();
    }
    None
}

#[cfg(test)]
mod tests {
    use super::*;

    fn texts(bytes: &str) -> Vec<(usize, String)> {
        let shown = |part: Part| (part.source.line, String::from_utf8(part.source.text).expect("text"));
        split("f", bytes.as_bytes()).into_iter().map(shown).collect()
    }

    #[test]
    fn blank_lines_separate() {
        assert_eq!(texts("a\n b\n\n \t\nc\n"), [(1, "a\n b".to_string()), (5, "c".to_string())]);
        assert_eq!(texts("\n\n# heading\n# more\n\n# of it\na"), [(6, "# of it\na".to_string())]);
        assert_eq!(texts(""), []);
        assert_eq!(texts("\n \n"), []);
    }

    #[test]
    fn blank_lines_that_a_literal_drops() {
        let whole = |text: &str| assert_eq!(texts(text), [(1, text.to_string())]);
        let two = |first: &str, second: &str| {
            let line = first.matches('\n').count() + 3;
            let parts = [(1, first.to_string()), (line, second.to_string())];
            assert_eq!(texts(&format!("{first}\n\n{second}")), parts);
        };
        whole("Licensees: \"a\\\n\n \t\nb\"");
        whole("Authorizer: \"a\" # \"\nLicensees: \"\\\"b\\\n\nc\\\n\nd\"");
        whole("Signature: \"a\\\n\nb\"");
        two("Licensees: \"a\\\\", "b\"");
        two("Licensees: \"a\" \\", "b");
        two("Licensees: \"a\" # \"\\", "b");
        two("COMMENT: \"a\\", "b");
        two("Comment: a\n \"b\\", "c");
        two("Signature: \"a\" \"b\\", "c");
        two("Licensees: \"a\n \"b\\\n c\"\\", "d");
    }

    fn refused(trust: Trust, bytes: &str) -> Option<String> {
        check(trust, &split("f", bytes.as_bytes())).err().map(|trouble| trouble.words)
    }

    const A: &str = "Authorizer: \"a\"\nLicensees: \"b\"\n";

    #[test]
    fn behind_a_signature() {
        for trust in [Trust::Local, Trust::Verified, Trust::AllVerified, Trust::Unverified] {
            for text in ["x", "\nAuthorizer: \"c\"", "\r\n\r\nAuthorizer: \"c\"", "\rx", "\n# x\n x\n", " \"s\""] {
                let refused = refused(trust, &format!("{A}Signature: \"s\"{text}")).expect("a refusal");
                assert!(refused.contains("after the Signature"), "{text:?}");
            }
            for text in ["", "\n", " # x", "\n# x\n\n # y\n", " \t\n\n", "\r\n", "\r\n\r\n"] {
                assert_eq!(refused(trust, &format!("{A}Signature: \"s\"{text}")), None, "{text:?}");
            }
        }
        let lines = refused(Trust::Verified, "\nAuthorizer: \"a\"\nSignature: \"\\\n\ns\"\n#\nx").expect("a refusal");
        assert!(lines.starts_with("f:7: "), "{lines}");
    }

    #[test]
    fn one_or_a_bundle() {
        let signed = format!("{A}Signature: \"s\"\n");
        let (two, half) = (format!("# x\n\n{signed}\n{signed}"), format!("{signed}\n{A}"));
        assert!(refused(Trust::Verified, &two).expect("a refusal").starts_with("f:7: a second assertion, "));
        assert!(refused(Trust::AllVerified, &half).expect("a refusal").starts_with("f:5: no Signature"));
        assert_eq!(refused(Trust::AllVerified, &two), None);
        assert_eq!(refused(Trust::Local, &half), None);
        assert_eq!(refused(Trust::Verified, &signed), None);
    }

    #[test]
    fn parts_that_are_not_whole() {
        let cases = [
            ("Authorizer: \"POLICY\"\n\nLicensees: \"a\"\n", "f:3: no Authorizer in this part; a blank"),
            ("Authorizer: \"POLICY\"\nLicensees: \"a\"\n\nConditions: x;\n", "f:4: no Authorizer in this part"),
            ("Comment: x\n\nAuthorizer: \"POLICY\"\nLicensees: \"a\"\n", "f:1: no Authorizer in this part"),
            ("Authorizer: \"POLICY\"\n\nLicensees: \"a\"\nAuthorizer: \"POLICY\"\n", "f:1: neither Licensees nor"),
            (
                "\u{feff}# x\n\nAuthorizer: \"POLICY\"\nLicensees: \"a\"\n",
                "f:1: no Authorizer in this part; a byte order",
            ),
        ];
        for trust in [Trust::Local, Trust::Verified, Trust::AllVerified, Trust::Unverified] {
            for (text, words) in cases {
                let refused = refused(trust, text).expect("a refusal");
                assert!(refused.starts_with(words), "{refused}");
            }
        }
        assert_eq!(refused(Trust::Local, "Authorizer: \"POLICY\"\n"), None);
    }
}
