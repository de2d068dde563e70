//! Bytes shown as text, with nothing in it that a terminal obeys.

use std::fmt::Write;

/// How many characters of a long item are shown.
const SHOWN: usize = 40;

/// Bytes in quotes, cut where they are long, with escapes for what can't be shown.
pub fn quoted(bytes: &[u8]) -> String {
    format!("\"{}\"", cut(escaped(bytes, is_marked)))
}

/// Bytes in quotes, all of them: other bytes never look the same.
pub fn entire(bytes: &[u8]) -> String {
    format!("\"{}\"", escaped(bytes, is_marked))
}

/// What is marked within quotes.
fn is_marked(character: char) -> bool {
    matches!(character, '"' | '\\')
}

/// Bytes cut where they are long, with escapes for what can't be shown.
pub fn brief(bytes: &[u8]) -> String {
    cut(shown(bytes))
}

fn cut(text: String) -> String {
    match text.char_indices().nth(SHOWN) {
        Some((end, _)) => format!("{}…", &text[..end]),
        None => text,
    }
}

/// Bytes with escapes for what can't be shown.
pub fn shown(bytes: &[u8]) -> String {
    escaped(bytes, |_| false)
}

fn escaped(bytes: &[u8], marked: fn(char) -> bool) -> String {
    let mut text = String::new();
    for chunk in bytes.utf8_chunks() {
        for character in chunk.valid().chars() {
            if marked(character) {
                text.push('\\');
            }
            push(&mut text, character);
        }
        chunk.invalid().iter().for_each(|byte| push_byte(&mut text, *byte));
    }
    text
}

fn push(text: &mut String, character: char) {
    match character {
        '\n' => text.push_str("\\n"),
        '\r' => text.push_str("\\r"),
        '\t' => text.push_str("\\t"),
        _ if character.is_ascii_control() => push_byte(text, character as u8),
        _ if is_plain(character) => text.push(character),
        _ => write!(text, "\\u{{{:x}}}", character as u32).expect("a string takes all"),
    }
}

fn push_byte(text: &mut String, byte: u8) {
    write!(text, "\\x{byte:02x}").expect("a string takes all");
}

/// Whether a character shows as itself and does nothing else: no controls, no marks
/// of direction, nothing invisible or of no meaning yet.
pub fn is_plain(character: char) -> bool {
    character.is_ascii_graphic() || character == ' ' || character.escape_debug().count() == 1
}

/// A count with its noun: "1 byte", "2 bytes".
pub fn counted(count: usize, noun: &str) -> String {
    match count {
        1 => format!("1 {noun}"),
        _ => format!("{count} {noun}s"),
    }
}

#[cfg(test)]
mod tests {
    use super::*;

    #[test]
    fn escapes() {
        assert_eq!(shown(b"a\xffb\n\0\xc3\xa9"), "a\\xffb\\n\\x00é");
        assert_eq!(quoted(&[b'v'; 41]).chars().count(), 43);
        assert_eq!(quoted(b"a\"\\"), "\"a\\\"\\\\\"");
    }

    /// C0 and C1 controls, marks of direction, and what can't be seen.
    #[test]
    fn nothing_that_a_terminal_obeys() {
        let all = ('\0'..' ').chain('\u{7f}'..='\u{9f}').chain('\u{200b}'..='\u{200f}').chain('\u{2028}'..='\u{202e}');
        let all = all.chain('\u{2060}'..='\u{206f}').chain(['\u{61c}', '\u{ad}', '\u{feff}', '\u{e0041}']);
        for character in all {
            let shown = shown(character.to_string().as_bytes());
            assert!(shown.starts_with('\\') && shown.bytes().all(|byte| byte.is_ascii_graphic()), "{shown}");
        }
        assert_eq!(shown("Gånget, 'x' 船".as_bytes()), "Gånget, 'x' 船");
    }
}
