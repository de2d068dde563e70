//! A place in a text as line and column, and the line with a caret under it.

use crate::text::shown;

/// A place in a text: the line and column from 1, and the line itself.
pub struct Spot<'a> {
    pub line: usize,
    pub column: usize,
    before: &'a [u8],
    after: &'a [u8],
}

/// Finds a place. The end of a text lies on its last line.
pub fn spot(text: &[u8], place: usize) -> Spot<'_> {
    let place = place.min(text.len());
    let start = text[..place].iter().rposition(|byte| *byte == b'\n').map_or(0, |newline| newline + 1);
    let end = text[place..].iter().position(|byte| *byte == b'\n').map_or(text.len(), |length| place + length);
    let before = &text[start..place];
    let line = 1 + text[..start].iter().filter(|byte| **byte == b'\n').count();
    Spot { line, column: 1 + String::from_utf8_lossy(before).chars().count(), before, after: &text[place..end] }
}

impl Spot<'_> {
    /// The line, numbered, and a caret under the place, cut to a width.
    pub fn drawn(&self, line: usize, width: usize) -> String {
        let number = line.to_string();
        // Two spaces, the number, " | ", and a column for the caret at the line's end.
        let room = width.saturating_sub(number.len() + 6).max(LEAST);
        let (before, after) = (visible(self.before), visible(self.after));
        let (text, caret) = window(&before, &after, room);
        let under = " ".repeat(caret);
        format!("  {number} | {text}\n  {:width$} | {under}^\n", "", width = number.len())
    }
}

/// The fewest characters of a line that are shown.
const LEAST: usize = 20;

/// What is seen of a line through a window of so many characters around the place
/// between its two parts, and where the place lies in it.
fn window(before: &str, after: &str, room: usize) -> (String, usize) {
    let line: Vec<char> = before.chars().chain(after.chars()).collect();
    let place = before.chars().count();
    if line.len() <= room {
        return (line.into_iter().collect(), place);
    }
    let start = place.saturating_sub(room / 2).min(line.len() - room);
    let mut seen = line[start..start + room].to_vec();
    if start > 0 {
        seen[0] = '…';
    }
    if start + room < line.len() {
        seen[room - 1] = '…';
    }
    (seen.into_iter().collect(), place - start)
}

/// Bytes as text, a tab as a space.
fn visible(bytes: &[u8]) -> String {
    bytes.split(|byte| *byte == b'\t').map(shown).collect::<Vec<_>>().join(" ")
}

#[cfg(test)]
mod tests {
    use super::*;

    fn at(text: &str, place: usize) -> (usize, usize) {
        let spot = spot(text.as_bytes(), place);
        (spot.line, spot.column)
    }

    #[test]
    fn lines_and_columns() {
        assert_eq!(at("ab\ncd", 0), (1, 1));
        assert_eq!(at("ab\ncd", 2), (1, 3));
        assert_eq!(at("ab\ncd", 3), (2, 1));
        assert_eq!(at("ab\ncd", 5), (2, 3));
        assert_eq!(at("é!", 2), (1, 2));
    }

    #[test]
    fn caret() {
        assert_eq!(spot(b"a\n\tb c\nd", 5).drawn(12, 80), "  12 |  b c\n     |    ^\n");
    }

    /// Wherever the place lies, the window is full, holds it, and marks what is cut.
    #[test]
    fn a_long_line_is_cut_around_the_caret() {
        let text: Vec<u8> = (b'a'..=b'z').cycle().take(300).collect();
        for place in 0..=text.len() {
            let drawn = spot(&text, place).drawn(7, 60);
            let lines: Vec<Vec<char>> = drawn.lines().map(|line| line.chars().collect()).collect();
            assert!(lines[0].len() == 59 && lines[1].len() <= 60, "{drawn}");
            let caret = lines[1].len() - 1;
            let under = lines[0].get(caret).copied();
            let expected = text.get(place).map(|byte| char::from(*byte));
            assert!(under == expected || under == Some('…'), "{place}: {drawn}");
            assert!(under != Some('…') || place == 0 || place + 1 >= text.len(), "{place}: {drawn}");
        }
    }
}
