//! Reasons 1 to 8 are told from the text up to the token at their place: what
//! stands behind that token may be anything. Reasons 9 and 10 give way to any of
//! these, wherever it stands.

use second::check::{IDENTIFIER, REASONS, STANDING};
use second::draft::Draft;
use second::generate::{of_sort, Sort};
use second::line::{LABELS, LINE, NO_TOKEN};
use second::print::PAGE;
use second::random::Random;
use second::{answer, limits, record, token};

fn entry(standing: u8, text: &[u8]) -> (u8, usize) {
    let mut page = [0; PAGE];
    let record = Draft::plain().assertion(standing, text).record();
    assert_eq!(answer(&record, &mut page).number, 0);
    (page[3], usize::from(u16::from_be_bytes([page[4], page[5]])))
}

/// The end of the label or token at a place; none where there isn't one.
fn token_end(text: &[u8], place: usize) -> Option<usize> {
    let begins = |label: &[u8]| text[place..].get(..label.len()).is_some_and(|found| found.eq_ignore_ascii_case(label));
    let at_line_start = place == 0 || text[place - 1] == b'\n';
    match LABELS.iter().find(|(_, label)| at_line_start && begins(label)) {
        Some((_, label)) => Some(place + label.len()),
        None if place == text.len() => None,
        None => token::scan(text, place, true).map(|token| usize::from(token.end)),
    }
}

#[test]
fn what_follows_changes_nothing() {
    const TAILS: [&[u8]; 6] = [b"", b"\n", b"\n\n", b"\n?", b"\nAuthorizer: \"q\"\n", b" \0 \"\\"];
    let mut random = Random::new(31);
    let mut met = [0; 11];
    for _ in 0..20_000 {
        let record = of_sort(&mut random, Sort::DamagedText);
        for statement in record::read(&record).unwrap().statements.iter() {
            let (reason, place) = entry(statement.standing, statement.text);
            if reason == 0 || reason == NO_TOKEN || statement.standing == 0 {
                continue;
            }
            if matches!(reason, STANDING | IDENTIFIER) {
                gives_way(statement.standing, statement.text);
                met[usize::from(reason)] += 1;
                continue;
            }
            let Some(end) = token_end(statement.text, place) else { continue };
            if reason == LINE && LABELS.iter().all(|(_, label)| label.len() != end - place) {
                continue;
            }
            for tail in TAILS {
                let text = [&statement.text[..end], b"\n", tail].concat();
                if limits::TEXT_BYTES.holds(text.len()) {
                    assert_eq!(entry(statement.standing, &text), (reason, place), "{}", text.escape_ascii());
                }
            }
            met[usize::from(reason)] += 1;
        }
    }
    assert!(REASONS[2..].iter().all(|&reason| met[usize::from(reason)] > 30), "{met:?}");
}

/// A fault behind everything, or before it, wins.
fn gives_way(standing: u8, text: &[u8]) {
    // A text with Signature is read no further than that.
    let signed = text.to_ascii_lowercase().windows(10).any(|part| part == b"signature:");
    let behind = [text, b"\n\n"].concat();
    if !signed && !text.ends_with(b"\n") && limits::TEXT_BYTES.holds(behind.len()) {
        assert_eq!(entry(standing, &behind), (LINE, text.len() + 1), "{}", behind.escape_ascii());
    }
    let before = [b"?\n", text].concat();
    if limits::TEXT_BYTES.holds(before.len()) {
        assert_eq!(entry(standing, &before), (LINE, 0), "{}", before.escape_ascii());
    }
}
