//! What could have stood where an assertion's grammar is broken, by trial: the
//! library is asked about the text up to there with one token more.

use lampsickle::{limits, Entry, Query};

/// Tokens that are tried, in words.
const TOKENS: [(&str, &str); 15] = [
    ("\"x\"", "a string in quotes"),
    ("x", "a name"),
    ("2", "an integer"),
    ("2.5", "a float"),
    ("(", "\"(\""),
    ("!", "\"!\""),
    ("$", "\"$\""),
    ("@", "\"@\""),
    ("&", "\"&\""),
    ("-of", "\"-of\""),
    ("->", "\"->\""),
    ("{", "\"{\""),
    (")", "\")\""),
    ("}", "\"}\""),
    ("=", "\"=\""),
];

/// Tokens that often may stand all, or else are told one by one.
const GROUPS: [(&[&str], &str); 4] = [
    (&["==", "!=", "<", ">", "<=", ">="], "a comparison such as \"==\""),
    (&["+", "-", "*", "/", "%", "^"], "an operator such as \"+\""),
    (&["&&", "||"], "\"&&\" or \"||\""),
    (&[".", ",", ";"], ""),
];

/// What could have stood at a place of reason 2; nothing where that can't be told.
pub fn stood(text: &[u8], place: usize) -> String {
    let front = text[..place.min(text.len())].trim_ascii_end();
    let mut all: Vec<String> = Vec::new();
    // Where "-" may stand, "-of" is that and a name.
    let minus = follows(front, "-");
    let can = |token: &str| follows(front, token) && (token != "-of" || !minus);
    all.extend(TOKENS.iter().filter(|(token, _)| can(token)).map(|(_, words)| words.to_string()));
    for (tokens, words) in GROUPS {
        let some: Vec<&str> = tokens.iter().copied().filter(|token| follows(front, token)).collect();
        match some.len() == tokens.len() && !words.is_empty() {
            true => all.push(words.into()),
            false => all.extend(some.iter().map(|token| format!("\"{token}\""))),
        }
    }
    if ends(front) {
        all.push("the end of the field".into());
    }
    all.join(", ")
}

/// Whether a float stands before a place: an ordering can follow, and no equality.
pub fn behind_float(text: &[u8], place: usize) -> bool {
    let front = text[..place.min(text.len())].trim_ascii_end();
    follows(front, "<") && !follows(front, "==")
}

/// Whether a token can follow: the library finds no fault in it, or one that isn't
/// the grammar's (a constant's name, a threshold, another version, an identifier).
fn follows(front: &[u8], token: &str) -> bool {
    // On a line of its own, so that no comment hides it.
    let start = front.len() + 2;
    match judged([front, b"\n ", token.as_bytes()].concat()) {
        // Reason 10 is given to texts that are otherwise well formed.
        Some(Entry { reason: 0 | 10, .. }) => true,
        Some(Entry { reason, place }) => place > start || place == start && matches!(reason, 4..=6),
        None => false,
    }
}

/// Whether the field may end here.
fn ends(front: &[u8]) -> bool {
    judged(front.to_vec()).is_some_and(|entry| entry.reason != 2)
}

/// What becomes of a text as a local assertion, where it fits in a record.
pub fn judged(text: Vec<u8>) -> Option<Entry> {
    if !limits::TEXT_BYTES.holds(text.len()) {
        return None;
    }
    let mut query =
        Query { values: vec![b"no".to_vec(), b"yes".to_vec()], requesters: vec![b"a".to_vec()], ..Query::default() };
    query.local(text);
    lampsickle::ask(&query.record().ok()?).ok()?.entries.first().copied()
}

#[cfg(test)]
mod tests {
    use super::*;

    /// The library's place of reason 2, and what could stand there.
    fn of(text: &str) -> String {
        let entry = judged(text.as_bytes().to_vec()).expect("an entry");
        assert_eq!(entry.reason, 2, "{text}");
        stood(text.as_bytes(), entry.place)
    }

    #[test]
    fn by_field() {
        assert_eq!(of("Authorizer: 5"), "a string in quotes, a name, \"(\", \"$\"");
        assert_eq!(of("Authorizer: \"a\" \"b\""), "\".\", the end of the field");
        assert_eq!(of("Authorizer: x . (y z"), "\")\", \".\"");
        assert_eq!(of("Authorizer: \"a\"\nLicensees: \"b\" ; \"c\""), "\"&&\" or \"||\", \".\", the end of the field");
        assert_eq!(of("Authorizer: \"a\"\nLicensees: 2 (\"c\")"), "\"-of\"");
        for end in ["", " # c", "\n", "\n  # c\n", "\nComment: c", " # c \n\t)"] {
            let text = format!("Authorizer: \"a\"\nLicensees: \"b\" &&{end}");
            assert_eq!(of(&text), "a string in quotes, a name, an integer, \"(\", \"$\"", "{text}");
        }
        assert_eq!(of("Authorizer: \"a\"\nLicensees: 1-of(\"c\""), "\")\", \".\", \",\"");
        assert_eq!(of("Authorizer: \"a\"\nConditions: dollars < 100;"), "a string in quotes, a name, \"(\", \"$\"");
        assert_eq!(of("Authorizer: \"a\"\nConditions: x = \"y\";"), "a comparison such as \"==\", \".\"");
        assert_eq!(of("Authorizer: \"a\"\nConditions: &x < 1;"), "a float, \"(\", \"&\", \"-\"",);
        assert_eq!(
            of("Authorizer: \"a\"\nConditions: 1.5 == &x;"),
            "\"<\", \">\", \"<=\", \">=\", \"+\", \"-\", \"*\", \"/\", \"^\""
        );
        assert_eq!(
            of("Authorizer: \"a\"\nConditions: x == \"y\"\nComment: z"),
            "\"->\", \"&&\" or \"||\", \".\", \";\""
        );
    }

    #[test]
    fn floats_before() {
        let behind = |text: &str| behind_float(text.as_bytes(), text.len());
        for front in ["1.5", "&x", "(-&x + 2.0)", "true && 1.5 "] {
            assert!(behind(&format!("Authorizer: \"a\"\nConditions: {front}")), "{front}");
        }
        for front in ["", "1", "@x", "x", "\"1\"", "true", "1.5 <", "1.5 < 2.5", "1.5 +"] {
            assert!(!behind(&format!("Authorizer: \"a\"\nConditions: {front}")), "{front}");
        }
        assert!(!behind("Authorizer: \"a\"\nLicensees: 1.5"));
    }

    #[test]
    fn the_largest_text() {
        let text = format!("Authorizer: \"a\"\n#{}\nConditions: x =", "x".repeat(8_160));
        assert_eq!(stood(text.as_bytes(), text.len()), "");
    }
}
