//! Which limit an assertion passes.

use crate::assertion::tokens::{Field, Kind, Token, Tokens};
use crate::assertion::{literal, BRACKETS, CONSTANTS, FLOAT_DIGITS, LICENSEES, LITERAL_BYTES, PREFIXES};
use crate::text::counted;

/// The limit that the token at a place passes, in words.
pub fn words(text: &[u8], place: usize) -> String {
    let tokens: Vec<Token> = Tokens::new(text).collect();
    let found = tokens.iter().find(|token| token.start == place);
    let told = found.and_then(|token| match token.kind {
        Kind::Literal | Kind::Name => item(text, *token),
        Kind::Number => Some(number(token.of(text))),
        Kind::Sign if begins_licensee(text, *token, &tokens) => Some(licensee()),
        Kind::Sign => Some(sign(token.of(text))),
        _ => None,
    });
    told.unwrap_or_else(|| "a limit is passed here".into())
}

fn sign(sign: &[u8]) -> String {
    match sign {
        b"(" | b"{" => format!("with this bracket more than {BRACKETS} are open"),
        _ => format!("with this one more than {PREFIXES} prefix operators stand in a row"),
    }
}

/// A float; an integer passes no limit.
fn number(number: &[u8]) -> String {
    let digits = number.iter().filter(|byte| byte.is_ascii_digit()).count();
    format!("this float has {}, but a float has at most {FLOAT_DIGITS}", counted(digits, "digit"))
}

/// A literal that is too long, or one item too many.
fn item(text: &[u8], token: Token) -> Option<String> {
    let size = literal::read(text, token.start).ok().map_or(0, |literal| literal.value.len());
    match (token.kind, token.field?) {
        (Kind::Literal, _) if size > LITERAL_BYTES => {
            Some(format!("this literal has {}, but a literal has at most {LITERAL_BYTES}", counted(size, "byte")))
        }
        (_, Field::Licensees) => Some(licensee()),
        (Kind::Name, Field::Constants) => Some(format!("with this constant there are more than {CONSTANTS}")),
        _ => None,
    }
}

fn licensee() -> String {
    format!("with this licensee there are more than {LICENSEES}")
}

/// Whether a sign is the "$" with which a licensee begins, and not one "$" too many.
fn begins_licensee(text: &[u8], token: Token, tokens: &[Token]) -> bool {
    let row = tokens.iter().rev().skip_while(|other| other.start > token.start);
    let prefixes = row.take_while(|other| other.is(text, b"$")).count();
    token.field == Some(Field::Licensees) && (1..=PREFIXES).contains(&prefixes)
}

#[cfg(test)]
mod tests {
    use super::*;
    use crate::could::judged;

    /// The library's place of reason 7, in words.
    fn of(text: &str) -> String {
        let entry = judged(text.as_bytes().to_vec()).expect("an entry");
        assert_eq!(entry.reason, 7, "{text}");
        words(text.as_bytes(), entry.place)
    }

    #[test]
    fn every_limit() {
        let told = |text: &str, words: &str| assert!(of(text).contains(words), "{}", of(text));
        told(
            &format!("Comment: x\nAuthorizer: \"{}\"", "x".repeat(2_049)),
            "2049 bytes, but a literal has at most 2048",
        );
        let names: String = (0..17).map(|index| format!(" c{index}=\"\"")).collect();
        told(&format!("Local-Constants:{names}\nAuthorizer: \"a\""), "constant there are more than 16");
        told(
            &format!("Authorizer: \"a\"\nLicensees: \"x\"{}", " || \"x\"".repeat(16)),
            "licensee there are more than 16",
        );
        let sixteen = format!("Authorizer: \"a\"\nLicensees: \"x\"{}", " || \"x\"".repeat(15));
        told(&format!("{sixteen} || ($x)"), "licensee there are more than 16");
        told(&format!("{sixteen} || x . \"y\""), "licensee there are more than 16");
        told(&format!("Authorizer: {}x", "$".repeat(17)), "16 prefix operators");
        told(&format!("Authorizer: \"a\"\nLicensees: {}x", "$".repeat(17)), "16 prefix operators");
        told(&format!("Authorizer: {}x{}", "(".repeat(17), ")".repeat(17)), "more than 16 are open");
        told(&format!("Authorizer: \"a\"\nConditions: {}", "(".repeat(17)), "more than 16 are open");
        told(&format!("Authorizer: \"a\"\nConditions: {}", "!".repeat(17)), "16 prefix operators");
        told(&format!("Authorizer: \"a\"\nConditions: {}&x", "-".repeat(16)), "16 prefix operators");
        told("Authorizer: \"a\"\nConditions: 0.123456789012345678", "19 digits, but a float has at most 18");
    }
}
