//! Tokens: the longest reading at a place of an assertion text.

use crate::literal;

#[derive(Clone, Copy, Debug, PartialEq, Eq, Hash)]
#[repr(u8)]
pub enum Kind {
    Literal,
    Name,
    /// "true" or "false" in any case: a name that may also be a test.
    Word,
    Digits,
    Float,
    Of,
    Arrow,
    And,
    Or,
    Equal,
    Unequal,
    AtMost,
    AtLeast,
    Match,
    Open,
    Close,
    OpenCurly,
    CloseCurly,
    Comma,
    Semicolon,
    Assign,
    Not,
    Less,
    Greater,
    Dot,
    Dollar,
    At,
    Ampersand,
    Plus,
    Minus,
    Star,
    Slash,
    Percent,
    Caret,
}

/// All kinds with their spelling in the grammar's productions.
pub const SPELLINGS: [(Kind, &str); 34] = [
    (Kind::Literal, "LITERAL"),
    (Kind::Name, "NAME"),
    (Kind::Word, "WORD"),
    (Kind::Digits, "DIGITS"),
    (Kind::Float, "FLOAT"),
    (Kind::Of, "-of"),
    (Kind::Arrow, "->"),
    (Kind::And, "&&"),
    (Kind::Or, "||"),
    (Kind::Equal, "=="),
    (Kind::Unequal, "!="),
    (Kind::AtMost, "<="),
    (Kind::AtLeast, ">="),
    (Kind::Match, "~="),
    (Kind::Open, "("),
    (Kind::Close, ")"),
    (Kind::OpenCurly, "{"),
    (Kind::CloseCurly, "}"),
    (Kind::Comma, ","),
    (Kind::Semicolon, ";"),
    (Kind::Assign, "="),
    (Kind::Not, "!"),
    (Kind::Less, "<"),
    (Kind::Greater, ">"),
    (Kind::Dot, "."),
    (Kind::Dollar, "$"),
    (Kind::At, "@"),
    (Kind::Ampersand, "&"),
    (Kind::Plus, "+"),
    (Kind::Minus, "-"),
    (Kind::Star, "*"),
    (Kind::Slash, "/"),
    (Kind::Percent, "%"),
    (Kind::Caret, "^"),
];

/// A token of an assertion text.
#[derive(Clone, Copy, Debug, PartialEq, Eq)]
pub struct Token {
    pub kind: Kind,
    pub start: u16,
    pub end: u16,
    /// Digits: their value, or `u32::MAX` where it is larger.
    /// A literal: the length of its value. A word: 1 for true.
    pub value: u32,
}

impl Token {
    pub fn place(&self) -> usize {
        usize::from(self.start)
    }

    pub fn spelling<'a>(&self, text: &'a [u8]) -> &'a [u8] {
        &text[usize::from(self.start)..usize::from(self.end)]
    }

    /// Whether a literal holds no escapes, so that its value is its inside:
    /// every escape is longer than what it gives.
    pub fn is_plain(&self) -> bool {
        self.value + 2 == u32::from(self.end - self.start)
    }

    fn new(kind: Kind, start: usize, end: usize, value: u32) -> Self {
        Self { kind, start: start as u16, end: end as u16, value }
    }
}

/// The token that starts at `start`, if one can be formed. "-of" is a token
/// in Licensees only.
pub fn scan(text: &[u8], start: usize, licensees: bool) -> Option<Token> {
    match text[start] {
        b'"' => {
            let literal = literal::scan(text, start)?;
            Some(Token::new(Kind::Literal, start, literal.end, literal.decoded as u32))
        }
        b'0'..=b'9' => Some(number(text, start)),
        b'a'..=b'z' | b'A'..=b'Z' | b'_' => Some(name(text, start)),
        _ => operator(text, start, licensees),
    }
}

fn name(text: &[u8], start: usize) -> Token {
    let inside = |byte: &&u8| byte.is_ascii_alphanumeric() || **byte == b'_';
    let end = start + text[start..].iter().take_while(inside).count();
    let name = &text[start..end];
    if name.eq_ignore_ascii_case(b"true") {
        Token::new(Kind::Word, start, end, 1)
    } else if name.eq_ignore_ascii_case(b"false") {
        Token::new(Kind::Word, start, end, 0)
    } else {
        Token::new(Kind::Name, start, end, 0)
    }
}

fn number(text: &[u8], start: usize) -> Token {
    let end = digits_end(text, start);
    if text.get(end) == Some(&b'.') {
        let fraction = digits_end(text, end + 1);
        if fraction > end + 1 {
            return Token::new(Kind::Float, start, fraction, 0);
        }
    }
    Token::new(Kind::Digits, start, end, digits_value(&text[start..end]))
}

fn digits_end(text: &[u8], start: usize) -> usize {
    start + text[start..].iter().take_while(|byte| byte.is_ascii_digit()).count()
}

fn digits_value(digits: &[u8]) -> u32 {
    let add = |value: u32, digit: &u8| value.saturating_mul(10).saturating_add(u32::from(digit - b'0'));
    digits.iter().fold(0, add)
}

fn operator(text: &[u8], start: usize, licensees: bool) -> Option<Token> {
    let next = text.get(start + 1).copied();
    let of = licensees && text[start..].starts_with(b"-of");
    let (kind, length) = match (text[start], next) {
        (b'-', _) if of => (Kind::Of, 3),
        (b'-', Some(b'>')) => (Kind::Arrow, 2),
        (b'&', Some(b'&')) => (Kind::And, 2),
        (b'|', Some(b'|')) => (Kind::Or, 2),
        (b'=', Some(b'=')) => (Kind::Equal, 2),
        (b'!', Some(b'=')) => (Kind::Unequal, 2),
        (b'<', Some(b'=')) => (Kind::AtMost, 2),
        (b'>', Some(b'=')) => (Kind::AtLeast, 2),
        (b'~', Some(b'=')) => (Kind::Match, 2),
        (byte, _) => (single(byte)?, 1),
    };
    Some(Token::new(kind, start, start + length, 0))
}

fn single(byte: u8) -> Option<Kind> {
    Some(match byte {
        b'(' => Kind::Open,
        b')' => Kind::Close,
        b'{' => Kind::OpenCurly,
        b'}' => Kind::CloseCurly,
        b',' => Kind::Comma,
        b';' => Kind::Semicolon,
        b'=' => Kind::Assign,
        b'!' => Kind::Not,
        b'<' => Kind::Less,
        b'>' => Kind::Greater,
        b'.' => Kind::Dot,
        b'$' => Kind::Dollar,
        b'@' => Kind::At,
        b'&' => Kind::Ampersand,
        b'+' => Kind::Plus,
        b'-' => Kind::Minus,
        b'*' => Kind::Star,
        b'/' => Kind::Slash,
        b'%' => Kind::Percent,
        b'^' => Kind::Caret,
        _ => return None,
    })
}
