//! Lines and tokens of an assertion's text.

use super::literal;

#[derive(Clone, Copy, Debug, PartialEq, Eq)]
pub enum Field {
    Version,
    Constants,
    Authorizer,
    Licensees,
    Conditions,
    Comment,
    Signature,
}

/// The fields by their labels, as they are written.
pub const LABELS: [(&str, Field); 7] = [
    ("KeyNote-Version", Field::Version),
    ("Local-Constants", Field::Constants),
    ("Authorizer", Field::Authorizer),
    ("Licensees", Field::Licensees),
    ("Conditions", Field::Conditions),
    ("Comment", Field::Comment),
    ("Signature", Field::Signature),
];

const PAIRS: [&[u8; 2]; 8] = [b"->", b"&&", b"||", b"==", b"!=", b"<=", b">=", b"~="];

#[derive(Clone, Copy, Debug, PartialEq, Eq)]
pub enum Kind {
    Label,
    Literal,
    Name,
    /// Digits, or digits with a point among them.
    Number,
    /// An operator, bracket or the like.
    Sign,
    /// A line of spaces and tabs.
    Blank,
    /// A line that begins as none may, or text before the first label.
    Line,
    /// What is no token.
    Unknown,
}

#[derive(Clone, Copy, Debug, PartialEq, Eq)]
pub struct Token {
    pub kind: Kind,
    /// The field that it belongs to, or begins.
    pub field: Option<Field>,
    pub start: usize,
    pub end: usize,
}

impl Token {
    pub fn of(self, text: &[u8]) -> &[u8] {
        &text[self.start..self.end]
    }

    pub fn is(self, text: &[u8], sign: &[u8]) -> bool {
        self.kind == Kind::Sign && self.of(text) == sign
    }
}

/// The tokens of a text up to its end, or to the end of its Signature.
pub struct Tokens<'a> {
    text: &'a [u8],
    place: usize,
    /// A line begins at the place.
    line: bool,
    field: Option<Field>,
    signed: bool,
}

impl<'a> Tokens<'a> {
    pub fn new(text: &'a [u8]) -> Self {
        Self { text, place: 0, line: true, field: None, signed: false }
    }

    /// The place behind the Signature's literal, where it was met.
    pub fn signed(&self) -> Option<usize> {
        self.signed.then_some(self.place)
    }

    /// The end of the line on which a place lies.
    fn end_of(&self, place: usize) -> usize {
        let newline = self.text.get(place..).and_then(|rest| rest.iter().position(|byte| *byte == b'\n'));
        newline.map_or(self.text.len(), |length| place + length)
    }

    fn line_end(&self) -> usize {
        self.end_of(self.place)
    }

    fn until(&mut self, kind: Kind, end: usize) -> Token {
        let start = std::mem::replace(&mut self.place, end);
        Token { kind, field: self.field, start, end }
    }

    /// A line's start: a label, or a line without tokens.
    fn start(&mut self) -> Option<Token> {
        self.line = false;
        let end = self.line_end();
        let line = &self.text[self.place..end];
        let first = line.iter().find(|byte| !matches!(byte, b' ' | b'\t'));
        match (line.first(), first) {
            (_, None) => Some(self.until(Kind::Blank, end)),
            (_, Some(b'#')) if self.field.is_none() => self.pass(end),
            (Some(b'#'), _) => self.pass(end),
            (Some(b' ' | b'\t'), _) if self.field.is_some() => None,
            _ => match label(line) {
                Some((field, length)) => {
                    self.field = Some(field);
                    Some(self.until(Kind::Label, self.place + length))
                }
                None => Some(self.until(Kind::Line, end)),
            },
        }
    }

    fn pass(&mut self, end: usize) -> Option<Token> {
        self.place = end;
        None
    }

    fn token(&mut self) -> Token {
        let rest = &self.text[self.place..];
        let run = |inside: fn(&u8) -> bool| rest.iter().take_while(|byte| inside(byte)).count();
        let (kind, length) = match rest[0] {
            b'"' => return self.literal(),
            b'a'..=b'z' | b'A'..=b'Z' | b'_' => (Kind::Name, run(|byte| byte.is_ascii_alphanumeric() || *byte == b'_')),
            b'0'..=b'9' => (Kind::Number, number(rest)),
            b'-' if self.field == Some(Field::Licensees) && rest.starts_with(b"-of") => (Kind::Sign, 3),
            _ if PAIRS.iter().any(|pair| rest.starts_with(*pair)) => (Kind::Sign, 2),
            byte if b"(){},;=!<>.$@&+-*/%^".contains(&byte) => (Kind::Sign, 1),
            _ => (Kind::Unknown, 1),
        };
        self.until(kind, self.place + length)
    }

    /// A literal, or what there is of it up to the end of the line with its flaw.
    fn literal(&mut self) -> Token {
        match literal::read(self.text, self.place) {
            Ok(literal) => {
                self.signed = self.field == Some(Field::Signature);
                self.until(Kind::Literal, literal.end)
            }
            Err(flawed) => self.until(Kind::Unknown, self.end_of(flawed.place)),
        }
    }
}

impl Iterator for Tokens<'_> {
    type Item = Token;

    fn next(&mut self) -> Option<Token> {
        while !self.signed && self.place < self.text.len() {
            if self.line {
                match self.start() {
                    Some(token) => return Some(token),
                    None => continue,
                }
            }
            match self.text[self.place] {
                b'\n' => (self.line, self.place) = (true, self.place + 1),
                b'#' => self.place = self.line_end(),
                _ if self.field == Some(Field::Comment) => self.place = self.line_end(),
                b' ' | b'\t' => self.place += 1,
                _ => return Some(self.token()),
            }
        }
        None
    }
}

/// The label at a line's start, and its length with the colon.
pub fn label(line: &[u8]) -> Option<(Field, usize)> {
    let colon = line.iter().position(|byte| *byte == b':')?;
    let known = LABELS.iter().find(|(label, _)| line[..colon].eq_ignore_ascii_case(label.as_bytes()))?;
    Some((known.1, colon + 1))
}

fn number(rest: &[u8]) -> usize {
    let digits = |from: usize| rest[from..].iter().take_while(|byte| byte.is_ascii_digit()).count();
    let whole = digits(0);
    match rest.get(whole) {
        Some(b'.') if digits(whole + 1) > 0 => whole + 1 + digits(whole + 1),
        _ => whole,
    }
}

#[cfg(test)]
mod tests {
    use super::super::random::Random;
    use super::*;
    use crate::could::judged;

    const PIECES: &[&[u8]] = &[
        b"Authorizer: \"a\"",
        b"\nLicensees: 1-of(\"b\",c)",
        b"\nComment: \" x \\",
        b"\nLocal-Constants: c=\"\\\n\n#\"",
        b"\nConditions: x.\"#\" == \"\\\"\" -> {1<2;};",
        b"\nSIGNATURE: \"s\\\n\nt\"",
        b"\nsignature:\n # \"\n\t\"u\"",
        b"\n# \"",
        b"\n x",
        b"\n",
        b" ",
        b"\n\t# \"\\",
        b"\nauthorizer:\"b\"",
        b"\nSignature: \"s\"",
        b"\"",
        b" \"v\"",
    ];

    /// A text that the library keeps has no lines and tokens that are none, and its
    /// end is where the library's is: behind a Signature nothing is read, and
    /// otherwise a line that follows is.
    #[test]
    fn as_the_library_reads_them() {
        let mut random = Random::new(5);
        let (mut signed, mut unsigned) = (0, 0);
        for _ in 0..60_000 {
            let text = random.joined(8, PIECES);
            let kept = |text: Vec<u8>| judged(text).is_some_and(|entry| entry.reason == 0);
            if !kept(text.clone()) {
                continue;
            }
            let mut tokens = Tokens::new(&text);
            assert!(
                tokens.by_ref().all(|token| !matches!(token.kind, Kind::Blank | Kind::Line | Kind::Unknown)),
                "{text:?}"
            );
            let more = [&text[..], b"\n\nx"].concat();
            assert_eq!(kept(more), tokens.signed().is_some(), "{:?}", String::from_utf8_lossy(&text));
            if let Some(end) = tokens.signed() {
                assert!(kept(text[..end].to_vec()) && !kept(text[..end - 1].to_vec()));
                signed += 1;
            } else {
                unsigned += 1;
            }
        }
        assert!(signed > 500 && unsigned > 500, "{signed} {unsigned}");
    }

    fn kinds(text: &str) -> Vec<(Kind, String)> {
        let shown = |token: Token| (token.kind, String::from_utf8_lossy(token.of(text.as_bytes())).into_owned());
        Tokens::new(text.as_bytes()).map(shown).collect()
    }

    #[test]
    fn of_a_text() {
        let text = "# x\nAUTHORIZER: \"a\\\n\nb\" # \"\nLicensees:2-of(c)\nComment: \"\n \"\nSignature: \"s\" x\n";
        let of = |kind, text: &str| (kind, text.to_string());
        let expected = [
            of(Kind::Label, "AUTHORIZER:"),
            of(Kind::Literal, "\"a\\\n\nb\""),
            of(Kind::Label, "Licensees:"),
            of(Kind::Number, "2"),
            of(Kind::Sign, "-of"),
            of(Kind::Sign, "("),
            of(Kind::Name, "c"),
            of(Kind::Sign, ")"),
            of(Kind::Label, "Comment:"),
            of(Kind::Label, "Signature:"),
            of(Kind::Literal, "\"s\""),
        ];
        assert_eq!(kinds(text), expected);
    }

    #[test]
    fn lines_without_tokens() {
        let of = |text: &str| kinds(text).into_iter().map(|(kind, _)| kind).collect::<Vec<_>>();
        assert_eq!(of(" Authorizer: x"), [Kind::Line]);
        assert_eq!(of(" # x\n\t#"), []);
        assert_eq!(of("x\n \t\nAuthorizer:"), [Kind::Line, Kind::Blank, Kind::Label]);
        assert_eq!(
            of("Licensees: \"a\n $1.5 ? 1.\n"),
            [Kind::Label, Kind::Unknown, Kind::Sign, Kind::Number, Kind::Unknown, Kind::Number, Kind::Sign]
        );
    }
}
