//! Lines, labels and fields: a text as a list of tokens, with reasons 1 and 3.

use crate::bounded::Bounded;
use crate::token::{self, Kind, Token};

/// Why an assertion is set aside, and where.
#[derive(Clone, Copy, Debug, PartialEq, Eq, PartialOrd, Ord)]
pub struct Fault {
    // The order of faults is by place, then by number.
    pub place: usize,
    pub reason: u8,
}

pub const NO_TOKEN: u8 = 1;
pub const GRAMMAR: u8 = 2;
pub const LINE: u8 = 3;

#[derive(Clone, Copy, Debug, PartialEq, Eq)]
pub enum Label {
    Version,
    Constants,
    Authorizer,
    Licensees,
    Conditions,
    Comment,
    Signature,
}

pub const LABELS: [(Label, &[u8]); 7] = [
    (Label::Version, b"KeyNote-Version:"),
    (Label::Constants, b"Local-Constants:"),
    (Label::Authorizer, b"Authorizer:"),
    (Label::Licensees, b"Licensees:"),
    (Label::Conditions, b"Conditions:"),
    (Label::Comment, b"Comment:"),
    (Label::Signature, b"Signature:"),
];

/// A field: its tokens, and the place of the token that ends it, which is the
/// next label or the end of what is read. A field cut by a fault has no end.
#[derive(Clone, Copy, Debug, PartialEq, Eq)]
pub struct Field {
    pub label: Label,
    pub first: usize,
    pub last: usize,
    pub end: Option<usize>,
}

const NO_FIELD: Field = Field { label: Label::Comment, first: 0, last: 0, end: None };

/// The tokens of a text up to its first fault of reason 1 or 3.
pub struct Listing {
    pub tokens: Vec<Token>,
    pub fields: Bounded<Field, { LABELS.len() }>,
    pub fault: Option<Fault>,
}

impl Listing {
    pub fn new() -> Self {
        Self { tokens: Vec::with_capacity(64), fields: Bounded::new(NO_FIELD), fault: None }
    }

    pub fn field(&self, label: Label) -> Option<&Field> {
        self.fields.iter().find(|field| field.label == label)
    }

    pub fn tokens_of(&self, field: &Field) -> &[Token] {
        &self.tokens[field.first..field.last]
    }

    /// Lists a text; what was listed before is dropped.
    pub fn list(&mut self, text: &[u8]) {
        self.tokens.clear();
        self.fields = Bounded::new(NO_FIELD);
        let mut reader = Reader { text, place: 0, listing: self };
        let fault = reader.text().err();
        reader.listing.cut(None);
        reader.listing.fault = fault;
    }

    /// Closes the open field, if any; the first close counts.
    fn cut(&mut self, end: Option<usize>) {
        let last = self.tokens.len();
        if let Some(field) = self.fields.last_mut() {
            if field.end.is_none() {
                field.last = last;
                field.end = end;
            }
        }
    }
}

impl Default for Listing {
    fn default() -> Self {
        Self::new()
    }
}

struct Reader<'t, 'l> {
    text: &'t [u8],
    place: usize,
    listing: &'l mut Listing,
}

impl Reader<'_, '_> {
    fn text(&mut self) -> Result<(), Fault> {
        while self.place < self.text.len() {
            self.line_start()?;
            self.line_rest()?;
        }
        self.listing.cut(Some(self.place));
        match self.listing.field(Label::Authorizer) {
            Some(_) => Ok(()),
            None => fault(LINE, self.place),
        }
    }

    /// Tests how a line begins, and reads its label.
    fn line_start(&mut self) -> Result<(), Fault> {
        let line = &self.text[self.place..];
        let indent = line.iter().take_while(|byte| matches!(byte, b' ' | b'\t')).count();
        match line.get(indent) {
            None | Some(b'\n') => fault(LINE, self.place),
            Some(b'#') => Ok(()),
            Some(_) if indent == 0 => self.label(),
            Some(_) if self.open_label().is_none() => fault(LINE, self.place),
            Some(_) => Ok(()),
        }
    }

    /// Reads the label at a line's start and opens its field.
    fn label(&mut self) -> Result<(), Fault> {
        let line = &self.text[self.place..];
        let begins = |spelling: &[u8]| {
            // Most lines with another label are told by its first letter.
            line[0].eq_ignore_ascii_case(&spelling[0])
                && line.get(..spelling.len()).is_some_and(|found| found.eq_ignore_ascii_case(spelling))
        };
        let Some(&(label, spelling)) = LABELS.iter().find(|(_, spelling)| begins(spelling)) else {
            return fault(LINE, self.place);
        };
        self.listing.cut(Some(self.place));
        let late = label == Label::Version && !self.listing.fields.is_empty();
        if late || self.listing.field(label).is_some() {
            return fault(LINE, self.place);
        }
        self.place += spelling.len();
        let first = self.listing.tokens.len();
        self.listing.fields.push(Field { label, first, last: first, end: None });
        Ok(())
    }

    fn open_label(&self) -> Option<Label> {
        self.listing.fields.last().map(|field| field.label)
    }

    /// Reads what stands behind a line's start, its newline too. A literal may
    /// take further lines with it.
    fn line_rest(&mut self) -> Result<(), Fault> {
        match self.open_label() {
            None => {
                self.blanks();
                self.hidden()
            }
            Some(Label::Comment) => self.hidden(),
            Some(label) => self.line_tokens(label),
        }
    }

    fn line_tokens(&mut self, label: Label) -> Result<(), Fault> {
        loop {
            self.blanks();
            match self.text.get(self.place) {
                None => return Ok(()),
                Some(b'\n' | b'#') => return self.hidden(),
                Some(_) => {
                    let token = self.token(label)?;
                    if label == Label::Signature && token.kind == Kind::Literal {
                        return self.stop();
                    }
                }
            }
        }
    }

    fn token(&mut self, label: Label) -> Result<Token, Fault> {
        match token::scan(self.text, self.place, label == Label::Licensees) {
            Some(token) => {
                self.place = usize::from(token.end);
                self.listing.tokens.push(token);
                Ok(token)
            }
            None => fault(NO_TOKEN, self.place),
        }
    }

    /// Ends the text behind Signature's literal: nothing after it is read.
    fn stop(&mut self) -> Result<(), Fault> {
        self.text = &self.text[..self.place];
        Ok(())
    }

    fn blanks(&mut self) {
        let rest = &self.text[self.place..];
        self.place += rest.iter().take_while(|byte| matches!(byte, b' ' | b'\t')).count();
    }

    /// Passes free text up to the newline and over it; a NUL is refused.
    fn hidden(&mut self) -> Result<(), Fault> {
        let rest = &self.text[self.place..];
        match rest.iter().position(|&byte| byte == b'\n' || byte == 0) {
            None => self.place = self.text.len(),
            Some(index) if rest[index] == 0 => return fault(NO_TOKEN, self.place + index),
            Some(index) => self.place += index + 1,
        }
        Ok(())
    }
}

fn fault<T>(reason: u8, place: usize) -> Result<T, Fault> {
    Err(Fault { place, reason })
}
