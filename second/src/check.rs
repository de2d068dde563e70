//! Reasons 4 to 7: what single tokens of a field may not be. Each is told from
//! the tokens up to its place, so the first one found is the earliest.

use crate::bounded::Bounded;
use crate::limits;
use crate::line::{Fault, Field, Label, Listing, GRAMMAR, LINE, NO_TOKEN};
use crate::literal;
use crate::token::{Kind, Token};

pub const NAME: u8 = 4;
pub const NUMBER: u8 = 5;
pub const KEYNOTE_VERSION: u8 = 6;
pub const LIMIT: u8 = 7;
pub const STANDING: u8 = 9;
pub const IDENTIFIER: u8 = 10;

/// The reasons there are, 0 for a text that is kept. None is 8 any more.
pub const REASONS: [u8; 10] = [0, NO_TOKEN, GRAMMAR, LINE, NAME, NUMBER, KEYNOTE_VERSION, LIMIT, STANDING, IDENTIFIER];

/// The root of trust.
pub const POLICY: &[u8] = b"POLICY";

/// A constant by its tokens; a broken field may leave one without a value.
#[derive(Clone, Copy)]
pub struct Setting {
    pub name: Token,
    pub value: Option<Token>,
}

const BLANK: Token = Token { kind: Kind::Name, start: 0, end: 0, value: 0 };

/// The constants set so far, and the text they stand in.
pub struct Settings<'t> {
    text: &'t [u8],
    pub list: Bounded<Setting, { limits::CONSTANTS }>,
}

impl<'t> Settings<'t> {
    pub fn new(text: &'t [u8]) -> Self {
        Self { text, list: Bounded::new(Setting { name: BLANK, value: None }) }
    }

    fn has(&self, name: &Token) -> bool {
        let wanted = name.spelling(self.text);
        self.list.iter().any(|setting| setting.name.spelling(self.text) == wanted)
    }
}

/// The first fault of reasons 4 to 7. The constants are gathered on the way.
pub fn first_fault(listing: &Listing, settings: &mut Settings) -> Option<Fault> {
    let each = |field: &Field| {
        let tokens = listing.tokens_of(field);
        match field.label {
            Label::Version => version(tokens, settings.text),
            Label::Constants => constants(tokens, settings),
            Label::Authorizer => authorizer(tokens),
            Label::Licensees => licensees(tokens),
            Label::Conditions => conditions(tokens),
            Label::Comment => Ok(()),
            Label::Signature => tokens.iter().try_for_each(literal_bytes),
        }
    };
    listing.fields.iter().try_for_each(each).err()
}

fn version(tokens: &[Token], text: &[u8]) -> Result<(), Fault> {
    let Some(token) = tokens.first() else { return Ok(()) };
    match token.kind {
        Kind::Digits => {
            integer(token)?;
            demand(token.value == limits::KEYNOTE_VERSION, KEYNOTE_VERSION, token)
        }
        Kind::Literal => demand(literal_is(text, token, b"2"), KEYNOTE_VERSION, token),
        _ => Ok(()),
    }
}

fn constants(tokens: &[Token], settings: &mut Settings) -> Result<(), Fault> {
    for token in tokens {
        match token.kind {
            Kind::Name | Kind::Word => {
                let reserved = token.spelling(settings.text)[0] == b'_';
                demand(!reserved && !settings.has(token), NAME, token)?;
                demand(settings.list.len() < limits::CONSTANTS, LIMIT, token)?;
                settings.list.push(Setting { name: *token, value: None });
            }
            Kind::Literal => {
                literal_bytes(token)?;
                if let Some(setting) = settings.list.last_mut() {
                    setting.value = Some(*token);
                }
            }
            _ => {}
        }
    }
    Ok(())
}

fn authorizer(tokens: &[Token]) -> Result<(), Fault> {
    let mut string = StringLimits::default();
    tokens.iter().try_for_each(|token| string.count(token))
}

fn licensees(tokens: &[Token]) -> Result<(), Fault> {
    let mut string = StringLimits::default();
    let mut occurrences = 0;
    // The list that is open or announced: its threshold, its length, and how
    // many brackets are open around it.
    let mut threshold = 0;
    let mut listed = 0;
    let mut around = 0;
    // Whether the next operand continues a string expression.
    let mut continued = false;
    for token in tokens {
        string.count(token)?;
        match token.kind {
            Kind::Digits => {
                demand(limits::THRESHOLD.holds(token.value as usize), NUMBER, token)?;
                (threshold, listed, around) = (token.value, 0, string.brackets.0);
            }
            Kind::Literal | Kind::Name | Kind::Word | Kind::Dollar if !continued => {
                occurrences += 1;
                listed += 1;
                demand(occurrences <= limits::LICENSEES, LIMIT, token)?;
            }
            Kind::Close if string.brackets.0 == around => {
                demand(threshold <= listed, NUMBER, token)?;
                threshold = 0;
            }
            _ => {}
        }
        continued = match token.kind {
            Kind::Dot | Kind::Dollar => true,
            Kind::Open => continued,
            _ => false,
        };
    }
    Ok(())
}

/// The limits on the tokens of string expressions outside Conditions.
#[derive(Default)]
struct StringLimits {
    brackets: Brackets,
    prefixes: usize,
}

impl StringLimits {
    fn count(&mut self, token: &Token) -> Result<(), Fault> {
        self.prefixes = if token.kind == Kind::Dollar { self.prefixes + 1 } else { 0 };
        demand(self.prefixes <= limits::PREFIXES, LIMIT, token)?;
        self.brackets.count(token)?;
        literal_bytes(token)
    }
}

fn conditions(tokens: &[Token]) -> Result<(), Fault> {
    let mut brackets = Brackets::default();
    let mut prefixes = 0;
    let mut behind_operand = false;
    for token in tokens {
        let prefix = match token.kind {
            Kind::Not | Kind::At | Kind::Dollar | Kind::Ampersand => true,
            Kind::Minus => !behind_operand,
            _ => false,
        };
        prefixes = if prefix { prefixes + 1 } else { 0 };
        demand(prefixes <= limits::PREFIXES, LIMIT, token)?;
        brackets.count(token)?;
        match token.kind {
            Kind::Digits => integer(token)?,
            Kind::Literal => literal_bytes(token)?,
            Kind::Float => demand(float_digits(token) <= limits::FLOAT_DIGITS, LIMIT, token)?,
            _ => {}
        }
        behind_operand =
            matches!(token.kind, Kind::Digits | Kind::Literal | Kind::Name | Kind::Word | Kind::Float | Kind::Close);
    }
    Ok(())
}

fn integer(token: &Token) -> Result<(), Fault> {
    demand(token.value <= limits::INTEGER_LITERAL, NUMBER, token)
}

/// All but the point.
fn float_digits(token: &Token) -> usize {
    usize::from(token.end - token.start) - 1
}

fn literal_bytes(token: &Token) -> Result<(), Fault> {
    let within = token.kind != Kind::Literal || token.value as usize <= limits::LITERAL_BYTES;
    demand(within, LIMIT, token)
}

fn literal_is(text: &[u8], token: &Token, wanted: &[u8]) -> bool {
    if token.value as usize != wanted.len() {
        return false;
    }
    if token.is_plain() {
        return &text[token.place() + 1..][..wanted.len()] == wanted;
    }
    let mut value = Vec::new();
    literal::decode(text, token.place(), &mut value);
    value == wanted
}

fn demand(fine: bool, reason: u8, token: &Token) -> Result<(), Fault> {
    if fine {
        Ok(())
    } else {
        Err(Fault { place: token.place(), reason })
    }
}

/// The number of brackets open in a field.
#[derive(Default)]
struct Brackets(usize);

impl Brackets {
    fn count(&mut self, token: &Token) -> Result<(), Fault> {
        match token.kind {
            Kind::Open | Kind::OpenCurly => self.0 += 1,
            Kind::Close | Kind::CloseCurly => self.0 = self.0.saturating_sub(1),
            _ => {}
        }
        demand(self.0 <= limits::BRACKETS, LIMIT, token)
    }
}
