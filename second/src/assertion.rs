//! An assertion text, read without the query: formed, with its contents, or set
//! aside with reason and place.

use crate::check::{self, Settings, STANDING};
use crate::earley;
use crate::grammar;
use crate::licence;
use crate::line::{Fault, Field, Label, Listing, GRAMMAR};
use crate::parse;
use crate::record::Statement;
use crate::store::{Constant, Formed, FormedLicensees, Row, Store};
use crate::token::{Kind, Token};

/// The standing of an assertion that nobody verified.
const UNVERIFIED: u8 = 0;

/// Reads a text to its end. The listing is room for its tokens.
pub fn read(statement: &Statement, listing: &mut Listing, store: &mut Store) -> Result<Formed, Fault> {
    if statement.standing == UNVERIFIED {
        return Err(Fault { place: 0, reason: STANDING });
    }
    listing.list(statement.text);
    let mut settings = Settings::new(statement.text);
    let checked = check::first_fault(listing, &mut settings);
    let found = [listing.fault, checked].into_iter().flatten().min();
    if found.is_none() {
        let mark = store.mark();
        let builder = Builder { statement, listing, settings: &settings };
        if let Some(formed) = builder.formed(store) {
            return Ok(formed);
        }
        store.back(mark);
    }
    let grammar = misfit(listing, found.map_or(usize::MAX, |fault| fault.place));
    let earliest = grammar.into_iter().chain(found).min();
    Err(earliest.expect("a text without a tree has a fault"))
}

/// The fault of reason 2, if there is one up to the place.
fn misfit(listing: &Listing, most: usize) -> Option<Fault> {
    listing.fields.iter().find_map(|field| field_misfit(listing, field, most))
}

fn field_misfit(listing: &Listing, field: &Field, most: usize) -> Option<Fault> {
    let grammar = grammar::of(field.label)?;
    let tokens = listing.tokens_of(field);
    let within = tokens.iter().take_while(|token| token.place() <= most).count();
    let ended = within == tokens.len() && field.end.is_some_and(|end| end <= most);
    let kinds = tokens[..within].iter().map(|token| token.kind);
    let index = earley::first_misfit(grammar, kinds, ended)?;
    let place = tokens.get(index).map(Token::place).or(field.end)?;
    Some(Fault { place, reason: GRAMMAR })
}

/// Builds what a text without other faults holds; nothing if reason 2 applies.
struct Builder<'a> {
    statement: &'a Statement<'a>,
    listing: &'a Listing,
    settings: &'a Settings<'a>,
}

impl Builder<'_> {
    fn formed(&self, store: &mut Store) -> Option<Formed> {
        let (text, base) = (self.statement.text, self.statement.start);
        let mut authorizer = None;
        let mut licensees = None;
        let mut conditions = None;
        let mut seen = Row::default();
        let mut constants = Row::default();
        for field in self.listing.fields.iter() {
            let tokens = self.listing.tokens_of(field);
            match field.label {
                Label::Comment => {}
                Label::Version => {
                    only(tokens, |token| matches!(token.kind, Kind::Literal | Kind::Digits))?;
                }
                Label::Signature => {
                    only(tokens, |token| token.kind == Kind::Literal)?;
                }
                Label::Constants => constants = self.constants(tokens, store)?,
                Label::Authorizer => authorizer = Some((licence::authorizer(text, base, tokens, store)?, constants)),
                Label::Licensees => licensees = Some(self.licensees(tokens, constants, store)?),
                Label::Conditions => {
                    seen = constants;
                    conditions = Some(self.conditions(tokens, store)?);
                }
            }
        }
        let (authorizer, authorizer_constants) = authorizer?;
        Some(Formed { authorizer, authorizer_constants, licensees, conditions, constants: seen })
    }

    fn constants(&self, tokens: &[Token], store: &mut Store) -> Option<Row> {
        let first = store.constants.len();
        let assignment = |tokens: &[Token]| match tokens {
            [name, assign, value] => is_name(name) && assign.kind == Kind::Assign && value.kind == Kind::Literal,
            _ => false,
        };
        if !tokens.chunks(3).all(assignment) {
            return None;
        }
        for setting in self.settings.list.iter() {
            let name = Store::name(self.statement.start, &setting.name);
            let value = store.literal(self.statement.text, self.statement.start, &setting.value?);
            store.constants.push(Constant { name, value });
        }
        Some(Row::new(first, store.constants.len()))
    }

    fn licensees(&self, tokens: &[Token], constants: Row, store: &mut Store) -> Option<FormedLicensees> {
        let licences = store.licences.len();
        let expressions = store.expressions.len();
        if !tokens.is_empty() {
            licence::licensees(self.statement.text, self.statement.start, tokens, store)?;
        }
        Some(FormedLicensees {
            licences: Row::new(licences, store.licences.len()),
            expressions: Row::new(expressions, store.expressions.len()),
            constants,
        })
    }

    fn conditions(&self, tokens: &[Token], store: &mut Store) -> Option<Row> {
        let first = store.nodes.len();
        parse::conditions(self.statement.text, self.statement.start, tokens, store)?;
        Some(Row::new(first, store.nodes.len()))
    }
}

/// The one token of a field, if it is of a kind that may stand there.
fn only(tokens: &[Token], permitted: fn(&Token) -> bool) -> Option<&Token> {
    match tokens {
        [token] if permitted(token) => Some(token),
        _ => None,
    }
}

fn is_name(token: &Token) -> bool {
    matches!(token.kind, Kind::Name | Kind::Word)
}
