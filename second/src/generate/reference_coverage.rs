//! What the principals of a run that stand by reference have met.

use std::collections::BTreeMap;
use std::fmt;

use crate::check::{IDENTIFIER, LIMIT, NUMBER, POLICY, STANDING};
use crate::environment::Environment;
use crate::eval::Evaluator;
use crate::limits;
use crate::line::{Fault, Label, Listing, GRAMMAR};
use crate::reach;
use crate::record::{Query, Statement};
use crate::store::{Expression, Formed, Licence, Node, Row};
use crate::token::{Kind, Token};
use crate::Reading;

#[derive(Clone, Debug, Default, PartialEq, Eq)]
pub struct ReferenceCoverage {
    pub kinds: BTreeMap<&'static str, u64>,
}

/// What the expressions of assertions that are kept must meet, in Authorizer and
/// in Licensees.
const KEPT: [(&str, &str); 11] = [
    ("Authorizer by an attribute", "licensee by an attribute"),
    ("Authorizer by a constant", "licensee by a constant"),
    ("Authorizer by a constant that hides an attribute", "licensee by a constant that hides an attribute"),
    ("Authorizer by an attribute that a later constant has", "licensee by an attribute that a later constant has"),
    ("Authorizer by a special name", "licensee by a special name"),
    ("Authorizer by \"$\"", "licensee by \"$\""),
    ("Authorizer by \"$$\"", "licensee by \"$$\""),
    ("Authorizer by joining", "licensee by joining"),
    ("Authorizer in brackets", "licensee in brackets"),
    ("Authorizer of 256 bytes by reference", "licensee of 256 bytes by reference"),
    ("Authorizer POLICY by reference", "licensee POLICY by reference"),
];

/// What assertions that are kept must meet.
const KEPT_ONES: [&str; 6] = [
    "16 licensees of more than 16 literals and names",
    "K-of by reference",
    "a bracket around a part of a joined string",
    "a bracket in front of a joined string",
    "a rank by reference",
    "a credential by reference",
];

/// What queries must meet.
const QUERIES: [&str; 2] = ["3,200 licensees by reference", "over 65,535 bytes of identifiers by reference"];

/// What texts that are set aside in this query must meet.
const IN_QUERY: [&str; 24] = [
    "10 at an empty Authorizer",
    "10 at a long Authorizer",
    "10 at an Authorizer that is an error",
    "10 at an empty licensee",
    "10 at a long licensee",
    "10 at a licensee that is an error",
    "10 at a literal",
    "10 at a name",
    "10 at \"$\"",
    "10 behind a bracket",
    "10 in a K-of list",
    "10 at a licensee that isn't the first",
    "10 at 257 bytes",
    "10 where Conditions are 0",
    "10 outside the reach",
    "10 at Authorizer before a wrong licensee",
    "10 at a licensee before a wrong Authorizer",
    "9 at a literal",
    "9 at a name",
    "9 at \"$\"",
    "9 behind a bracket",
    "9 at a joined string",
    "9 before a wrong licensee",
    "10 at a licensee before POLICY in a credential",
];

/// What texts that are set aside in every query must meet.
const IN_EVERY_QUERY: [&str; 26] = [
    "17th licensee at a literal",
    "17th licensee at a name",
    "17th licensee at \"$\"",
    "17th licensee behind a bracket",
    "17th licensee in a K-of list",
    "17th \"$\" in Authorizer",
    "17th \"$\" in Licensees",
    "17th bracket in Authorizer",
    "17th bracket in Licensees",
    "literal of 2,049 bytes or more in Authorizer",
    "literal of 2,049 bytes or more in Licensees",
    "K above a list with joined strings",
    "K above a list with brackets inside",
    "\".\" behind licensees in brackets",
    "operator in a string's bracket",
    "K-of in a string",
    "number in Authorizer",
    "operator in Authorizer",
    "bracket not closed in Authorizer",
    "string not ended in Authorizer",
    "string not ended in Licensees",
    "reason 1 to 7 behind an empty Authorizer",
    "reason 1 to 7 behind POLICY in a credential",
    "reason 1 to 7 behind an empty licensee",
    "reason 1 to 7 before an empty Authorizer",
    "reason 1 to 7 before POLICY in a credential",
];

/// How an expression comes out in a query.
#[derive(Clone, Copy, PartialEq, Eq)]
enum Value {
    Policy,
    Fine { length: usize },
    Empty,
    Long { length: usize },
    Error,
}

impl Value {
    fn wrong(self) -> bool {
        !matches!(self, Self::Policy | Self::Fine { .. })
    }
}

/// An expression with its value.
struct Seen {
    expression: Expression,
    constants: Row,
    value: Value,
}

impl ReferenceCoverage {
    /// Counts what the texts of a query hold and meet.
    pub fn count(&mut self, query: &Query, reading: &Reading) {
        let environment = Environment::new(query, &reading.store);
        let mut evaluator = Evaluator::new(&environment);
        let reach = reach::of(query, reading);
        let referred = |expression: &&Expression| {
            let nodes = expression.nodes.of(&reading.store.nodes);
            nodes.iter().any(|node| matches!(node, Node::Name(_)))
        };
        let licensees = reading.store.expressions.iter().filter(referred).count();
        self.met(licensees == limits::ASSERTIONS.most * limits::LICENSEES, QUERIES[0]);
        self.met(reading.store.identifiers.len() > limits::RECORD_BYTES, QUERIES[1]);
        let texts = query.statements.iter().zip(&reading.formed).zip(&reading.faults);
        for ((statement, formed), fault) in texts {
            let mut listing = Listing::new();
            listing.list(statement.text);
            let mut text = Text { query, reading, statement, listing: &listing, coverage: self };
            let Some(formed) = formed else {
                if let Some(fault) = fault.filter(|_| statement.standing != 0) {
                    text.in_every_query(fault);
                }
                continue;
            };
            let mut seen = |expression: Expression, constants: Row| {
                let value = match evaluator.string(expression.nodes, constants) {
                    Err(_) => Value::Error,
                    Ok(POLICY) => Value::Policy,
                    Ok(bytes) => match bytes.len() {
                        0 => Value::Empty,
                        length if length <= limits::PRINCIPAL_BYTES.most => Value::Fine { length },
                        length => Value::Long { length },
                    },
                };
                Seen { expression, constants, value }
            };
            let authorizer = seen(formed.authorizer, formed.authorizer_constants);
            let licensees: Vec<Seen> = formed.licensees.map_or(Vec::new(), |fields| {
                let all = fields.expressions.of(&reading.store.expressions);
                all.iter().map(|expression| seen(*expression, fields.constants)).collect()
            });
            match fault {
                None => text.kept(formed, &authorizer, &licensees),
                Some(fault) => {
                    let unreached = match authorizer.value {
                        Value::Policy | Value::Fine { .. } => {
                            let name = evaluator.string(formed.authorizer.nodes, formed.authorizer_constants);
                            !reach.holds(name.expect("an identifier"))
                        }
                        _ => false,
                    };
                    text.in_query(*fault, formed, &authorizer, &licensees, unreached);
                }
            }
        }
    }

    fn met(&mut self, met: bool, what: &'static str) {
        if met {
            *self.kinds.entry(what).or_default() += 1;
        }
    }

    /// Adds what another run met.
    pub fn merge(&mut self, other: &Self) {
        for (kind, count) in &other.kinds {
            *self.kinds.entry(kind).or_default() += count;
        }
    }

    pub fn missing(&self) -> Vec<String> {
        let kept = KEPT.iter().flat_map(|(authorizer, licensee)| [authorizer, licensee]);
        let all = kept.chain(&KEPT_ONES).chain(&QUERIES).chain(&IN_QUERY).chain(&IN_EVERY_QUERY);
        all.filter(|what| !self.kinds.contains_key(**what)).map(|what| what.to_string()).collect()
    }
}

/// A text whose principals are looked at.
struct Text<'a> {
    query: &'a Query<'a>,
    reading: &'a Reading,
    statement: &'a Statement<'a>,
    listing: &'a Listing,
    coverage: &'a mut ReferenceCoverage,
}

impl Text<'_> {
    fn kept(&mut self, formed: &Formed, authorizer: &Seen, licensees: &[Seen]) {
        self.kept_expression(authorizer, false);
        licensees.iter().for_each(|licensee| self.kept_expression(licensee, true));
        let literals: usize = licensees.iter().map(|licensee| self.operands(licensee)).sum();
        let listed = formed.licensees.is_some_and(|fields| {
            let licences = fields.licences.of(&self.reading.store.licences);
            licences.iter().any(|licence| matches!(licence, Licence::Threshold { .. }))
        });
        let referred = |seen: &Seen| self.nodes(seen).iter().any(|node| matches!(node, Node::Name(_)));
        let [by, to] = [referred(authorizer), licensees.iter().any(referred)];
        let joined = |front: bool| {
            licensees.iter().chain([authorizer]).any(|seen| {
                let bracket = if front { self.before(seen) == Some(Kind::Open) } else { self.inner_bracket(seen) };
                bracket && self.nodes(seen).contains(&Node::Join)
            })
        };
        let facts = [
            licensees.len() == limits::LICENSEES && literals > limits::LICENSEES,
            listed && to,
            joined(false),
            joined(true),
            authorizer.value == Value::Policy && to,
            self.statement.standing == 2 && by,
        ];
        for (what, met) in KEPT_ONES.into_iter().zip(facts) {
            self.coverage.met(met, what);
        }
    }

    fn kept_expression(&mut self, seen: &Seen, licensee: bool) {
        let store = &self.reading.store;
        let nodes = self.nodes(seen);
        let names: Vec<&[u8]> = nodes.iter().filter_map(|node| self.name(node)).collect();
        let constant = |name: &[u8]| {
            seen.constants.of(&store.constants).iter().any(|constant| store.show(self.query, constant.name) == name)
        };
        let attribute = |name: &[u8]| self.query.attributes.iter().any(|attribute| attribute.name == name);
        let later = |name: &[u8]| {
            let field = self.listing.field(Label::Constants);
            let tokens = field.map_or(&[][..], |field| self.listing.tokens_of(field));
            !constant(name) && tokens.iter().any(|token| token.spelling(self.statement.text) == name)
        };
        let dereferences = nodes.iter().filter(|node| **node == Node::Dereference).count();
        let by_reference = !matches!(nodes, [Node::Text(_)]);
        let long = seen.value == (Value::Fine { length: limits::PRINCIPAL_BYTES.most });
        let facts = [
            names.iter().any(|name| attribute(name) && !constant(name)),
            names.iter().any(|name| constant(name)),
            names.iter().any(|name| constant(name) && attribute(name)),
            names.iter().any(|name| attribute(name) && later(name)),
            names.iter().any(|name| name[0] == b'_'),
            dereferences == 1,
            nodes.windows(2).any(|pair| pair == [Node::Dereference, Node::Dereference]),
            nodes.contains(&Node::Join),
            self.before(seen) == Some(Kind::Open),
            long && by_reference,
            seen.value == Value::Policy && by_reference,
        ];
        for ((authorizer, of_licensee), met) in KEPT.into_iter().zip(facts) {
            self.coverage.met(met, if licensee { of_licensee } else { authorizer });
        }
    }

    fn in_query(&mut self, fault: Fault, formed: &Formed, authorizer: &Seen, licensees: &[Seen], unreached: bool) {
        let at_authorizer = fault.place == authorizer.expression.place;
        let place = licensees.iter().position(|licensee| licensee.expression.place == fault.place);
        let seen = place.map_or(authorizer, |place| &licensees[place]);
        let token = self.token(fault.place).kind;
        let wrong_licensee = licensees.iter().any(|licensee| licensee.value.wrong());
        let ten = fault.reason == IDENTIFIER;
        let nine = fault.reason == STANDING;
        let lowest = formed.conditions.is_some_and(|row| {
            let nodes = row.of(&self.reading.store.nodes);
            nodes.is_empty() || matches!(nodes, [_, Node::Truth(false), ..])
        });
        let value = |at: bool, value: Value| match value {
            Value::Empty => [at, false, false],
            Value::Long { .. } => [false, at, false],
            Value::Error => [false, false, at],
            _ => [false; 3],
        };
        let [a0, a1, a2] = value(ten && at_authorizer, seen.value);
        let [l0, l1, l2] = value(ten && !at_authorizer, seen.value);
        let facts = [
            a0,
            a1,
            a2,
            l0,
            l1,
            l2,
            ten && token == Kind::Literal,
            ten && matches!(token, Kind::Name | Kind::Word),
            ten && token == Kind::Dollar,
            ten && self.before(seen) == Some(Kind::Open),
            ten && self.in_list(fault.place),
            ten && place.is_some_and(|place| place > 0),
            ten && seen.value == (Value::Long { length: limits::PRINCIPAL_BYTES.most + 1 }),
            ten && lowest,
            ten && unreached,
            ten && at_authorizer && wrong_licensee,
            ten && !at_authorizer && authorizer.value.wrong(),
            nine && token == Kind::Literal,
            nine && matches!(token, Kind::Name | Kind::Word),
            nine && token == Kind::Dollar,
            nine && self.before(seen) == Some(Kind::Open),
            nine && self.nodes(seen).contains(&Node::Join),
            nine && wrong_licensee,
            ten && !at_authorizer && self.statement.standing == 2 && authorizer.value == Value::Policy,
        ];
        for (what, met) in IN_QUERY.into_iter().zip(facts) {
            self.coverage.met(met, what);
        }
    }

    fn in_every_query(&mut self, fault: Fault) {
        let at = self.listing.tokens.iter().position(|token| token.place() == fault.place);
        let label = self.label(fault.place);
        let token = at.map(|at| self.listing.tokens[at]);
        let kind = token.map(|token| token.kind);
        let before = at.filter(|&at| at > 0).map(|at| self.listing.tokens[at - 1].kind);
        let licensees = label == Some(Label::Licensees);
        let authorizer = label == Some(Label::Authorizer);
        let limit = fault.reason == LIMIT;
        let grammar = fault.reason == GRAMMAR;
        let dollars = at.is_some_and(|at| at >= limits::PREFIXES && self.run(at, Kind::Dollar) > limits::PREFIXES);
        let long =
            token.is_some_and(|token| token.kind == Kind::Literal && token.value as usize > limits::LITERAL_BYTES);
        let operand = matches!(kind, Some(Kind::Literal | Kind::Name | Kind::Word | Kind::Dollar));
        let seventeenth = limit && licensees && operand && !dollars && !long;
        let short_list = fault.reason == NUMBER && kind == Some(Kind::Close);
        let list = |wanted: Kind| at.is_some_and(|at| self.list_before(at).iter().any(|token| token.kind == wanted));
        let ended =
            at.is_none() || self.listing.field(Label::Authorizer).is_some_and(|field| field.end == Some(fault.place));
        let cut = |label: Label| {
            let field = self.listing.field(label).filter(|field| field.end == Some(fault.place));
            let tokens = field.map_or(&[][..], |field| self.listing.tokens_of(field));
            let open = tokens.iter().filter(|token| token.kind == Kind::Open).count();
            let closed = tokens.iter().filter(|token| token.kind == Kind::Close).count();
            (
                grammar && open > closed,
                grammar && tokens.last().is_some_and(|token| matches!(token.kind, Kind::Dot | Kind::Dollar)),
            )
        };
        let (open, dangling) = cut(Label::Authorizer);
        let (_, dangling_licensee) = cut(Label::Licensees);
        let operator = matches!(kind, Some(Kind::And | Kind::Or));
        let credential = self.statement.standing == 2;
        let alone = |label: Label, wanted: &dyn Fn(&Token) -> bool| {
            let field = self.listing.field(label);
            let tokens = field.map_or(&[][..], |field| self.listing.tokens_of(field));
            tokens.iter().enumerate().any(|(index, token)| {
                let apart = |token: Option<&Token>| {
                    token.is_none_or(|token| matches!(token.kind, Kind::And | Kind::Or | Kind::Comma))
                };
                let single =
                    apart(index.checked_sub(1).and_then(|index| tokens.get(index))) && apart(tokens.get(index + 1));
                token.kind == Kind::Literal && single && wanted(token)
            })
        };
        let text = self.statement.text;
        let behind = |token: &Token| token.place() < fault.place;
        let empty = |token: &Token| token.value == 0;
        let policy = |token: &Token| credential && token.spelling(text) == b"\"POLICY\"";
        let facts = [
            seventeenth && kind == Some(Kind::Literal),
            seventeenth && matches!(kind, Some(Kind::Name | Kind::Word)),
            seventeenth && kind == Some(Kind::Dollar),
            seventeenth && before == Some(Kind::Open),
            seventeenth && self.in_list(fault.place),
            limit && authorizer && dollars,
            limit && licensees && dollars,
            limit && authorizer && kind == Some(Kind::Open),
            limit && licensees && kind == Some(Kind::Open),
            limit && authorizer && long,
            limit && licensees && long,
            short_list && list(Kind::Dot),
            short_list && list(Kind::Open),
            grammar && licensees && kind == Some(Kind::Dot) && before == Some(Kind::Close),
            grammar && licensees && operator && self.in_string(fault.place),
            grammar && licensees && kind == Some(Kind::Digits) && before == Some(Kind::Dot),
            grammar && authorizer && matches!(kind, Some(Kind::Digits | Kind::Float)),
            grammar && authorizer && operator,
            open && ended,
            dangling,
            dangling_licensee,
            alone(Label::Authorizer, &|token| behind(token) && empty(token)),
            alone(Label::Authorizer, &|token| behind(token) && policy(token)),
            alone(Label::Licensees, &|token| behind(token) && empty(token)),
            alone(Label::Authorizer, &|token| !behind(token) && empty(token)),
            alone(Label::Authorizer, &|token| !behind(token) && policy(token)),
        ];
        for (what, met) in IN_EVERY_QUERY.into_iter().zip(facts) {
            self.coverage.met(met, what);
        }
    }

    fn nodes(&self, seen: &Seen) -> &[Node] {
        seen.expression.nodes.of(&self.reading.store.nodes)
    }

    fn name(&self, node: &Node) -> Option<&[u8]> {
        match node {
            Node::Name(piece) => Some(self.reading.store.show(self.query, *piece)),
            _ => None,
        }
    }

    /// The literals and names of an expression.
    fn operands(&self, seen: &Seen) -> usize {
        self.nodes(seen).iter().filter(|node| matches!(node, Node::Text(_) | Node::Name(_))).count()
    }

    fn index(&self, place: usize) -> usize {
        self.listing.tokens.iter().position(|token| token.place() == place).expect("a token's place")
    }

    fn token(&self, place: usize) -> Token {
        self.listing.tokens[self.index(place)]
    }

    /// The field that a place stands in, if its tokens are listed.
    fn label(&self, place: usize) -> Option<Label> {
        let within =
            |field: &&crate::line::Field| self.listing.tokens_of(field).iter().any(|token| token.place() == place);
        self.listing.fields.iter().find(within).map(|field| field.label)
    }

    /// What stands before an expression's first token that is no bracket, in its field.
    fn before(&self, seen: &Seen) -> Option<Kind> {
        let index = self.index(seen.expression.place);
        let label = self.label(seen.expression.place);
        let before = index.checked_sub(1).map(|index| self.listing.tokens[index])?;
        (self.label(before.place()) == label).then_some(before.kind)
    }

    /// Whether a bracket stands behind "." or "$" in an expression.
    fn inner_bracket(&self, seen: &Seen) -> bool {
        let tokens = &self.listing.tokens[self.index(seen.expression.place)..];
        let end = tokens.iter().position(|token| matches!(token.kind, Kind::And | Kind::Or | Kind::Comma));
        let tokens = &tokens[..end.unwrap_or(tokens.len())];
        tokens.windows(2).any(|pair| matches!(pair[0].kind, Kind::Dot | Kind::Dollar) && pair[1].kind == Kind::Open)
    }

    /// Whether a place stands in a K-of list.
    fn in_list(&self, place: usize) -> bool {
        let tokens = &self.listing.tokens[..self.index(place)];
        let mut lists = Vec::new();
        for (index, token) in tokens.iter().enumerate() {
            match token.kind {
                Kind::Open => lists.push(index > 0 && tokens[index - 1].kind == Kind::Of),
                Kind::Close => {
                    lists.pop();
                }
                _ => {}
            }
        }
        lists.contains(&true)
    }

    /// Whether the innermost bracket around a place is a string's by what stands before it.
    fn in_string(&self, place: usize) -> bool {
        let tokens = &self.listing.tokens[..self.index(place)];
        let mut open = 0;
        for (index, token) in tokens.iter().enumerate().rev() {
            match token.kind {
                Kind::Close => open += 1,
                Kind::Open if open == 0 => {
                    return index > 0 && matches!(tokens[index - 1].kind, Kind::Dot | Kind::Dollar)
                }
                Kind::Open => open -= 1,
                _ => {}
            }
        }
        false
    }

    /// The tokens of the list that a bracket closes, inside its own brackets.
    fn list_before(&self, at: usize) -> &[Token] {
        let of = self.listing.tokens[..at].iter().rposition(|token| token.kind == Kind::Of);
        of.map_or(&[], |of| &self.listing.tokens[of + 2..at])
    }

    /// How many tokens of a kind stand in a row up to here.
    fn run(&self, at: usize, kind: Kind) -> usize {
        self.listing.tokens[..=at].iter().rev().take_while(|token| token.kind == kind).count()
    }
}

impl fmt::Display for ReferenceCoverage {
    fn fmt(&self, formatter: &mut fmt::Formatter) -> fmt::Result {
        write!(formatter, "references {:?}", self.kinds)
    }
}
