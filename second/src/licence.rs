//! The trees of Authorizer and Licensees, written in postfix order, by binding
//! strength. A bracket is the string's or the licensees', as what it holds is. No
//! tree means that something in the field is wrong, not what.

use crate::limits;
use crate::store::{Expression, Licence, Node, Row, Store};
use crate::token::{Kind, Token};

/// What has been read.
#[derive(Clone, Copy)]
enum Part {
    /// A string expression, which may still be continued.
    Text(Expression),
    /// Licensees.
    Licence,
}

// Binding strengths, weakest first.
const OR: u8 = 1;
const AND: u8 = 2;
const JOIN: u8 = 3;
const PREFIX: u8 = 4;

fn strength(kind: Kind) -> Option<u8> {
    Some(match kind {
        Kind::Or => OR,
        Kind::And => AND,
        Kind::Dot => JOIN,
        _ => return None,
    })
}

/// Writes the tree of an Authorizer field into the store.
pub fn authorizer(text: &[u8], base: usize, tokens: &[Token], store: &mut Store) -> Option<Expression> {
    let mut parser = Parser { text, base, tokens, at: 0, brackets: 0, prefixes: 0, store };
    let expression = parser.text(JOIN)?;
    parser.peek().is_none().then_some(expression)
}

/// Writes the tree of a Licensees field that has tokens into the store.
pub fn licensees(text: &[u8], base: usize, tokens: &[Token], store: &mut Store) -> Option<()> {
    let mut parser = Parser { text, base, tokens, at: 0, brackets: 0, prefixes: 0, store };
    let all = parser.part(OR)?;
    parser.license(all);
    parser.peek().is_none().then_some(())
}

struct Parser<'a> {
    text: &'a [u8],
    base: usize,
    tokens: &'a [Token],
    at: usize,
    brackets: usize,
    prefixes: usize,
    store: &'a mut Store,
}

impl Parser<'_> {
    /// A part whose operators bind at least as strongly as `least`.
    fn part(&mut self, least: u8) -> Option<Part> {
        let mut left = self.operand()?;
        while let Some(kind) = self.peek() {
            match strength(kind) {
                Some(strength) if strength >= least => {
                    self.at += 1;
                    left = self.binary(kind, left, strength + 1)?;
                }
                _ => break,
            }
        }
        Some(left)
    }

    /// A part that is a string expression.
    fn text(&mut self, least: u8) -> Option<Expression> {
        match self.part(least)? {
            Part::Text(expression) => Some(expression),
            Part::Licence => None,
        }
    }

    fn binary(&mut self, kind: Kind, left: Part, least: u8) -> Option<Part> {
        if kind == Kind::Dot {
            let Part::Text(front) = left else { return None };
            self.text(least)?;
            self.store.nodes.push(Node::Join);
            return Some(self.expression(front));
        }
        self.license(left);
        let right = self.part(least)?;
        self.license(right);
        self.store.licences.push(if kind == Kind::And { Licence::And } else { Licence::Or });
        Some(Part::Licence)
    }

    /// A string expression that stands by itself is a licensee.
    fn license(&mut self, part: Part) {
        if let Part::Text(expression) = part {
            self.store.expressions.push(expression);
            self.store.licences.push(Licence::Principal);
        }
    }

    fn operand(&mut self) -> Option<Part> {
        let token = *self.tokens.get(self.at)?;
        self.at += 1;
        let first = self.store.nodes.len();
        let begun = Expression { nodes: Row::new(first, first), place: token.place() };
        if token.kind == Kind::Dollar {
            self.prefixes += 1;
            if self.prefixes > limits::PREFIXES {
                return None;
            }
            self.text(PREFIX)?;
            self.store.nodes.push(Node::Dereference);
            return Some(self.expression(begun));
        }
        self.prefixes = 0;
        match token.kind {
            Kind::Open => {
                self.open()?;
                let inner = self.part(OR)?;
                self.close()?;
                Some(inner)
            }
            Kind::Digits => self.threshold(u8::try_from(token.value).ok()?),
            Kind::Literal => {
                let piece = self.store.literal(self.text, self.base, &token);
                self.store.nodes.push(Node::Text(piece));
                Some(self.expression(begun))
            }
            Kind::Name | Kind::Word => {
                self.store.nodes.push(Node::Name(Store::name(self.base, &token)));
                Some(self.expression(begun))
            }
            _ => None,
        }
    }

    /// An expression that was begun, with all nodes up to here.
    fn expression(&self, begun: Expression) -> Part {
        let nodes = Row::new(begun.nodes.first as usize, self.store.nodes.len());
        Part::Text(Expression { nodes, ..begun })
    }

    fn threshold(&mut self, least: u8) -> Option<Part> {
        self.expect(Kind::Of)?;
        self.expect(Kind::Open)?;
        self.open()?;
        let mut listed = 0;
        loop {
            let one = self.text(JOIN)?;
            self.license(Part::Text(one));
            listed += 1;
            if self.expect(Kind::Comma).is_none() {
                break;
            }
        }
        self.store.licences.push(Licence::Threshold { least, listed });
        self.close()?;
        Some(Part::Licence)
    }

    fn open(&mut self) -> Option<()> {
        self.brackets += 1;
        (self.brackets <= limits::BRACKETS).then_some(())
    }

    fn close(&mut self) -> Option<()> {
        self.brackets -= 1;
        self.expect(Kind::Close)
    }

    fn peek(&self) -> Option<Kind> {
        self.tokens.get(self.at).map(|token| token.kind)
    }

    fn expect(&mut self, kind: Kind) -> Option<()> {
        let found = self.peek() == Some(kind);
        self.at += usize::from(found);
        found.then_some(())
    }
}
