//! The trees of Conditions, written in postfix order, by binding strength. No
//! tree means that something in the field is wrong, not what.

use crate::float;
use crate::limits;
use crate::store::{Comparison, Node, Operation, Store};
use crate::token::{Kind, Token};

/// What an expression is.
#[derive(Clone, Copy)]
enum Type {
    Test,
    Text,
    Integer,
    Float,
    /// A word alone, perhaps in brackets: a test so far, or a name.
    Word {
        node: usize,
        token: usize,
    },
}

// Binding strengths, weakest first.
const OR: u8 = 1;
const AND: u8 = 2;
const NOT: u8 = 3;
const COMPARISON: u8 = 4;
const SUM: u8 = 5;
const PRODUCT: u8 = 6;
const POWER: u8 = 7;
const PREFIX: u8 = 8;

fn strength(kind: Kind) -> Option<u8> {
    Some(match kind {
        Kind::Or => OR,
        Kind::And => AND,
        Kind::Equal | Kind::Unequal | Kind::Match => COMPARISON,
        Kind::Less | Kind::Greater | Kind::AtMost | Kind::AtLeast => COMPARISON,
        Kind::Plus | Kind::Minus | Kind::Dot => SUM,
        Kind::Star | Kind::Slash | Kind::Percent => PRODUCT,
        Kind::Caret => POWER,
        _ => return None,
    })
}

/// Writes the tree of a Conditions field into the store.
pub fn conditions(text: &[u8], base: usize, tokens: &[Token], store: &mut Store) -> Option<()> {
    let mut parser = Conditions { text, base, tokens, at: 0, brackets: 0, prefixes: 0, store };
    parser.program()?;
    parser.peek().is_none().then_some(())
}

struct Conditions<'a> {
    text: &'a [u8],
    base: usize,
    tokens: &'a [Token],
    at: usize,
    brackets: usize,
    prefixes: usize,
    store: &'a mut Store,
}

impl Conditions<'_> {
    /// Clauses up to a closing bracket or the end.
    fn program(&mut self) -> Option<()> {
        while !matches!(self.peek(), None | Some(Kind::CloseCurly)) {
            self.clause()?;
            self.expect(Kind::Semicolon)?;
        }
        Some(())
    }

    fn clause(&mut self) -> Option<()> {
        let clause = self.emit(Node::Clause { end: 0 });
        let test = self.expression(OR)?;
        self.as_test(test)?;
        self.emit(Node::Holds);
        if self.accept(Kind::Arrow) {
            self.value()?;
        } else {
            self.emit(Node::Top);
        }
        let end = self.end();
        self.store.nodes[clause] = Node::Clause { end };
        Some(())
    }

    fn value(&mut self) -> Option<()> {
        if self.accept(Kind::OpenCurly) {
            self.open()?;
            self.program()?;
            return self.close(Kind::CloseCurly);
        }
        let value = self.expression(SUM)?;
        self.as_text(value)?;
        self.emit(Node::Value);
        Some(())
    }

    /// An expression whose operators bind at least as strongly as `least`.
    fn expression(&mut self, least: u8) -> Option<Type> {
        let mut left = self.operand(least)?;
        while let Some(kind) = self.peek() {
            match strength(kind) {
                Some(strength) if strength >= least => {
                    self.at += 1;
                    left = self.binary(kind, left, strength + 1)?;
                }
                _ => break,
            }
        }
        Some(left)
    }

    fn binary(&mut self, kind: Kind, left: Type, least: u8) -> Option<Type> {
        match kind {
            Kind::And | Kind::Or => self.connect(kind, left, least),
            Kind::Dot => {
                self.as_text(left)?;
                let right = self.expression(least)?;
                self.as_text(right)?;
                self.emit(Node::Join);
                Some(Type::Text)
            }
            _ => {
                let right = self.expression(least)?;
                match comparison(kind) {
                    Some(comparison) => self.compare(comparison, left, right),
                    None if kind == Kind::Match => self.pattern(left, right),
                    None => self.calculate(kind, left, right),
                }
            }
        }
    }

    /// "&&" and "||": a node between the sides leads past the right one.
    fn connect(&mut self, kind: Kind, left: Type, least: u8) -> Option<Type> {
        self.as_test(left)?;
        let node = self.emit(Node::Truth(false));
        let right = self.expression(least)?;
        self.as_test(right)?;
        let end = self.end();
        self.store.nodes[node] = match kind {
            Kind::And => Node::And { end },
            _ => Node::Or { end },
        };
        Some(Type::Test)
    }

    fn compare(&mut self, comparison: Comparison, left: Type, right: Type) -> Option<Type> {
        let equality = matches!(comparison, Comparison::Equal | Comparison::Unequal);
        let node = match (left, right) {
            (Type::Integer, Type::Integer) => Node::CompareIntegers(comparison),
            (Type::Float, Type::Float) if !equality => Node::CompareFloats(comparison),
            _ => {
                self.as_text(left)?;
                self.as_text(right)?;
                Node::CompareTexts(comparison)
            }
        };
        self.emit(node);
        Some(Type::Test)
    }

    fn pattern(&mut self, left: Type, right: Type) -> Option<Type> {
        self.as_text(left)?;
        self.as_text(right)?;
        self.emit(Node::Match);
        Some(Type::Test)
    }

    fn calculate(&mut self, kind: Kind, left: Type, right: Type) -> Option<Type> {
        match (left, right) {
            (Type::Integer, Type::Integer) => {
                self.emit(operation(kind));
                Some(Type::Integer)
            }
            (Type::Float, Type::Float) => {
                self.emit(Node::CalculateFloats(float_operation(kind)?));
                Some(Type::Float)
            }
            _ => None,
        }
    }

    /// A prefix operator with its operand, a bracketed expression, or a token
    /// that is an operand by itself.
    fn operand(&mut self, least: u8) -> Option<Type> {
        let index = self.at;
        let token = *self.tokens.get(index)?;
        self.at += 1;
        if matches!(token.kind, Kind::Not | Kind::Minus | Kind::At | Kind::Ampersand | Kind::Dollar) {
            self.prefixes += 1;
            return if self.prefixes > limits::PREFIXES { None } else { self.prefixed(token.kind, least) };
        }
        self.prefixes = 0;
        match token.kind {
            Kind::Open => {
                self.open()?;
                let inner = self.expression(OR)?;
                self.close(Kind::Close)?;
                Some(inner)
            }
            Kind::Literal => {
                let piece = self.store.literal(self.text, self.base, &token);
                self.emit(Node::Text(piece));
                Some(Type::Text)
            }
            Kind::Name => {
                self.emit(Node::Name(Store::name(self.base, &token)));
                Some(Type::Text)
            }
            Kind::Word => {
                let node = self.emit(Node::Truth(token.value == 1));
                Some(Type::Word { node, token: index })
            }
            Kind::Digits => {
                self.emit(Node::Integer(token.value as i32));
                Some(Type::Integer)
            }
            Kind::Float => {
                self.emit(Node::Float(float::literal(token.spelling(self.text))?));
                Some(Type::Float)
            }
            _ => None,
        }
    }

    fn prefixed(&mut self, kind: Kind, least: u8) -> Option<Type> {
        if kind == Kind::Not {
            if least > NOT {
                return None;
            }
            let inner = self.expression(NOT)?;
            self.as_test(inner)?;
            self.emit(Node::Not);
            return Some(Type::Test);
        }
        let inner = self.expression(PREFIX)?;
        let (node, result) = match (kind, inner) {
            (Kind::Minus, Type::Integer) => (Node::Negate, Type::Integer),
            (Kind::Minus, Type::Float) => (Node::NegateFloat, Type::Float),
            (Kind::Minus, _) => return None,
            _ => {
                self.as_text(inner)?;
                match kind {
                    Kind::At => (Node::ToInteger, Type::Integer),
                    Kind::Dollar => (Node::Dereference, Type::Text),
                    _ => (Node::ToFloat, Type::Float),
                }
            }
        };
        self.emit(node);
        Some(result)
    }

    fn as_test(&self, found: Type) -> Option<()> {
        matches!(found, Type::Test | Type::Word { .. }).then_some(())
    }

    /// A word becomes a name.
    fn as_text(&mut self, found: Type) -> Option<()> {
        match found {
            Type::Text => Some(()),
            Type::Word { node, token } => {
                self.store.nodes[node] = Node::Name(Store::name(self.base, &self.tokens[token]));
                Some(())
            }
            _ => None,
        }
    }

    fn open(&mut self) -> Option<()> {
        self.brackets += 1;
        (self.brackets <= limits::BRACKETS).then_some(())
    }

    fn close(&mut self, kind: Kind) -> Option<()> {
        self.brackets -= 1;
        self.expect(kind)
    }

    fn emit(&mut self, node: Node) -> usize {
        self.store.nodes.push(node);
        self.store.nodes.len() - 1
    }

    fn end(&self) -> u32 {
        self.store.nodes.len() as u32
    }

    fn peek(&self) -> Option<Kind> {
        self.tokens.get(self.at).map(|token| token.kind)
    }

    fn accept(&mut self, kind: Kind) -> bool {
        let found = self.peek() == Some(kind);
        self.at += usize::from(found);
        found
    }

    fn expect(&mut self, kind: Kind) -> Option<()> {
        self.accept(kind).then_some(())
    }
}

fn comparison(kind: Kind) -> Option<Comparison> {
    Some(match kind {
        Kind::Equal => Comparison::Equal,
        Kind::Unequal => Comparison::Unequal,
        Kind::Less => Comparison::Less,
        Kind::Greater => Comparison::Greater,
        Kind::AtMost => Comparison::AtMost,
        Kind::AtLeast => Comparison::AtLeast,
        _ => return None,
    })
}

fn operation(kind: Kind) -> Node {
    match kind {
        Kind::Plus => Node::Add,
        Kind::Minus => Node::Subtract,
        Kind::Star => Node::Multiply,
        Kind::Slash => Node::Divide,
        Kind::Percent => Node::Remainder,
        _ => Node::Power,
    }
}

/// "%" has no float form.
fn float_operation(kind: Kind) -> Option<Operation> {
    Some(match kind {
        Kind::Plus => Operation::Add,
        Kind::Minus => Operation::Subtract,
        Kind::Star => Operation::Multiply,
        Kind::Slash => Operation::Divide,
        Kind::Caret => Operation::Power,
        _ => return None,
    })
}
