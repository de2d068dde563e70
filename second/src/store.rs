//! What formed texts and kept assertions hold, in postfix order, in rows shared by a query.

use crate::literal;
use crate::record::Query;
use crate::token::Token;

/// Where bytes lie.
#[derive(Clone, Copy, Debug, PartialEq, Eq)]
enum Room {
    Record,
    /// Among the decoded literals.
    Decoded,
    /// Among the identifiers that the query gives.
    Identifiers,
}

/// Bytes that lie in one of the rooms.
#[derive(Clone, Copy, Debug, PartialEq, Eq)]
pub struct Piece {
    start: u32,
    length: u16,
    room: Room,
}

impl Piece {
    pub const EMPTY: Piece = Piece { start: 0, length: 0, room: Room::Record };

    fn new(start: usize, length: usize, room: Room) -> Self {
        Self { start: start as u32, length: length as u16, room }
    }
}

#[derive(Clone, Copy, Debug, PartialEq, Eq)]
pub enum Comparison {
    Equal,
    Unequal,
    Less,
    Greater,
    AtMost,
    AtLeast,
}

/// An operation on two floats.
#[derive(Clone, Copy, Debug, PartialEq, Eq, PartialOrd, Ord)]
pub enum Operation {
    Add,
    Subtract,
    Multiply,
    Divide,
    Power,
}

/// A step of Conditions, or of an expression for an identifier. Operands stand before their operator. The ends are
/// places among the nodes.
#[derive(Clone, Copy, Debug, PartialEq)]
pub enum Node {
    Text(Piece),
    Name(Piece),
    Integer(i32),
    Float(f32),
    Truth(bool),
    Dereference,
    ToInteger,
    ToFloat,
    Join,
    Negate,
    Add,
    Subtract,
    Multiply,
    Divide,
    Remainder,
    Power,
    NegateFloat,
    CalculateFloats(Operation),
    CompareTexts(Comparison),
    CompareIntegers(Comparison),
    /// An ordering: equality of floats is no test.
    CompareFloats(Comparison),
    /// Whether a string matches a pattern.
    Match,
    Not,
    /// Between the two sides: a false left side decides.
    And {
        end: u32,
    },
    /// Between the two sides: a true left side decides.
    Or {
        end: u32,
    },
    /// A clause begins; a test that fails, and any error, leads to its end.
    Clause {
        end: u32,
    },
    /// The test is computed.
    Holds,
    /// The clause has no value.
    Top,
    /// The clause's value is computed.
    Value,
}

/// A step of Licensees.
#[derive(Clone, Copy, Debug, PartialEq, Eq)]
pub enum Licence {
    Principal,
    And,
    Or,
    Threshold { least: u8, listed: u8 },
}

#[derive(Clone, Copy, Debug)]
pub struct Constant {
    pub name: Piece,
    pub value: Piece,
}

/// A part of one of the rows.
#[derive(Clone, Copy, Debug, Default, PartialEq, Eq)]
pub struct Row {
    pub first: u32,
    pub last: u32,
}

impl Row {
    pub fn new(first: usize, last: usize) -> Self {
        Self { first: first as u32, last: last as u32 }
    }

    pub fn of<T>(self, row: &[T]) -> &[T] {
        &row[self.first as usize..self.last as usize]
    }
}

/// A string expression where a principal stands.
#[derive(Clone, Copy, Debug, PartialEq, Eq)]
pub struct Expression {
    pub nodes: Row,
    /// Its first token that is no bracket.
    pub place: usize,
}

/// A text that is well formed, whatever its expressions for identifiers give.
#[derive(Clone, Copy, Debug)]
pub struct Formed {
    pub authorizer: Expression,
    /// The constants that Authorizer sees.
    pub authorizer_constants: Row,
    pub licensees: Option<FormedLicensees>,
    pub conditions: Option<Row>,
    /// The constants that Conditions sees.
    pub constants: Row,
}

#[derive(Clone, Copy, Debug)]
pub struct FormedLicensees {
    pub licences: Row,
    pub expressions: Row,
    /// The constants that Licensees sees.
    pub constants: Row,
}

/// An assertion that is kept.
#[derive(Clone, Copy, Debug)]
pub struct Assertion {
    pub authorizer: Piece,
    pub licensees: Option<Licensees>,
    pub conditions: Option<Row>,
    /// The constants that Conditions sees.
    pub constants: Row,
}

#[derive(Clone, Copy, Debug)]
pub struct Licensees {
    pub licences: Row,
    pub principals: Row,
}

pub struct Store {
    pub decoded: Vec<u8>,
    pub nodes: Vec<Node>,
    pub licences: Vec<Licence>,
    /// The expressions of Licensees, of every text that is formed.
    pub expressions: Vec<Expression>,
    pub constants: Vec<Constant>,
    /// The identifiers of Licensees, of every assertion that is kept.
    pub principals: Vec<Piece>,
    /// Identifiers that lie neither in the record nor among the literals.
    pub identifiers: Vec<u8>,
}

/// How far the rows are filled.
#[derive(Clone, Copy)]
pub struct Mark {
    decoded: usize,
    nodes: usize,
    licences: usize,
    expressions: usize,
    constants: usize,
}

impl Default for Store {
    /// Empty rows with room for a query of common size.
    fn default() -> Self {
        Self {
            decoded: Vec::new(),
            nodes: Vec::with_capacity(64),
            licences: Vec::with_capacity(16),
            expressions: Vec::with_capacity(16),
            constants: Vec::new(),
            principals: Vec::with_capacity(16),
            identifiers: Vec::new(),
        }
    }
}

impl Store {
    pub fn mark(&self) -> Mark {
        Mark {
            decoded: self.decoded.len(),
            nodes: self.nodes.len(),
            licences: self.licences.len(),
            expressions: self.expressions.len(),
            constants: self.constants.len(),
        }
    }

    /// Drops what was added since the mark.
    pub fn back(&mut self, mark: Mark) {
        self.decoded.truncate(mark.decoded);
        self.nodes.truncate(mark.nodes);
        self.licences.truncate(mark.licences);
        self.expressions.truncate(mark.expressions);
        self.constants.truncate(mark.constants);
    }

    /// The value of a literal; one with escapes is decoded here.
    pub fn literal(&mut self, text: &[u8], base: usize, token: &Token) -> Piece {
        let length = token.value as usize;
        if token.is_plain() {
            return Piece::new(base + token.place() + 1, length, Room::Record);
        }
        let start = self.decoded.len();
        literal::decode(text, token.place(), &mut self.decoded);
        Piece::new(start, length, Room::Decoded)
    }

    /// An identifier by its place among those that the query gives.
    pub fn identifier(start: usize, length: usize) -> Piece {
        Piece::new(start, length, Room::Identifiers)
    }

    /// A name as it stands in the record.
    pub fn name(base: usize, token: &Token) -> Piece {
        Piece::new(base + token.place(), usize::from(token.end - token.start), Room::Record)
    }

    /// Shows a piece where it lies.
    pub fn show<'a>(&'a self, query: &Query<'a>, piece: Piece) -> &'a [u8] {
        let room: &'a [u8] = match piece.room {
            Room::Record => query.record,
            Room::Decoded => &self.decoded,
            Room::Identifiers => &self.identifiers,
        };
        let start = piece.start as usize;
        &room[start..start + usize::from(piece.length)]
    }
}
