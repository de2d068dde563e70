//! Conditions: the rank an assertion's clauses give in a query, and the strings
//! that expressions outside Conditions give.

use std::cmp::Ordering;

use crate::environment::Environment;
use crate::float;
use crate::integer::{self, Error};
use crate::limits;
use crate::pattern;
use crate::store::{Assertion, Comparison, Node, Operation, Row};

/// A value that has been computed and not yet used.
#[derive(Clone, Copy)]
enum Value<'a> {
    /// A string shown where it lies.
    Lent(&'a [u8]),
    /// A joined string, among the bytes that the evaluator has built.
    Built {
        start: usize,
        end: usize,
    },
    Integer(i32),
    Float(f32),
    Truth(bool),
}

/// Room for values, used again for each assertion.
pub struct Evaluator<'a> {
    environment: &'a Environment<'a>,
    constants: Row,
    stack: Vec<Value<'a>>,
    /// The built strings on the stack, one behind the other.
    built: Vec<u8>,
    /// Whether what is met is listed.
    watched: bool,
    met: Met,
}

/// What evaluation met, for those who ask what a run of records covers.
#[derive(Clone, Debug, Default, PartialEq)]
pub struct Met {
    pub patterns: Vec<PatternTest>,
    pub floats: Vec<FloatStep>,
}

/// A step of computing with floats.
#[derive(Clone, Debug, PartialEq)]
pub enum FloatStep {
    Converted { text: Vec<u8>, float: f32 },
    Calculated { operation: Operation, left: f32, right: f32, result: Result<f32, Error> },
    Compared { comparison: Comparison, order: Ordering },
}

/// A pattern test that was met.
#[derive(Clone, Debug, PartialEq, Eq)]
pub struct PatternTest {
    pub pattern: Vec<u8>,
    pub string: Vec<u8>,
    pub found: Result<bool, pattern::Fault>,
}

impl<'a> Evaluator<'a> {
    pub fn new(environment: &'a Environment<'a>) -> Self {
        Self {
            environment,
            constants: Row::default(),
            stack: Vec::new(),
            built: Vec::new(),
            watched: false,
            met: Met::default(),
        }
    }

    /// What an assertion's Conditions meet.
    pub fn met(&mut self, assertion: &Assertion) -> Met {
        self.watched = true;
        self.conditions(assertion);
        self.watched = false;
        std::mem::take(&mut self.met)
    }

    /// The rank of an assertion's Conditions; a missing field is top.
    pub fn conditions(&mut self, assertion: &Assertion) -> u8 {
        let top = self.environment.query.top();
        let Some(row) = assertion.conditions else { return top };
        self.constants = assertion.constants;
        self.run(row, top)
    }

    /// The value of a string expression that stands outside Conditions.
    pub fn string(&mut self, nodes: Row, constants: Row) -> Result<&[u8], Error> {
        self.clear();
        self.constants = constants;
        for &node in nodes.of(&self.environment.store.nodes) {
            self.step(node)?;
        }
        let value = self.stack.pop().expect("a string");
        Ok(match value {
            Value::Lent(bytes) => bytes,
            _ => &self.built,
        })
    }

    /// The maximum over all clauses whose tests hold, nested ones included.
    fn run(&mut self, row: Row, top: u8) -> u8 {
        let nodes = &self.environment.store.nodes;
        let last = row.last as usize;
        let mut at = row.first as usize;
        let mut clause_end = last;
        let mut rank = 0;
        while at < last && rank < top {
            let node = nodes[at];
            at += 1;
            match node {
                Node::Clause { end } => {
                    self.clear();
                    clause_end = end as usize;
                }
                Node::Holds => {
                    if !self.pop_truth() {
                        at = clause_end;
                    }
                }
                Node::Top => rank = top,
                Node::Value => {
                    let value = self.stack.pop().expect("a value");
                    rank = rank.max(self.environment.rank(self.bytes(&value)));
                }
                Node::And { end } => self.decide(false, end, &mut at),
                Node::Or { end } => self.decide(true, end, &mut at),
                _ => {
                    if self.step(node).is_err() {
                        at = clause_end;
                    }
                }
            }
        }
        rank
    }

    /// Past the right side if the left one decides.
    fn decide(&mut self, deciding: bool, end: u32, at: &mut usize) {
        if self.pop_truth() == deciding {
            self.stack.push(Value::Truth(deciding));
            *at = end as usize;
        }
    }

    fn step(&mut self, node: Node) -> Result<(), Error> {
        let environment = self.environment;
        let value = match node {
            Node::Text(piece) => Value::Lent(environment.store.show(environment.query, piece)),
            Node::Name(piece) => {
                let name = environment.store.show(environment.query, piece);
                Value::Lent(environment.lookup(self.constants, name))
            }
            Node::Integer(number) => Value::Integer(number),
            Node::Float(number) => Value::Float(number),
            Node::Truth(truth) => Value::Truth(truth),
            Node::Dereference => {
                let name = self.stack.pop().expect("a name");
                let value = environment.lookup(self.constants, self.bytes(&name));
                self.drop_built(&name);
                Value::Lent(value)
            }
            Node::ToInteger => {
                let text = self.stack.pop().expect("a string");
                let number = integer::from_text(self.bytes(&text));
                self.drop_built(&text);
                Value::Integer(number)
            }
            Node::ToFloat => self.convert(),
            Node::Join => self.join()?,
            Node::Negate => Value::Integer(integer::negate(self.pop_integer())?),
            Node::Add => self.calculate(integer::add)?,
            Node::Subtract => self.calculate(integer::subtract)?,
            Node::Multiply => self.calculate(integer::multiply)?,
            Node::Divide => self.calculate(integer::divide)?,
            Node::Remainder => self.calculate(integer::remainder)?,
            Node::Power => self.calculate(integer::power)?,
            Node::NegateFloat => Value::Float(-self.pop_float()),
            Node::CalculateFloats(operation) => self.calculate_floats(operation)?,
            Node::CompareTexts(comparison) => Value::Truth(self.compare_texts(comparison)),
            Node::CompareIntegers(comparison) => {
                let right = self.pop_integer();
                let left = self.pop_integer();
                Value::Truth(holds(comparison, left.cmp(&right)))
            }
            Node::CompareFloats(comparison) => Value::Truth(self.compare_floats(comparison)),
            Node::Match => Value::Truth(self.match_pattern()?),
            Node::Not => Value::Truth(!self.pop_truth()),
            _ => unreachable!("steps of a clause are taken in run"),
        };
        self.stack.push(value);
        Ok(())
    }

    fn calculate(&mut self, operation: fn(i32, i32) -> Result<i32, Error>) -> Result<Value<'a>, Error> {
        let right = self.pop_integer();
        let left = self.pop_integer();
        operation(left, right).map(Value::Integer)
    }

    /// "&" of the string on top of the stack.
    fn convert(&mut self) -> Value<'a> {
        let text = self.stack.pop().expect("a string");
        let bytes = self.bytes(&text);
        let float = float::from_text(bytes);
        if self.watched {
            let text = bytes.to_vec();
            self.met.floats.push(FloatStep::Converted { text, float });
        }
        self.drop_built(&text);
        Value::Float(float)
    }

    fn calculate_floats(&mut self, operation: Operation) -> Result<Value<'a>, Error> {
        let right = self.pop_float();
        let left = self.pop_float();
        let result = match operation {
            Operation::Add => float::add(left, right),
            Operation::Subtract => float::subtract(left, right),
            Operation::Multiply => float::multiply(left, right),
            Operation::Divide => float::divide(left, right),
            Operation::Power => float::power(left, right),
        };
        if self.watched {
            self.met.floats.push(FloatStep::Calculated { operation, left, right, result });
        }
        result.map(Value::Float)
    }

    /// Zeros of either sign are equal.
    fn compare_floats(&mut self, comparison: Comparison) -> bool {
        let right = self.pop_float();
        let left = self.pop_float();
        let order = left.partial_cmp(&right).expect("errors are no floats");
        if self.watched {
            self.met.floats.push(FloatStep::Compared { comparison, order });
        }
        holds(comparison, order)
    }

    fn compare_texts(&mut self, comparison: Comparison) -> bool {
        let right = self.stack.pop().expect("a right side");
        let left = self.stack.pop().expect("a left side");
        let (first, second) = (self.bytes(&left), self.bytes(&right));
        let truth = match comparison {
            Comparison::Equal => first == second,
            Comparison::Unequal => first != second,
            _ => holds(comparison, first.cmp(second)),
        };
        self.drop_built(&right);
        self.drop_built(&left);
        truth
    }

    /// A pattern that isn't valid is an error.
    fn match_pattern(&mut self) -> Result<bool, Error> {
        let pattern = self.stack.pop().expect("a pattern");
        let string = self.stack.pop().expect("a string");
        let (expression, bytes) = (self.bytes(&pattern), self.bytes(&string));
        let found = pattern::matches(expression, bytes);
        if self.watched {
            let test = PatternTest { pattern: expression.to_vec(), string: bytes.to_vec(), found };
            self.met.patterns.push(test);
        }
        self.drop_built(&pattern);
        self.drop_built(&string);
        found.map_err(|_| Error)
    }

    /// Joins the two strings on top of the stack.
    fn join(&mut self) -> Result<Value<'a>, Error> {
        let right = self.stack.pop().expect("a right side");
        let left = self.stack.pop().expect("a left side");
        let (front, back) = (self.bytes(&left).len(), self.bytes(&right).len());
        if front + back > limits::STRING_BYTES {
            return Err(Error);
        }
        // Built strings lie in stack order, so two of them touch already.
        let start = match (left, right) {
            (Value::Built { start, .. }, _) => start,
            (_, Value::Built { start, .. }) => start,
            _ => self.built.len(),
        };
        if let Value::Lent(bytes) = left {
            if let Value::Built { start, end } = right {
                self.built.extend_from_slice(bytes);
                self.built.copy_within(start..end, start + front);
                self.built[start..start + front].copy_from_slice(bytes);
            } else {
                self.built.extend_from_slice(bytes);
            }
        }
        if let Value::Lent(bytes) = right {
            self.built.extend_from_slice(bytes);
        }
        Ok(Value::Built { start, end: start + front + back })
    }

    fn bytes<'b>(&'b self, value: &Value<'b>) -> &'b [u8] {
        match *value {
            Value::Lent(bytes) => bytes,
            Value::Built { start, end } => &self.built[start..end],
            _ => unreachable!("the grammar keeps types apart"),
        }
    }

    fn drop_built(&mut self, value: &Value) {
        if let Value::Built { start, .. } = *value {
            self.built.truncate(start);
        }
    }

    fn clear(&mut self) {
        self.stack.clear();
        self.built.clear();
    }

    fn pop_integer(&mut self) -> i32 {
        match self.stack.pop() {
            Some(Value::Integer(number)) => number,
            _ => unreachable!("the grammar keeps types apart"),
        }
    }

    fn pop_float(&mut self) -> f32 {
        match self.stack.pop() {
            Some(Value::Float(number)) => number,
            _ => unreachable!("the grammar keeps types apart"),
        }
    }

    fn pop_truth(&mut self) -> bool {
        match self.stack.pop() {
            Some(Value::Truth(truth)) => truth,
            _ => unreachable!("the grammar keeps types apart"),
        }
    }
}

fn holds(comparison: Comparison, order: Ordering) -> bool {
    match comparison {
        Comparison::Equal => order.is_eq(),
        Comparison::Unequal => order.is_ne(),
        Comparison::Less => order.is_lt(),
        Comparison::Greater => order.is_gt(),
        Comparison::AtMost => order.is_le(),
        Comparison::AtLeast => order.is_ge(),
    }
}
