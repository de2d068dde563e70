//! Patterns of "~=": extended POSIX expressions over bytes.
//!
//! A pattern is read into a tree. The tree is laid out as steps, from its end to
//! its front, so that each step knows what follows it. A search goes back and forth
//! through steps and places of the string; where a step has two ways to go on, it
//! remembers the places at which both were tried.

use crate::limits;

/// What is wrong with a pattern.
#[derive(Clone, Copy, Debug, PartialEq, Eq, PartialOrd, Ord)]
pub enum Fault {
    /// Over 256 bytes.
    Long,
    /// A branch without pieces.
    NoPiece,
    /// A repetition of nothing, of an anchor or of a repetition.
    Repetition,
    /// A group that isn't closed.
    OpenGroup,
    /// A ")" that closes nothing.
    NoGroup,
    /// A "{" without a backslash.
    Curly,
    /// A backslash before another byte, or at the end.
    Escape,
    /// A set that isn't closed.
    OpenSet,
    /// A range whose end is below its start.
    Falling,
    /// A "-" in a set that is neither first nor last nor between two bytes.
    Hyphen,
    /// A "[" in a set before ".", "=" or ":".
    Class,
}

pub const FAULTS: [Fault; 11] = [
    Fault::Long,
    Fault::NoPiece,
    Fault::Repetition,
    Fault::OpenGroup,
    Fault::NoGroup,
    Fault::Curly,
    Fault::Escape,
    Fault::OpenSet,
    Fault::Falling,
    Fault::Hyphen,
    Fault::Class,
];

/// Bytes that a backslash makes ordinary.
pub const SPECIAL: &[u8] = b"^.[$()|*+?{\\";

/// Some of the 256 bytes.
#[derive(Clone, Copy, Debug, Default, PartialEq, Eq)]
pub struct Set([u64; 4]);

impl Set {
    pub fn holds(&self, byte: u8) -> bool {
        self.0[usize::from(byte >> 6)] >> (byte & 63) & 1 == 1
    }

    fn add(&mut self, byte: u8) {
        self.0[usize::from(byte >> 6)] |= 1 << (byte & 63);
    }

    fn others(self) -> Self {
        Self(self.0.map(|word| !word))
    }
}

#[derive(Clone, Copy, Debug, PartialEq, Eq)]
pub enum Repeat {
    Any,
    Some,
    Optional,
}

/// A pattern that is valid.
#[derive(Clone, Debug, PartialEq, Eq)]
pub enum Tree {
    Start,
    End,
    AnyByte,
    Byte(u8),
    Set(Box<Set>),
    Repeat(Repeat, Box<Tree>),
    /// Pieces, one behind the other.
    Pieces(Vec<Tree>),
    /// Branches, of which one matches.
    Branches(Vec<Tree>),
}

/// Reads a pattern.
pub fn read(pattern: &[u8]) -> Result<Tree, Fault> {
    if pattern.len() > limits::PATTERN_BYTES {
        return Err(Fault::Long);
    }
    let mut reader = Reader { pattern, place: 0 };
    let tree = reader.branches()?;
    match reader.peek() {
        None => Ok(tree),
        // Branches end at nothing else.
        Some(_) => Err(Fault::NoGroup),
    }
}

/// Whether a pattern matches somewhere in a string.
pub fn matches(pattern: &[u8], string: &[u8]) -> Result<bool, Fault> {
    Ok(Steps::new(&read(pattern)?).find(string))
}

struct Reader<'p> {
    pattern: &'p [u8],
    place: usize,
}

impl Reader<'_> {
    fn peek(&self) -> Option<u8> {
        self.ahead(0)
    }

    fn ahead(&self, distance: usize) -> Option<u8> {
        self.pattern.get(self.place + distance).copied()
    }

    fn accept(&mut self, byte: u8) -> bool {
        let found = self.peek() == Some(byte);
        self.place += usize::from(found);
        found
    }

    fn branches(&mut self) -> Result<Tree, Fault> {
        let mut branches = vec![self.branch()?];
        while self.accept(b'|') {
            branches.push(self.branch()?);
        }
        Ok(single(branches, Tree::Branches))
    }

    fn branch(&mut self) -> Result<Tree, Fault> {
        let mut pieces = Vec::new();
        while !matches!(self.peek(), None | Some(b'|' | b')')) {
            pieces.push(self.piece()?);
        }
        match (pieces.is_empty(), self.peek(), self.place) {
            (false, ..) => Ok(single(pieces, Tree::Pieces)),
            // A pattern that begins with ")".
            (true, Some(b')'), 0) => Err(Fault::NoGroup),
            _ => Err(Fault::NoPiece),
        }
    }

    fn piece(&mut self) -> Result<Tree, Fault> {
        if self.accept(b'^') {
            return Ok(Tree::Start);
        }
        if self.accept(b'$') {
            return Ok(Tree::End);
        }
        let atom = self.atom()?;
        let repeat = match self.peek() {
            Some(b'*') => Repeat::Any,
            Some(b'+') => Repeat::Some,
            Some(b'?') => Repeat::Optional,
            _ => return Ok(atom),
        };
        self.place += 1;
        Ok(Tree::Repeat(repeat, Box::new(atom)))
    }

    fn atom(&mut self) -> Result<Tree, Fault> {
        let byte = self.peek().ok_or(Fault::NoPiece)?;
        self.place += 1;
        match byte {
            b'.' => Ok(Tree::AnyByte),
            b'(' => {
                let inner = self.branches()?;
                self.accept(b')').then_some(inner).ok_or(Fault::OpenGroup)
            }
            b'[' => Ok(Tree::Set(Box::new(self.set()?))),
            b'\\' => {
                let escaped = self.peek().filter(|byte| SPECIAL.contains(byte)).ok_or(Fault::Escape)?;
                self.place += 1;
                Ok(Tree::Byte(escaped))
            }
            b'*' | b'+' | b'?' => Err(Fault::Repetition),
            b'{' => Err(Fault::Curly),
            _ => Ok(Tree::Byte(byte)),
        }
    }

    /// A set behind its "[".
    fn set(&mut self) -> Result<Set, Fault> {
        let others = self.accept(b'^');
        let mut set = Set::default();
        let first = self.place;
        loop {
            let byte = self.peek().ok_or(Fault::OpenSet)?;
            match byte {
                b']' if self.place > first => break,
                b'-' => self.hyphen(first)?,
                _ => {}
            }
            let last = self.member()?;
            (byte..=last).for_each(|byte| set.add(byte));
        }
        self.place += 1;
        Ok(if others { set.others() } else { set })
    }

    /// Whether a "-" may stand for itself here.
    fn hyphen(&self, first: usize) -> Result<(), Fault> {
        match self.ahead(1) {
            _ if self.place == first => Ok(()),
            Some(b']') => Ok(()),
            Some(_) => Err(Fault::Hyphen),
            None => Err(Fault::OpenSet),
        }
    }

    /// A byte of a set, or a range; its last byte.
    fn member(&mut self) -> Result<u8, Fault> {
        let byte = self.end_of_range()?;
        // A "-" before "]" is the set's last byte, and one behind "-" begins no range.
        let range = byte != b'-' && self.peek() == Some(b'-') && self.ahead(1) != Some(b']');
        if !range {
            return Ok(byte);
        }
        self.place += 1;
        match self.end_of_range()? {
            b'-' => Err(Fault::Hyphen),
            last if last < byte => Err(Fault::Falling),
            last => Ok(last),
        }
    }

    fn end_of_range(&mut self) -> Result<u8, Fault> {
        let byte = self.peek().ok_or(Fault::OpenSet)?;
        if byte == b'[' && matches!(self.ahead(1), Some(b'.' | b'=' | b':')) {
            return Err(Fault::Class);
        }
        self.place += 1;
        Ok(byte)
    }
}

/// The only item, or all in one.
fn single(mut items: Vec<Tree>, all: fn(Vec<Tree>) -> Tree) -> Tree {
    match items.len() {
        1 => items.remove(0),
        _ => all(items),
    }
}

/// A step by its place among the steps.
type At = u16;

#[derive(Clone, Copy, Debug)]
enum Step {
    Accept,
    Start(At),
    End(At),
    AnyByte(At),
    Byte(u8, At),
    /// A set by its place among the sets.
    Set(At, At),
    /// Two ways to go on, and the number of this choice.
    Choice {
        first: At,
        second: At,
        number: At,
    },
}

struct Steps {
    steps: Vec<Step>,
    sets: Vec<Set>,
    choices: At,
    first: At,
}

impl Steps {
    fn new(tree: &Tree) -> Self {
        let mut steps = Self { steps: vec![Step::Accept], sets: Vec::new(), choices: 0, first: 0 };
        steps.first = steps.lay(tree, 0);
        steps
    }

    /// Lays a tree out before what follows it; its first step.
    fn lay(&mut self, tree: &Tree, next: At) -> At {
        match tree {
            Tree::Start => self.push(Step::Start(next)),
            Tree::End => self.push(Step::End(next)),
            Tree::AnyByte => self.push(Step::AnyByte(next)),
            Tree::Byte(byte) => self.push(Step::Byte(*byte, next)),
            Tree::Set(set) => {
                self.sets.push(**set);
                self.push(Step::Set(self.sets.len() as At - 1, next))
            }
            Tree::Pieces(pieces) => pieces.iter().rev().fold(next, |next, piece| self.lay(piece, next)),
            Tree::Branches(branches) => {
                let firsts: Vec<At> = branches.iter().map(|branch| self.lay(branch, next)).collect();
                firsts.into_iter().rev().reduce(|second, first| self.choice(first, second)).expect("a branch")
            }
            Tree::Repeat(Repeat::Optional, inner) => {
                let first = self.lay(inner, next);
                self.choice(first, next)
            }
            Tree::Repeat(repeat, inner) => {
                let again = self.choice(next, next);
                let first = self.lay(inner, again);
                self.steps[usize::from(again)] = Step::Choice { first, second: next, number: self.number_of(again) };
                if *repeat == Repeat::Any {
                    again
                } else {
                    first
                }
            }
        }
    }

    fn push(&mut self, step: Step) -> At {
        self.steps.push(step);
        self.steps.len() as At - 1
    }

    fn choice(&mut self, first: At, second: At) -> At {
        self.choices += 1;
        self.push(Step::Choice { first, second, number: self.choices - 1 })
    }

    fn number_of(&self, choice: At) -> At {
        match self.steps[usize::from(choice)] {
            Step::Choice { number, .. } => number,
            _ => unreachable!("a choice"),
        }
    }

    /// Whether a way leads from the first step, at some place, to the end.
    fn find(&self, string: &[u8]) -> bool {
        let width = string.len() + 1;
        let mut tried = vec![0u64; (usize::from(self.choices) * width).div_ceil(64)];
        let mut waiting: Vec<(At, usize)> = Vec::new();
        (0..width).any(|start| {
            waiting.push((self.first, start));
            while let Some((step, place)) = waiting.pop() {
                if self.follow(step, place, string, &mut tried, &mut waiting) {
                    return true;
                }
            }
            false
        })
    }

    /// Follows one way as far as it goes; the second way of each choice waits.
    fn follow(
        &self,
        mut step: At,
        mut place: usize,
        string: &[u8],
        tried: &mut [u64],
        waiting: &mut Vec<(At, usize)>,
    ) -> bool {
        loop {
            let byte = string.get(place).copied();
            let (fits, taken, next) = match self.steps[usize::from(step)] {
                Step::Accept => return true,
                Step::Start(next) => (place == 0, 0, next),
                Step::End(next) => (byte.is_none(), 0, next),
                Step::AnyByte(next) => (byte.is_some(), 1, next),
                Step::Byte(wanted, next) => (byte == Some(wanted), 1, next),
                Step::Set(set, next) => (byte.is_some_and(|byte| self.sets[usize::from(set)].holds(byte)), 1, next),
                Step::Choice { first, second, number } => {
                    let bit = usize::from(number) * (string.len() + 1) + place;
                    let new = tried[bit / 64] >> (bit % 64) & 1 == 0;
                    if new {
                        tried[bit / 64] |= 1 << (bit % 64);
                        waiting.push((second, place));
                    }
                    (new, 0, first)
                }
            };
            if !fits {
                return false;
            }
            (step, place) = (next, place + taken);
        }
    }
}
