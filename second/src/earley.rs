//! Earley's recognizer: at which token no sentence of a grammar is left.
//!
//! Rules with the dot at their front aren't kept as items: a set notes the
//! nonterminals predicted in it, whose rules stand there with their dot in front.

use crate::grammar::{Grammar, Nonterminals, Symbol};
use crate::token::Kind;

/// A rule with a dot in it, begun where the set `origin` stands.
#[derive(Clone, Copy, PartialEq, Eq)]
struct Item {
    dot: u32,
    origin: u32,
}

/// The items and predictions between two tokens.
#[derive(Clone, Copy)]
struct Set {
    /// Where its items begin among all; they end where the next set's begin.
    first: usize,
    predicted: Nonterminals,
}

/// Reads tokens one at a time; each must leave a sentence possible.
pub struct Recognizer<'g> {
    grammar: &'g Grammar,
    items: Vec<Item>,
    sets: Vec<Set>,
}

impl<'g> Recognizer<'g> {
    pub fn new(grammar: &'g Grammar) -> Self {
        let mut recognizer = Self { grammar, items: Vec::new(), sets: vec![Set { first: 0, predicted: 0 }] };
        recognizer.predict(Grammar::GOAL);
        recognizer.close();
        recognizer
    }

    /// Whether the tokens so far may be followed by `kind`.
    pub fn allows(&self, kind: Kind) -> bool {
        let set = self.last();
        self.items[set.first..].iter().any(|item| self.next(item) == Some(Symbol::Terminal(kind)))
            || self.grammar.token_fronts[kind as usize].iter().any(|&front| self.stands(set, front))
    }

    /// Whether the tokens so far are a sentence.
    pub fn complete(&self) -> bool {
        let whole = |item: &Item| {
            let dotted = &self.grammar.dotted[item.dot as usize];
            item.origin == 0 && dotted.defines == Grammar::GOAL && dotted.next.is_none()
        };
        let nothing = self.sets.len() == 1 && self.grammar.nullable[Grammar::GOAL];
        nothing || self.items[self.last().first..].iter().any(whole)
    }

    /// Takes a token; false, and nothing is taken, where none may follow.
    pub fn take(&mut self, kind: Kind) -> bool {
        let set = self.last();
        let first = self.items.len();
        self.sets.push(Set { first, predicted: 0 });
        for index in set.first..first {
            let item = self.items[index];
            if self.next(&item) == Some(Symbol::Terminal(kind)) {
                self.add(Item { dot: item.dot + 1, ..item });
            }
        }
        let origin = self.sets.len() as u32 - 2;
        let grammar = self.grammar;
        for &front in &grammar.token_fronts[kind as usize] {
            if self.stands(set, front) {
                self.add(Item { dot: front as u32 + 1, origin });
            }
        }
        if self.items.len() == first {
            self.sets.pop();
            return false;
        }
        self.close();
        true
    }

    /// Completes the last set by predictions and completions.
    fn close(&mut self) {
        let mut index = self.last().first;
        while index < self.items.len() {
            let item = self.items[index];
            match self.next(&item) {
                Some(Symbol::Terminal(_)) => {}
                Some(Symbol::Nonterminal(wanted)) => {
                    self.predict(wanted);
                    if self.grammar.nullable[wanted] {
                        self.add(Item { dot: item.dot + 1, ..item });
                    }
                }
                None => self.finish(self.grammar.dotted[item.dot as usize].defines, item.origin),
            }
            index += 1;
        }
    }

    /// Predicts a nonterminal and all that it may begin with.
    fn predict(&mut self, wanted: usize) {
        let grammar = self.grammar;
        let origin = self.sets.len() as u32 - 1;
        let before = self.last().predicted;
        let after = before | grammar.begins[wanted];
        self.sets[origin as usize].predicted = after;
        if after != before {
            for &front in &grammar.skippable {
                if self.stands(self.last(), front) {
                    self.add(Item { dot: front as u32 + 1, origin });
                }
            }
        }
    }

    /// Moves the dot over a nonterminal found from `origin` to here.
    fn finish(&mut self, found: usize, origin: u32) {
        let set = self.sets[origin as usize];
        let last = self.sets.get(origin as usize + 1).map_or(self.items.len(), |next| next.first);
        for index in set.first..last {
            let item = self.items[index];
            if self.next(&item) == Some(Symbol::Nonterminal(found)) {
                self.add(Item { dot: item.dot + 1, ..item });
            }
        }
        let grammar = self.grammar;
        for &front in &grammar.fronts[found] {
            if self.stands(set, front) {
                self.add(Item { dot: front as u32 + 1, origin });
            }
        }
    }

    fn add(&mut self, item: Item) {
        if !self.items[self.last().first..].contains(&item) {
            self.items.push(item);
        }
    }

    /// Whether a rule with its dot in front stands in a set.
    fn stands(&self, set: Set, front: usize) -> bool {
        set.predicted >> self.grammar.dotted[front].defines & 1 == 1
    }

    fn next(&self, item: &Item) -> Option<Symbol> {
        self.grammar.dotted[item.dot as usize].next
    }

    fn last(&self) -> Set {
        *self.sets.last().expect("the first set stays")
    }
}

/// The first of the tokens after which no sentence is left. Where the field is
/// ended, its end counts as a token behind the last.
pub fn first_misfit(grammar: &Grammar, kinds: impl Iterator<Item = Kind>, ended: bool) -> Option<usize> {
    let mut recognizer = Recognizer::new(grammar);
    let mut taken = 0;
    for kind in kinds {
        if !recognizer.take(kind) {
            return Some(taken);
        }
        taken += 1;
    }
    (ended && !recognizer.complete()).then_some(taken)
}
