//! The grammars of the fields, as data.
//!
//! The productions are the RFC's, with the precedence classes written into them.
//! A principal is a string expression: its brackets may be the string's or, in
//! Licensees, the licensees', which makes that grammar ambiguous. Tests, strings,
//! integers and floats are nonterminals of their own. Lists recur to the left. LITERAL, NAME, WORD, DIGITS and FLOAT are terminals; other symbols
//! that no production defines are tokens by their spelling.

use std::sync::OnceLock;

use crate::line::Label;
use crate::token::{Kind, SPELLINGS};

/// A production: the symbol defined, and the symbols it may stand for.
type Production = (&'static str, &'static str);

const VERSION: &[Production] = &[("Version", "LITERAL"), ("Version", "DIGITS")];

const SIGNATURE: &[Production] = &[("Signature", "LITERAL")];

const AUTHORIZER: &[Production] = &[
    ("Authorizer", "StrEx"),
    ("StrEx", "StrEx . StrUnary"),
    ("StrEx", "StrUnary"),
    ("StrUnary", "$ StrUnary"),
    ("StrUnary", "( StrEx )"),
    ("StrUnary", "LITERAL"),
    ("StrUnary", "NAME"),
    ("StrUnary", "WORD"),
];

const CONSTANTS: &[Production] = &[
    ("Assignments", ""),
    ("Assignments", "Assignments AttributeID = LITERAL"),
    ("AttributeID", "NAME"),
    ("AttributeID", "WORD"),
];

const LICENSEES: &[Production] = &[
    ("LicenseesExpr", ""),
    ("LicenseesExpr", "PrincOr"),
    ("PrincOr", "PrincOr || PrincAnd"),
    ("PrincOr", "PrincAnd"),
    ("PrincAnd", "PrincAnd && PrincExpr"),
    ("PrincAnd", "PrincExpr"),
    ("PrincExpr", "( PrincOr )"),
    ("PrincExpr", "DIGITS -of ( PrincList )"),
    ("PrincExpr", "StrEx"),
    ("PrincList", "StrEx"),
    ("PrincList", "PrincList , StrEx"),
    ("StrEx", "StrEx . StrUnary"),
    ("StrEx", "StrUnary"),
    ("StrUnary", "$ StrUnary"),
    ("StrUnary", "( StrEx )"),
    ("StrUnary", "LITERAL"),
    ("StrUnary", "NAME"),
    ("StrUnary", "WORD"),
];

/// Licensees and strings as the RFC prints them, without precedence.
pub const RFC_LICENSEES: &[Production] = &[
    ("LicenseesExpr", ""),
    ("LicenseesExpr", "PrincExpr"),
    ("PrincExpr", "( PrincExpr )"),
    ("PrincExpr", "PrincExpr && PrincExpr"),
    ("PrincExpr", "PrincExpr || PrincExpr"),
    ("PrincExpr", "DIGITS -of ( PrincList )"),
    ("PrincExpr", "StrEx"),
    ("PrincList", "StrEx"),
    ("PrincList", "StrEx , PrincList"),
    ("StrEx", "StrEx . StrEx"),
    ("StrEx", "LITERAL"),
    ("StrEx", "( StrEx )"),
    ("StrEx", "NAME"),
    ("StrEx", "WORD"),
    ("StrEx", "$ StrEx"),
];

const CONDITIONS: &[Production] = &[
    ("Program", ""),
    ("Program", "Program Clause ;"),
    ("Clause", "Test"),
    ("Clause", "Test -> StrEx"),
    ("Clause", "Test -> { Program }"),
    // Tests: "||" below "&&" below "!", a comparison inside.
    ("Test", "Test || Conjunction"),
    ("Test", "Conjunction"),
    ("Conjunction", "Conjunction && Negation"),
    ("Conjunction", "Negation"),
    ("Negation", "! Negation"),
    ("Negation", "RelExpr"),
    ("RelExpr", "( Test )"),
    ("RelExpr", "WORD"),
    ("RelExpr", "IntEx Ordering IntEx"),
    ("RelExpr", "IntEx Equality IntEx"),
    ("RelExpr", "FloatEx Ordering FloatEx"),
    ("RelExpr", "StrEx Ordering StrEx"),
    ("RelExpr", "StrEx Equality StrEx"),
    ("RelExpr", "StrEx ~= StrEx"),
    ("Ordering", "<"),
    ("Ordering", ">"),
    ("Ordering", "<="),
    ("Ordering", ">="),
    ("Equality", "=="),
    ("Equality", "!="),
    // Strings.
    ("StrEx", "StrEx . StrUnary"),
    ("StrEx", "StrUnary"),
    ("StrUnary", "$ StrUnary"),
    ("StrUnary", "( StrEx )"),
    ("StrUnary", "LITERAL"),
    ("StrUnary", "NAME"),
    ("StrUnary", "WORD"),
    // Integers.
    ("IntEx", "IntEx + IntProduct"),
    ("IntEx", "IntEx - IntProduct"),
    ("IntEx", "IntProduct"),
    ("IntProduct", "IntProduct * IntPower"),
    ("IntProduct", "IntProduct / IntPower"),
    ("IntProduct", "IntProduct % IntPower"),
    ("IntProduct", "IntPower"),
    ("IntPower", "IntPower ^ IntUnary"),
    ("IntPower", "IntUnary"),
    ("IntUnary", "- IntUnary"),
    ("IntUnary", "@ StrUnary"),
    ("IntUnary", "( IntEx )"),
    ("IntUnary", "DIGITS"),
    // Floats.
    ("FloatEx", "FloatEx + FloatProduct"),
    ("FloatEx", "FloatEx - FloatProduct"),
    ("FloatEx", "FloatProduct"),
    ("FloatProduct", "FloatProduct * FloatPower"),
    ("FloatProduct", "FloatProduct / FloatPower"),
    ("FloatProduct", "FloatPower"),
    ("FloatPower", "FloatPower ^ FloatUnary"),
    ("FloatPower", "FloatUnary"),
    ("FloatUnary", "- FloatUnary"),
    ("FloatUnary", "& StrUnary"),
    ("FloatUnary", "( FloatEx )"),
    ("FloatUnary", "FLOAT"),
];

/// The tests and expressions of Conditions as the RFC prints them, without
/// precedence: ambiguous, and the same sentences but for "@" and "&" before a
/// concatenation.
pub const RFC_CONDITIONS: &[Production] = &[
    ("Program", ""),
    ("Program", "Program Clause ;"),
    ("Clause", "RelExpr"),
    ("Clause", "RelExpr -> StrEx"),
    ("Clause", "RelExpr -> { Program }"),
    ("RelExpr", "( RelExpr )"),
    ("RelExpr", "RelExpr && RelExpr"),
    ("RelExpr", "RelExpr || RelExpr"),
    ("RelExpr", "! RelExpr"),
    ("RelExpr", "WORD"),
    ("RelExpr", "IntEx Ordering IntEx"),
    ("RelExpr", "IntEx Equality IntEx"),
    ("RelExpr", "FloatEx Ordering FloatEx"),
    ("RelExpr", "StrEx Ordering StrEx"),
    ("RelExpr", "StrEx Equality StrEx"),
    ("RelExpr", "StrEx ~= StrEx"),
    ("Ordering", "<"),
    ("Ordering", ">"),
    ("Ordering", "<="),
    ("Ordering", ">="),
    ("Equality", "=="),
    ("Equality", "!="),
    ("StrEx", "StrEx . StrEx"),
    ("StrEx", "LITERAL"),
    ("StrEx", "( StrEx )"),
    ("StrEx", "NAME"),
    ("StrEx", "WORD"),
    ("StrEx", "$ StrEx"),
    ("IntEx", "IntEx + IntEx"),
    ("IntEx", "IntEx - IntEx"),
    ("IntEx", "IntEx * IntEx"),
    ("IntEx", "IntEx / IntEx"),
    ("IntEx", "IntEx % IntEx"),
    ("IntEx", "IntEx ^ IntEx"),
    ("IntEx", "- IntEx"),
    ("IntEx", "( IntEx )"),
    ("IntEx", "DIGITS"),
    ("IntEx", "@ StrEx"),
    ("FloatEx", "FloatEx + FloatEx"),
    ("FloatEx", "FloatEx - FloatEx"),
    ("FloatEx", "FloatEx * FloatEx"),
    ("FloatEx", "FloatEx / FloatEx"),
    ("FloatEx", "FloatEx ^ FloatEx"),
    ("FloatEx", "- FloatEx"),
    ("FloatEx", "( FloatEx )"),
    ("FloatEx", "FLOAT"),
    ("FloatEx", "& StrEx"),
];

#[derive(Clone, Copy, Debug, PartialEq, Eq)]
pub enum Symbol {
    Terminal(Kind),
    Nonterminal(usize),
}

/// A rule with a dot somewhere in it.
#[derive(Clone, Copy, Debug)]
pub struct Dotted {
    /// The nonterminal that the rule defines.
    pub defines: usize,
    /// The symbol behind the dot; none where the rule is complete.
    pub next: Option<Symbol>,
}

/// A set of nonterminals, one bit each.
pub type Nonterminals = u64;

/// A grammar ready for the recognizer. The places of the dot in all rules are
/// numbered in one row; moving the dot adds one.
pub struct Grammar {
    pub dotted: Vec<Dotted>,
    /// For each nonterminal whether it may stand for nothing.
    pub nullable: Vec<bool>,
    /// For each nonterminal those that what it stands for may begin with,
    /// itself included.
    pub begins: Vec<Nonterminals>,
    /// For each kind of token the dots at the front of rules that begin with it.
    pub token_fronts: Vec<Vec<usize>>,
    /// For each nonterminal the dots at the front of rules that begin with it.
    pub fronts: Vec<Vec<usize>>,
    /// The dots at the front of rules that begin with a nonterminal that may
    /// stand for nothing.
    pub skippable: Vec<usize>,
}

impl Grammar {
    /// The nonterminal defined first is the one to be recognized.
    pub const GOAL: usize = 0;

    pub fn new(productions: &[Production]) -> Self {
        let mut names: Vec<&str> = Vec::new();
        for (defined, _) in productions {
            if !names.contains(defined) {
                names.push(defined);
            }
        }
        assert!(names.len() <= Nonterminals::BITS as usize);
        let mut grammar = Self {
            dotted: Vec::new(),
            nullable: vec![false; names.len()],
            begins: (0..names.len()).map(|nonterminal| 1 << nonterminal).collect(),
            token_fronts: vec![Vec::new(); SPELLINGS.len()],
            fronts: vec![Vec::new(); names.len()],
            skippable: Vec::new(),
        };
        for (defined, symbols) in productions {
            grammar.add(&names, defined, symbols);
        }
        grammar.close_begins();
        grammar.find_skippable();
        grammar
    }

    fn add(&mut self, names: &[&str], defined: &str, symbols: &str) {
        let defines = position(names, defined).expect("a defined symbol");
        let front = self.dotted.len();
        for symbol in symbols.split_whitespace() {
            self.dotted.push(Dotted { defines, next: Some(symbol_of(names, symbol)) });
        }
        self.dotted.push(Dotted { defines, next: None });
        match self.dotted[front].next {
            Some(Symbol::Terminal(kind)) => self.token_fronts[kind as usize].push(front),
            Some(Symbol::Nonterminal(first)) => self.fronts[first].push(front),
            // In these grammars only a rule without symbols gives nothing.
            None => self.nullable[defines] = true,
        }
    }

    /// Adds what rules begin with until nothing is new.
    fn close_begins(&mut self) {
        loop {
            let before = self.begins.clone();
            for (first, fronts) in self.fronts.iter().enumerate() {
                for &front in fronts {
                    let defines = self.dotted[front].defines;
                    self.begins[defines] |= before[first];
                    // What follows a nonterminal that stands for nothing.
                    if let (true, Some(Symbol::Nonterminal(next))) = (self.nullable[first], self.dotted[front + 1].next)
                    {
                        self.begins[defines] |= before[next];
                    }
                }
            }
            if self.begins == before {
                return;
            }
        }
    }

    fn find_skippable(&mut self) {
        for (first, fronts) in self.fronts.iter().enumerate() {
            if self.nullable[first] {
                self.skippable.extend(fronts);
            }
        }
    }
}

fn symbol_of(names: &[&str], symbol: &str) -> Symbol {
    match position(names, symbol) {
        Some(index) => Symbol::Nonterminal(index),
        None => {
            let known = SPELLINGS.iter().find(|(_, spelling)| *spelling == symbol);
            Symbol::Terminal(known.expect("a token's spelling").0)
        }
    }
}

fn position(names: &[&str], name: &str) -> Option<usize> {
    names.iter().position(|known| *known == name)
}

/// The grammar of a field; Comment has none.
pub fn of(label: Label) -> Option<&'static Grammar> {
    static GRAMMARS: OnceLock<[Grammar; 6]> = OnceLock::new();
    let fields = [VERSION, CONSTANTS, AUTHORIZER, LICENSEES, CONDITIONS, SIGNATURE];
    let grammars = GRAMMARS.get_or_init(|| fields.map(Grammar::new));
    match label {
        Label::Version => Some(&grammars[0]),
        Label::Constants => Some(&grammars[1]),
        Label::Authorizer => Some(&grammars[2]),
        Label::Licensees => Some(&grammars[3]),
        Label::Conditions => Some(&grammars[4]),
        Label::Signature => Some(&grammars[5]),
        Label::Comment => None,
    }
}
