//! The tree parser and the recognizer accept exactly the same sentences, and
//! a prefix that the recognizer lets by has a continuation that the tree
//! parser accepts.

use second::earley::{first_misfit, Recognizer};
use second::grammar::{of, Grammar, RFC_CONDITIONS, RFC_LICENSEES};
use second::licence;
use second::line::{Label, Listing};
use second::parse;
use second::random::Random;
use second::store::Store;
use second::token::{Kind, SPELLINGS};

/// The kinds that stand in a field's grammar.
fn alphabet(label: Label) -> Vec<Kind> {
    let uses = |kind: &Kind| {
        let grammar = of(label).unwrap();
        grammar.dotted.iter().any(|dotted| dotted.next == Some(second::grammar::Symbol::Terminal(*kind)))
    };
    SPELLINGS.iter().map(|(kind, _)| *kind).filter(uses).collect()
}

fn spell(kinds: &[Kind]) -> String {
    let word = |kind: &Kind| match kind {
        Kind::Literal => "\"l\"",
        Kind::Name => "n",
        Kind::Word => "true",
        Kind::Digits => "1",
        Kind::Float => "1.5",
        other => SPELLINGS.iter().find(|(kind, _)| kind == other).unwrap().1,
    };
    kinds.iter().map(word).collect::<Vec<_>>().join(" ")
}

/// Whether the tree parser accepts the tokens as the field's content.
fn has_tree(label: Label, kinds: &[Kind]) -> bool {
    let text = match label {
        Label::Authorizer => format!("Authorizer: {}", spell(kinds)),
        Label::Licensees => format!("Authorizer:\"a\"\nLicensees: {}", spell(kinds)),
        _ => format!("Authorizer:\"a\"\nConditions: {}", spell(kinds)),
    };
    let mut listing = Listing::new();
    listing.list(text.as_bytes());
    assert_eq!(listing.fault, None, "{text}");
    let tokens = listing.tokens_of(listing.field(label).unwrap());
    assert!(tokens.iter().map(|token| token.kind).eq(kinds.iter().copied()), "{text}");
    let mut store = Store::default();
    let bytes = text.as_bytes();
    match label {
        Label::Authorizer => licence::authorizer(bytes, 0, tokens, &mut store).is_some(),
        Label::Licensees => tokens.is_empty() || licence::licensees(bytes, 0, tokens, &mut store).is_some(),
        _ => parse::conditions(bytes, 0, tokens, &mut store).is_some(),
    }
}

fn is_sentence(label: Label, kinds: &[Kind]) -> bool {
    first_misfit(of(label).unwrap(), kinds.iter().copied(), true).is_none()
}

fn agree(label: Label, kinds: &[Kind]) -> bool {
    let sentence = is_sentence(label, kinds);
    assert_eq!(has_tree(label, kinds), sentence, "{}", spell(kinds));
    sentence
}

/// All sequences over the alphabet up to a length.
fn exhaust(label: Label, longest: usize) -> usize {
    fn extend(label: Label, alphabet: &[Kind], kinds: &mut Vec<Kind>, longest: usize, sentences: &mut usize) {
        *sentences += usize::from(agree(label, kinds));
        if kinds.len() < longest {
            for &kind in alphabet {
                kinds.push(kind);
                extend(label, alphabet, kinds, longest, sentences);
                kinds.pop();
            }
        }
    }
    let mut sentences = 0;
    extend(label, &alphabet(label), &mut Vec::new(), longest, &mut sentences);
    sentences
}

#[test]
fn short_authorizers() {
    assert!(exhaust(Label::Authorizer, 6) > 100);
}

#[test]
fn short_licensees() {
    assert!(exhaust(Label::Licensees, 5) > 100);
}

#[test]
fn short_conditions() {
    assert!(exhaust(Label::Conditions, 4) > 50);
}

/// A walk along tokens that leave a sentence possible, then to an end.
fn walk(random: &mut Random, label: Label, length: usize) -> Vec<Kind> {
    let alphabet = alphabet(label);
    let mut recognizer = Recognizer::new(of(label).unwrap());
    let mut kinds = Vec::new();
    while kinds.len() < length {
        let open: Vec<Kind> = alphabet.iter().copied().filter(|&kind| recognizer.allows(kind)).collect();
        if open.is_empty() {
            break;
        }
        let kind = *random.pick(&open);
        assert!(recognizer.take(kind));
        kinds.push(kind);
    }
    kinds.extend(ending(label, &kinds));
    kinds
}

/// A way from a possible beginning to a sentence.
fn ending(label: Label, beginning: &[Kind]) -> Vec<Kind> {
    // Closing tokens first, then what leads to a place where they may stand.
    let order = [
        Kind::Semicolon,
        Kind::CloseCurly,
        Kind::Close,
        Kind::Equal,
        Kind::Less,
        Kind::Of,
        Kind::Word,
        Kind::Literal,
        Kind::Digits,
        Kind::Float,
        Kind::Open,
        Kind::Arrow,
    ];
    let mut recognizer = Recognizer::new(of(label).unwrap());
    beginning.iter().for_each(|&kind| assert!(recognizer.take(kind)));
    let mut kinds = Vec::new();
    while !recognizer.complete() {
        assert!(kinds.len() < 300, "no end of {}", spell(beginning));
        let kind = order.iter().copied().find(|&kind| recognizer.allows(kind));
        let kind = kind.unwrap_or_else(|| panic!("no way on from {}", spell(beginning)));
        assert!(recognizer.take(kind));
        kinds.push(kind);
    }
    kinds
}

/// Whether a token sequence keeps to the limits that the tree parser guards.
fn within_limits(kinds: &[Kind]) -> bool {
    let prefix = |kind: &Kind| matches!(kind, Kind::Not | Kind::Minus | Kind::At | Kind::Dollar | Kind::Ampersand);
    let rows = kinds.split(|kind| !prefix(kind)).map(<[Kind]>::len).max().unwrap_or(0);
    let mut open = 0i32;
    let mut most = 0;
    for kind in kinds {
        match kind {
            Kind::Open | Kind::OpenCurly => open += 1,
            Kind::Close | Kind::CloseCurly => open -= 1,
            _ => {}
        }
        most = most.max(open);
    }
    rows <= 16 && most <= 16
}

fn walks(label: Label, count: usize) {
    let mut random = Random::new(7);
    let alphabet = alphabet(label);
    let (mut sentences, mut others) = (0, 0);
    for _ in 0..count {
        let length = random.between(1, 30);
        let kinds = walk(&mut random, label, length);
        if !within_limits(&kinds) {
            continue;
        }
        assert!(agree(label, &kinds), "{}", spell(&kinds));
        for _ in 0..4 {
            let mut damaged = kinds.clone();
            for _ in 0..random.between(1, 2) {
                damage(&mut random, &alphabet, &mut damaged);
            }
            if within_limits(&damaged) {
                match agree(label, &damaged) {
                    true => sentences += 1,
                    false => others += 1,
                }
            }
        }
    }
    assert!(sentences > count / 20 && others > count / 2, "{sentences} and {others}");
}

fn damage(random: &mut Random, alphabet: &[Kind], kinds: &mut Vec<Kind>) {
    let place = random.below(kinds.len().max(1));
    match random.below(4) {
        0 if !kinds.is_empty() => {
            kinds.remove(place);
        }
        1 if !kinds.is_empty() => kinds[place] = *random.pick(alphabet),
        2 if kinds.len() > 1 => {
            let other = random.below(kinds.len());
            kinds.swap(place, other);
        }
        _ => kinds.insert(place, *random.pick(alphabet)),
    }
}

#[test]
fn walks_of_authorizers() {
    walks(Label::Authorizer, 20_000);
}

#[test]
fn walks_of_licensees() {
    walks(Label::Licensees, 20_000);
}

#[test]
fn walks_of_conditions() {
    walks(Label::Conditions, 60_000);
}

/// The RFC's productions without precedence give the same sentences and the
/// same first misfits but for "@" and "&" before a concatenation.
#[test]
fn precedence_adds_nothing_else() {
    without_precedence(Label::Conditions, RFC_CONDITIONS);
    without_precedence(Label::Licensees, RFC_LICENSEES);
}

fn without_precedence(label: Label, productions: &[(&'static str, &'static str)]) {
    let plain = Grammar::new(productions);
    let mut random = Random::new(11);
    let alphabet = alphabet(label);
    let mut compared = 0;
    for _ in 0..20_000 {
        let length = random.between(1, 16);
        let mut kinds = walk(&mut random, label, length);
        for _ in 0..random.below(3) {
            damage(&mut random, &alphabet, &mut kinds);
        }
        if kinds.len() > 40 {
            continue;
        }
        let classes = first_misfit(of(label).unwrap(), kinds.iter().copied(), true);
        let without = first_misfit(&plain, kinds.iter().copied(), true);
        let converted = classes.is_some_and(|index| {
            kinds.get(index) == Some(&Kind::Dot)
                && kinds[..index].iter().any(|kind| matches!(kind, Kind::At | Kind::Ampersand))
        });
        if !converted {
            assert_eq!(classes, without, "{}", spell(&kinds));
            compared += 1;
        }
    }
    assert!(compared > 10_000, "{compared}");
}
