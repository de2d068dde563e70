//! Queries with more assertions than most have: up to the limit, and past it.

use super::expression::literal;
use super::keys;
use super::scene::values;
use crate::check::POLICY;
use crate::draft::Draft;
use crate::limits;
use crate::random::Random;

/// Fewer are no crowd.
pub const LEAST: usize = 33;

/// Who licenses whom, as numbers; POLICY is 0.
struct Edge {
    from: usize,
    to: Vec<usize>,
}

/// How principals are named by their numbers.
#[derive(Clone, Copy)]
enum Names {
    Plain,
    /// One length, with the same three bytes at the end.
    AlikeAtEnds,
    /// One length, with the same bytes in front.
    AlikeInFront,
    /// Keys in any case.
    Keys,
    /// 256 bytes, by an attribute and digits joined to it.
    Joined,
}

/// What the attribute "k" holds.
const FRONT: [u8; 252] = [b'k'; 252];

pub fn record(random: &mut Random) -> Vec<u8> {
    let count = count(random);
    let edges = edges(random, count);
    let names = *random.pick(&[
        Names::Plain,
        Names::AlikeAtEnds,
        Names::AlikeInFront,
        Names::Keys,
        Names::Joined,
        Names::Joined,
    ]);
    let mut draft = Draft { values: values(random), ..Draft::default() };
    if let Names::Joined = names {
        draft = draft.attribute("k", FRONT).attribute("p", POLICY).attribute("unread", "u");
    }
    draft.requesters = requesters(random, &edges, names);
    // Long ways lead to their end only where nothing hinders.
    let smooth = random.once_in(2);
    let whole = smooth || random.once_in(3);
    for edge in &edges {
        let aside = !whole && random.once_in(20);
        let mut text = delegation(random, edge, names, smooth);
        if !smooth && random.once_in(12) {
            text.extend(conditions(random, &draft.values));
        }
        let assertion = if aside { set_aside(random, text) } else { (1, text) };
        draft.assertions.push(assertion);
    }
    if random.once_in(2) {
        for place in (1..count).rev() {
            let other = random.below(place + 1);
            draft.assertions.swap(place, other);
        }
    }
    if !whole && random.once_in(3) {
        let text = draft.assertions[count - 1].1.clone();
        draft.assertions[count - 1] = set_aside(random, text);
    }
    if random.once_in(4) {
        pad(random, &mut draft);
    }
    draft.record()
}

/// Often as many as there may be; sometimes more, as far as a byte can tell.
fn count(random: &mut Random) -> usize {
    let most = limits::ASSERTIONS.most;
    match random.below(12) {
        0..=4 => most,
        5 => most + 1,
        6 => random.between(most + 1, 255),
        7 => most - 1,
        _ => random.between(LEAST, most),
    }
}

fn edges(random: &mut Random, count: usize) -> Vec<Edge> {
    let most = limits::LICENSEES;
    match random.below(6) {
        // A chain, with or without a way back.
        0 | 1 => {
            let mut edges: Vec<Edge> = (0..count).map(|from| Edge { from, to: vec![from + 1] }).collect();
            if random.once_in(3) {
                edges[count - 1].to.push(random.below(count));
            }
            edges
        }
        // A tree: each principal is licensed once.
        2 | 3 => (0..count).map(|from| Edge { from, to: (from * most + 1..=(from + 1) * most).collect() }).collect(),
        // A dense web.
        4 => {
            let principals = random.between(20, count);
            let to = |random: &mut Random| (0..random.between(1, most)).map(|_| random.below(principals)).collect();
            (0..count).map(|index| Edge { from: index % principals, to: to(random) }).collect()
        }
        // Anything.
        _ => {
            let principals = random.between(2, 600);
            let to = |random: &mut Random| (0..random.between(1, 4)).map(|_| random.below(principals)).collect();
            (0..count).map(|_| Edge { from: random.below(principals), to: to(random) }).collect()
        }
    }
}

/// A spelling of a principal. Numbers below 10,000 have names of their own.
fn spelled(random: &mut Random, names: Names, number: usize) -> Vec<u8> {
    let digits = format!("{number:04}").into_bytes();
    match names {
        _ if number == 0 => POLICY.to_vec(),
        Names::Plain => format!("p{number}").into_bytes(),
        Names::AlikeAtEnds => digits.into_iter().rev().chain(*b"end").collect(),
        Names::AlikeInFront => [b"in front ", &digits[..]].concat(),
        Names::Keys => keys::spelling(random, &[b"dsa-hex:k", &digits[..]].concat()),
        Names::Joined => [&FRONT, &digits[..]].concat(),
    }
}

/// The last principal, one of POLICY's licensees, or any.
fn requesters(random: &mut Random, edges: &[Edge], names: Names) -> Vec<Vec<u8>> {
    let last = edges.iter().flat_map(|edge| edge.to.iter()).max().copied().unwrap_or(1).max(1);
    (0..random.between(1, 2))
        .map(|_| {
            let number = match random.below(4) {
                0 => random.between(1, last),
                1 => edges[0].to[0].max(1),
                _ => last,
            };
            spelled(random, names, number)
        })
        .collect()
}

fn delegation(random: &mut Random, edge: &Edge, names: Names, smooth: bool) -> Vec<u8> {
    let quoted = |random: &mut Random, number: usize| match (names, number) {
        (Names::Joined, 0) => b"p".to_vec(),
        (Names::Joined, _) => format!("k.\"{number:04}\"").into_bytes(),
        _ => {
            let name = spelled(random, names, number);
            [b"\"", &name[..], b"\""].concat()
        }
    };
    let authorizer = quoted(random, edge.from);
    let licensees: Vec<Vec<u8>> = edge.to.iter().map(|&number| quoted(random, number)).collect();
    let joined = match random.below(16) {
        _ if smooth => licensees.join(&b"||"[..]),
        0 => licensees.join(&b"&&"[..]),
        1 => {
            let least = random.between(1, licensees.len());
            [format!("{least}-of(").as_bytes(), &licensees.join(&b","[..]), b")"].concat()
        }
        _ => licensees.join(&b"||"[..]),
    };
    [b"Authorizer:", &authorizer[..], b"\nLicensees:", &joined].concat()
}

fn conditions(random: &mut Random, values: &[Vec<u8>]) -> Vec<u8> {
    let value = random.pick(values).clone();
    let value = literal(random, &value);
    [b"\nConditions:true->", &value[..], b";"].concat()
}

/// The text damaged, or with another standing.
fn set_aside(random: &mut Random, mut text: Vec<u8>) -> (u8, Vec<u8>) {
    match random.below(4) {
        0 => (0, text),
        1 => (2, text),
        2 => {
            text.extend_from_slice(*random.pick(&[&b"\n?"[..], b" \"", b"\nConditions:", b"\nConditions: true"]));
            (1, text)
        }
        _ => {
            super::damage::bytes(random, &mut text);
            (1, if text.is_empty() { b"?".to_vec() } else { text })
        }
    }
}

/// Comments fill the record up to 65,535 bytes, sometimes one more or less.
fn pad(random: &mut Random, draft: &mut Draft) {
    let wanted = limits::RECORD_BYTES + *random.pick(&[0, 0, 0, 1]) - *random.pick(&[0, 0, 0, 1]);
    let mut left = wanted.saturating_sub(draft.record().len());
    for (_, text) in &mut draft.assertions {
        // A newline and "#" before what fills.
        let more = left.min(limits::TEXT_BYTES.most - text.len());
        if more < 3 {
            continue;
        }
        text.extend_from_slice(b"\n#");
        text.resize(text.len() + more - 2, b'x');
        left -= more;
    }
}
