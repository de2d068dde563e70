//! Webs of delegation: chains, loops, thresholds and dense webs.

use super::expression::{self, literal, test};
use super::scene::{values, Scene};
use crate::check::POLICY;
use crate::draft::Draft;
use crate::limits;
use crate::random::Random;

/// Who licenses whom, as numbers; POLICY is 0.
struct Edge {
    from: usize,
    to: Vec<usize>,
}

/// Spells a principal, given by its number, where it is mentioned.
pub type Spell<'a> = &'a dyn Fn(&mut Random, usize) -> Vec<u8>;

/// The most assertions of a web; `crowd` has more.
const ASSERTIONS: usize = 32;

/// The most principals that a web has.
pub const PRINCIPALS: usize = 48;

/// A web whose principals are spelled alike wherever they stand.
pub fn draft(random: &mut Random) -> Draft {
    let values = values(random);
    spelled(random, values, &|_, number| identifier(number))
}

pub fn spelled(random: &mut Random, values: Vec<Vec<u8>>, spell: Spell) -> Draft {
    let scene = Scene { values, ..Scene::new(random) };
    let edges = edges(random);
    let count = edges.iter().flat_map(|edge| edge.to.iter().chain([&edge.from])).max().unwrap_or(&0) + 1;
    let mut draft = scene.draft(random);
    draft.requesters = (0..random.between(1, 3))
        .map(|_| match random.below(12) {
            0 => b"stranger".to_vec(),
            way => {
                // Far ends make long ways.
                let number = match way {
                    1 => random.below(count),
                    _ => count - 1 - random.below(count).min(random.below(3)),
                };
                spell(random, number)
            }
        })
        // Nobody asks as POLICY; `damage` has requesters that do.
        .map(|requester| if requester == POLICY { b"stranger".to_vec() } else { requester })
        .collect();
    for edge in edges {
        let text = assertion(random, &scene, &edge, spell);
        draft = draft.local(text);
    }
    for place in (1..draft.assertions.len()).rev() {
        let other = random.below(place + 1);
        draft.assertions.swap(place, other);
    }
    draft
}

fn identifier(number: usize) -> Vec<u8> {
    match number {
        0 => b"POLICY".to_vec(),
        _ => format!("p{number}").into_bytes(),
    }
}

fn edges(random: &mut Random) -> Vec<Edge> {
    let count = random.between(1, ASSERTIONS);
    match random.below(5) {
        // A chain, with or without a way back.
        0 | 1 => {
            let mut edges: Vec<Edge> = (0..count).map(|from| Edge { from, to: vec![from + 1] }).collect();
            if random.once_in(2) {
                let back = random.below(count);
                edges[count - 1].to.push(back);
            }
            edges
        }
        // A dense web.
        2 => {
            let principals = random.between(2, 20);
            let to = |random: &mut Random| (0..random.between(1, 16)).map(|_| random.below(principals)).collect();
            (0..count).map(|index| Edge { from: index % principals, to: to(random) }).collect()
        }
        // Layers, each of which licenses the next.
        3 => {
            let width = random.between(1, 4);
            let layer = |index: usize| if index == 0 { 0 } else { 1 + (index - 1) / width };
            let to = |index: usize| (0..width).map(|step| 1 + layer(index) * width + step).collect();
            (0..count).map(|index| Edge { from: index, to: to(index) }).collect()
        }
        // Anything.
        _ => {
            let principals = random.between(2, 40);
            let to = |random: &mut Random| (0..random.between(1, 3)).map(|_| random.below(principals)).collect();
            (0..count).map(|_| Edge { from: random.below(principals), to: to(random) }).collect()
        }
    }
}

fn assertion(random: &mut Random, scene: &Scene, edge: &Edge, spell: Spell) -> Vec<u8> {
    let mut text = b"Authorizer: ".to_vec();
    let authorizer = spell(random, edge.from);
    text.extend(literal(random, &authorizer));
    let licensees: Vec<Vec<u8>> = edge.to.iter().map(|&number| spell(random, number)).collect();
    text.extend_from_slice(b"\nLicensees: ");
    let tokens = match random.below(3) {
        0 => expression::licensees(random, &licensees, 16),
        way => {
            let operator = if way == 1 { b"||".to_vec() } else { b"&&".to_vec() };
            let all: Vec<Vec<u8>> = licensees.iter().map(|licensee| literal(random, licensee)).collect();
            let operator = if random.once_in(4) { operator } else { b"||".to_vec() };
            all.into_iter().flat_map(|licensee| [operator.clone(), licensee]).skip(1).collect()
        }
    };
    text.extend(tokens.join(&b' '));
    match random.below(4) {
        0 => text.extend(clause(random, scene, "true", true)),
        1 => {
            let test = test(random, scene, 2).join(&b' ');
            let test = String::from_utf8(test).unwrap_or("true".into());
            text.extend(clause(random, scene, &test, false));
        }
        _ => {}
    }
    text.truncate(limits::TEXT_BYTES.most);
    text
}

/// A Conditions field with one clause; high values are the more common.
fn clause(random: &mut Random, scene: &Scene, test: &str, valued: bool) -> Vec<u8> {
    let mut text = format!("\nConditions: {test}").into_bytes();
    if valued || random.once_in(2) {
        let last = scene.values.len() - 1;
        let place = last - random.below(last + 1).min(random.below(last + 1));
        text.extend_from_slice(b" -> ");
        text.extend(literal(random, &scene.values[place]));
    }
    text.push(b';');
    text
}
