//! Query records from a seed: fine ones, damaged ones, and webs of delegation.

// Without the star, `pick` would be asked for an unsized item.
#![allow(clippy::explicit_auto_deref)]

pub mod coverage;
pub mod crowd;
pub mod damage;
pub mod decimal;
pub mod edge;
pub mod expression;
pub mod float;
pub mod float_coverage;
pub mod keys;
pub mod pattern;
pub mod pattern_coverage;
pub mod reference;
pub mod reference_coverage;
pub mod scene;
pub mod sketch;
pub mod tally;
pub mod web;

use crate::draft::Draft;
use crate::limits::TEXT_BYTES;
use crate::random::Random;
use scene::Scene;

/// The sorts of records, in the order in which they take turns.
#[derive(Clone, Copy, Debug, PartialEq, Eq)]
pub enum Sort {
    /// Assertions that delegate to each other.
    Web,
    /// Well-formed assertions with every field and operator.
    Rich,
    /// The same with a damaged text.
    DamagedText,
    /// A limit met, or passed by one.
    Edge,
    /// A record that is damaged itself.
    DamagedRecord,
    /// Many tests, and how many of them hold.
    Tally,
    /// A web whose keys are spelled in several ways.
    Keys,
    /// More assertions than most have.
    Crowd,
    /// A web whose principals stand by reference.
    Reference,
}

const SORTS: [Sort; 23] = [
    Sort::Web,
    Sort::DamagedText,
    Sort::Rich,
    Sort::DamagedText,
    Sort::Edge,
    Sort::Web,
    Sort::DamagedRecord,
    Sort::DamagedText,
    Sort::Tally,
    Sort::Keys,
    Sort::Crowd,
    Sort::Reference,
    Sort::Web,
    Sort::DamagedText,
    Sort::Rich,
    Sort::DamagedText,
    Sort::Edge,
    Sort::Web,
    Sort::DamagedRecord,
    Sort::DamagedText,
    Sort::Tally,
    Sort::Keys,
    Sort::Reference,
];

/// The record of a number in the row that a seed begins.
pub fn record(seed: u64, number: u64) -> Vec<u8> {
    let mut random = Random::new(seed ^ number.wrapping_mul(0x2545_f491_4f6c_dd1d));
    // The first numbers of nearby seeds are alike.
    random.number();
    of_sort(&mut random, SORTS[(number % SORTS.len() as u64) as usize])
}

pub fn of_sort(random: &mut Random, sort: Sort) -> Vec<u8> {
    match sort {
        Sort::Web => web::draft(random).record(),
        Sort::Rich => rich(random, 0).record(),
        Sort::DamagedText => {
            let share = random.between(1, 4);
            rich(random, share).record()
        }
        Sort::Edge => edge::record(random),
        Sort::Tally => tally::record(random),
        Sort::Keys => keys::draft(random).record(),
        Sort::Crowd => crowd::record(random),
        Sort::Reference => reference::draft(random).record(),
        Sort::DamagedRecord => {
            let draft = if random.once_in(2) { web::draft(random) } else { rich(random, 4) };
            damage::record(random, draft)
        }
    }
}

/// Assertions with every field. Of `share` texts one is damaged; 0 damages none.
fn rich(random: &mut Random, share: usize) -> Draft {
    let scene = Scene::new(random);
    let mut draft = scene.draft(random);
    for _ in 0..random.between(1, 6) {
        let damaged = share > 0 && random.once_in(share);
        let text = loop {
            let sketch = sketch::sketch(random, &scene);
            let text = if damaged { damage::text(random, sketch) } else { sketch.text(random) };
            if TEXT_BYTES.holds(text.len()) {
                break text;
            }
        };
        draft = draft.assertion(standing(random), text);
    }
    draft
}

/// Mostly local, then credentials; seldom unverified.
fn standing(random: &mut Random) -> u8 {
    match random.below(12) {
        0 => 0,
        1..=3 => 2,
        _ => 1,
    }
}
