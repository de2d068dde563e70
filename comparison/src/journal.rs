//! The proved journal beside the second one: every cut of appending and of
//! recovery, on generated pages and answers.

use std::hint::black_box;

use lampsickle::journal;
use lampsickle::Refusal;
use second::journal::{make, page as holding, Plan};
use second::limits::{JOURNAL_BYTES, JOURNAL_VERSION};
use second::random::Random;

use crate::fence::between_fences;
use crate::measure::{in_turns, Medians};

/// The first stores of an operation on a page: the number of a refusal, or 0.
#[derive(Clone, Copy)]
pub struct Implementation {
    pub append: fn(&mut [u8], &[u8], usize) -> u8,
    pub recover: fn(&mut [u8], usize) -> u8,
}

fn number(result: Result<(), Refusal>) -> u8 {
    match result {
        Ok(()) => 0,
        Err(refusal) => {
            assert_eq!(refusal.place, 0);
            refusal.number
        }
    }
}

/// The library between fences. With more stores than a page has bytes, the
/// whole operation is called.
pub const LIBRARY: Implementation = Implementation {
    append: |page, answer, stores| {
        let asked = |answer: &[u8], page: &mut [u8]| match stores > page.len() {
            true => journal::append(page, answer),
            false => journal::append_cut(page, answer, stores),
        };
        number(between_fences(asked, answer, page))
    },
    recover: |page, stores| {
        let asked = |_: &[u8], page: &mut [u8]| match stores > page.len() {
            true => journal::recover(page),
            false => journal::recover_cut(page, stores),
        };
        number(between_fences(asked, &[], page))
    },
};

pub const SECOND: Implementation = Implementation {
    append: |page, answer, stores| carry_out(second::journal::append(page, answer), page, stores),
    recover: |page, stores| carry_out(second::journal::recover(page), page, stores),
};

/// Makes the first stores of a plan.
pub fn carry_out(plan: Plan, page: &mut [u8], stores: usize) -> u8 {
    match plan {
        Ok(plan) => {
            make(&plan[..stores.min(plan.len())], page);
            0
        }
        Err(number) => number,
    }
}

/// A page and an answer.
#[derive(Clone, Debug)]
pub struct Case {
    pub page: Vec<u8>,
    pub answer: Vec<u8>,
}

/// More stores than any operation makes.
pub const ALL: usize = usize::MAX;

/// Pages up to this size are cut behind every store; on larger ones some cuts
/// are tried.
const EVERY: usize = 1_100;
const SOME: usize = 24;

fn cuts(size: usize, random: &mut Random) -> Vec<usize> {
    match size <= EVERY {
        true => (0..=size + 1).chain([ALL]).collect(),
        false => {
            let near = |place: usize| place.saturating_sub(3)..=place + 3;
            near(3).chain(near(size)).chain((0..SOME).map(|_| random.below(size))).chain([ALL]).collect()
        }
    }
}

fn cut_append(by: Implementation, case: &Case, stores: usize) -> (u8, Vec<u8>) {
    let mut page = case.page.clone();
    ((by.append)(&mut page, &case.answer, stores), page)
}

fn cut_recover(by: Implementation, page: &[u8], stores: usize) -> (u8, Vec<u8>) {
    let mut page = page.to_vec();
    ((by.recover)(&mut page, stores), page)
}

fn answers(page: &[u8]) -> Vec<Vec<u8>> {
    second::journal::answers(page).into_iter().map(<[u8]>::to_vec).collect()
}

/// What is different between two implementations, if anything.
pub fn differ(one: Implementation, other: Implementation, case: &Case, random: &mut Random) -> Option<String> {
    for stores in cuts(case.page.len(), random) {
        if cut_append(one, case, stores) != cut_append(other, case, stores) {
            return Some(format!("{stores} stores of appending"));
        }
        if cut_recover(one, &case.page, stores) != cut_recover(other, &case.page, stores) {
            return Some(format!("{stores} stores of recovery"));
        }
    }
    None
}

/// Which promise about a power cut doesn't hold of an implementation, if any.
pub fn broken(by: Implementation, case: &Case, random: &mut Random) -> Option<String> {
    let cuts = cuts(case.page.len(), random);
    let recovered = cut_recover(by, &case.page, ALL);
    for &stores in &cuts {
        let (_, cut) = cut_recover(by, &case.page, stores);
        if cut_recover(by, &cut, ALL) != recovered {
            return Some(format!("recovery after {stores} stores of recovery"));
        }
    }
    match cut_append(by, case, ALL).0 {
        0 => cuts.into_iter().find_map(|stores| lost(by, case, stores)),
        _ => None,
    }
}

/// What recovery loses or invents behind so many stores of appending.
fn lost(by: Implementation, case: &Case, stores: usize) -> Option<String> {
    let mut expected = answers(&case.page);
    if stores >= case.answer.len() + 3 {
        expected.push(case.answer.clone());
    }
    let (_, cut) = cut_append(by, case, stores);
    let (number, page) = cut_recover(by, &cut, ALL);
    let expected: Vec<&[u8]> = expected.iter().map(Vec::as_slice).collect();
    let kept = number == 0 && holding(&expected, case.page.len()) == Some(page);
    (!kept).then(|| format!("recovery after {stores} stores of appending"))
}

/// A generated case.
pub fn case(seed: u64, index: u64) -> Case {
    let mut random = Random::new(seed ^ index.wrapping_mul(0x2545_f491_4f6c_dd1d));
    let size = size(&mut random, index);
    let mut page = filled(&mut random, size);
    let answer = answer(&mut random, &page);
    if random.once_in(2) {
        damage(&mut random, &mut page, &answer);
    }
    Case { page, answer }
}

fn size(random: &mut Random, index: u64) -> usize {
    match random.below(40) {
        0 => random.below(JOURNAL_BYTES.least + 2),
        1 if index % 16 == 0 => JOURNAL_BYTES.most - 1 + random.below(3),
        2..=9 => random.between(250, EVERY),
        _ => random.between(JOURNAL_BYTES.least, 80),
    }
}

/// Bytes of which many are 1 and 0, as in lengths and closing bytes.
fn noise(random: &mut Random, length: usize) -> Vec<u8> {
    let mut bytes = vec![0; length];
    random.fill(&mut bytes);
    let few = random.below(4);
    bytes.into_iter().map(|byte| if usize::from(byte % 4) < few { byte / 4 % 2 } else { byte }).collect()
}

/// A page of finished entries and zeros.
fn filled(random: &mut Random, size: usize) -> Vec<u8> {
    let mut held: Vec<Vec<u8>> = Vec::new();
    let mut page = vec![0; size];
    if let Some(first) = page.first_mut() {
        *first = JOURNAL_VERSION;
    }
    for _ in 0..random.below(5) {
        let length = random.between(1, size / 3 + 1);
        held.push(noise(random, length));
        let slices: Vec<&[u8]> = held.iter().map(Vec::as_slice).collect();
        match holding(&slices, size) {
            Some(more) => page = more,
            None => return page,
        }
    }
    page
}

fn answer(random: &mut Random, page: &[u8]) -> Vec<u8> {
    let zeros = page.iter().rev().take_while(|byte| **byte == 0).count();
    let length = match random.below(8) {
        0 => random.below(3),
        1 | 2 => zeros.saturating_sub(4) + random.below(4),
        3 => random.between(250, 520),
        4 if random.once_in(20) => 65_530 + random.below(4_500),
        _ => random.between(1, zeros / 2 + 1),
    };
    noise(random, length)
}

/// Another version, single bytes, a tail of noise, or what a cut leaves.
fn damage(random: &mut Random, page: &mut [u8], answer: &[u8]) {
    if page.is_empty() {
        return;
    }
    match random.below(6) {
        0 => page[0] = random.below(3) as u8,
        1 | 2 => {
            let place = random.below(page.len());
            page[place] = noise(random, 1)[0];
        }
        3 => {
            let start = random.between(1, page.len());
            let tail = noise(random, page.len() - start);
            page[start..].copy_from_slice(&tail);
        }
        _ => {
            let stores = random.below(answer.len() + 3);
            carry_out(second::journal::append(page, answer), page, stores);
        }
    }
}

/// A piece of work to be measured: an operation on a page that is the same each
/// time, or appending to it until it is full.
pub struct Work {
    pub name: String,
    page: Vec<u8>,
    answer: Vec<u8>,
    kind: Kind,
}

enum Kind {
    Fill,
    Append,
    Recover,
}

/// The library without fences.
const BARE: Implementation = Implementation {
    append: |page, answer, _| number(journal::append(page, answer)),
    recover: |page, _| number(journal::recover(page)),
};

impl Work {
    pub fn measure(&self) -> Medians {
        let (mut one, mut other) = (self.page.clone(), self.page.clone());
        assert_eq!(self.run(BARE, &mut one), self.run(SECOND, &mut other));
        assert_eq!(one, other);
        in_turns(|| self.run(BARE, &mut one), || self.run(SECOND, &mut other))
    }

    /// Does the work on a copy of the page, and says how many operations it was.
    fn run(&self, by: Implementation, page: &mut [u8]) -> u32 {
        page.copy_from_slice(&self.page);
        let (page, answer) = (black_box(page), black_box(&self.answer));
        match self.kind {
            Kind::Fill => (0..).find(|_| (by.append)(page, answer, ALL) != 0).expect("a page is full at last"),
            Kind::Append => 1 + u32::from((by.append)(page, answer, ALL)),
            Kind::Recover => 1 + u32::from((by.recover)(page, ALL)),
        }
    }
}

/// What is measured, on pages of 4 KiB and of the greatest size.
pub fn works() -> Vec<Work> {
    let sizes = [("4 KiB", 4_096), ("65,535 bytes", JOURNAL_BYTES.most)];
    sizes.into_iter().flat_map(|(name, size)| works_on(name, size)).collect()
}

fn works_on(size_name: &str, size: usize) -> Vec<Work> {
    let answer = vec![7; 32];
    let empty = journal::empty(size).expect("a page's size");
    let mut full = empty.clone();
    while journal::append(&mut full, &answer).is_ok() {}
    let last = full.iter().rposition(|byte| *byte != 0).expect("an entry");
    let mut almost = full.clone();
    almost[last + 1 - 35..].fill(0);
    let mut torn = empty.clone();
    torn[1..].fill(7);
    let work = |name: &str, page: &[u8], kind| Work {
        name: format!("journal of {size_name}: {name}"),
        page: page.to_vec(),
        answer: answer.clone(),
        kind,
    };
    vec![
        work("appends of 32 bytes until full", &empty, Kind::Fill),
        work("append to an empty page", &empty, Kind::Append),
        work("append to an almost full page", &almost, Kind::Append),
        work("recovery of a full page", &full, Kind::Recover),
        work("recovery of a page without entries", &torn, Kind::Recover),
    ]
}
