//! The power cut: of what is written to a medium, some arrives.

use std::io;

use lampsickle::journal;

use super::held::{carry_out, Medium};
use super::page::{appending, Ending, Page, Steps};

/// The single byte writes between two barriers, and behind the last.
#[derive(Default)]
struct Recorder {
    done: Vec<Vec<(usize, u8)>>,
    open: Vec<(usize, u8)>,
}

impl Medium for Recorder {
    fn write(&mut self, place: usize, bytes: &[u8]) -> io::Result<()> {
        self.open.extend((place..).zip(bytes.iter().copied()));
        Ok(())
    }

    fn barrier(&mut self) -> io::Result<()> {
        self.done.push(std::mem::take(&mut self.open));
        Ok(())
    }
}

type Writes = Vec<Vec<(usize, u8)>>;

fn recorded(page: &[u8], steps: Steps) -> Writes {
    let mut recorder = Recorder::default();
    carry_out(&mut recorder, page, steps).expect("a record");
    assert!(recorder.open.is_empty(), "a barrier behind the last write");
    recorder.done
}

fn replayed<'a>(page: &[u8], writes: impl IntoIterator<Item = &'a (usize, u8)>) -> Vec<u8> {
    let mut after = page.to_vec();
    writes.into_iter().for_each(|(place, byte)| after[*place] = *byte);
    after
}

/// What a cut may leave: all writes of the steps before one, and of this one the first
/// few or any others. Where there are many, those of the latter are drawn.
fn cuts(page: &[u8], writes: &Writes) -> Vec<Vec<u8>> {
    let mut pages = Vec::new();
    let mut draw = 1u64;
    for (step, of_step) in writes.iter().enumerate() {
        let before = replayed(page, writes[..step].iter().flatten());
        pages.extend((0..=of_step.len()).map(|count| replayed(&before, &of_step[..count])));
        for number in 0..1u64 << of_step.len().min(8) {
            draw = draw.wrapping_mul(6_364_136_223_846_793_005).wrapping_add(1_442_695_040_888_963_407);
            let mask = if of_step.len() <= 8 { number } else { draw >> 20 };
            let some = of_step.iter().enumerate().filter(|(item, _)| mask >> (item % 40) & 1 == 1);
            pages.push(replayed(&before, some.map(|(_, write)| write)));
        }
    }
    pages
}

fn page_with(size: usize, answers: &[&[u8]]) -> Vec<u8> {
    let mut page = journal::empty(size).expect("a page");
    answers.iter().for_each(|answer| journal::append(&mut page, answer).expect("room"));
    page
}

fn recovered(page: &[u8]) -> Vec<u8> {
    let steps = Page::of(page).and_then(|page| page.recovery()).expect("a journal");
    replayed(page, recorded(page, steps).iter().flatten())
}

/// Pages, and answers that fit on them.
fn cases() -> Vec<(Vec<u8>, Vec<u8>)> {
    let long: Vec<u8> = (0..=255).cycle().take(700).collect();
    vec![
        (page_with(16, &[]), b"rank 1".to_vec()),
        (page_with(16, &[]), vec![1; 12]),
        (page_with(40, &[b"a", b"\x01\x01\x01"]), b"\0\0\x01\0\x01\x01".to_vec()),
        (page_with(40, &[b"\0"]), vec![0; 5]),
        (page_with(64, &[b"rank 0"]), b"class immediate\nrank 1 of 2\n".to_vec()),
        (page_with(800, &[b"x"]), long.clone()),
        (page_with(800, &[&long[..256]]), long[..257].to_vec()),
        (page_with(1_000, &[]), vec![1; 512]),
        (page_with(1_000, &[b"end"]), vec![1; 257]),
    ]
}

#[test]
fn an_append_that_is_cut() {
    for (page, answer) in cases() {
        let writes = recorded(&page, appending(&page, &answer).expect("room"));
        let closing = *writes.last().and_then(|last| last.last()).expect("the closing byte");
        assert_eq!((writes.len(), closing.1), (3, 1));
        let mut with = page.clone();
        journal::append(&mut with, &answer).expect("room");
        assert_eq!(replayed(&page, writes.iter().flatten()), with);
        for cut in cuts(&page, &writes) {
            let found = Page::of(&cut).expect("a journal");
            let expected = if cut[closing.0] == 1 { &with } else { &page };
            assert_eq!(recovered(&cut), *expected, "{cut:?}");
            let ending = if cut == with || cut == page { Ending::Zeros } else { Ending::Cut };
            assert_eq!(found.ending(), ending, "{cut:?}");
            assert!(found.answers().eq(journal::answers(expected)), "{cut:?}");
        }
    }
}

#[test]
fn a_recovery_that_is_cut() {
    for (page, answer) in cases() {
        let writes = recorded(&page, appending(&page, &answer).expect("room"));
        // Behind the length, and behind the answer.
        for steps in 1..=2 {
            let torn = replayed(&page, writes[..steps].iter().flatten());
            let again = recorded(&torn, Page::of(&torn).and_then(|page| page.recovery()).expect("a journal"));
            assert_eq!(again.len(), 2);
            for cut in cuts(&torn, &again) {
                assert_eq!(recovered(&cut), page, "{cut:?}");
                assert_ne!(Page::of(&cut).expect("a journal").ending(), Ending::Damaged, "{cut:?}");
            }
        }
    }
}

/// The same tests find what is lost, and what was never kept, where there are no barriers.
#[test]
fn barriers_are_needed() {
    let once = |writes: &[Vec<(usize, u8)>]| vec![writes.concat()];
    let (page, answer) = (page_with(400, &[b"a"]), vec![1; 257]);
    let writes = recorded(&page, appending(&page, &answer).expect("room"));
    let torn = replayed(&page, writes[..2].iter().flatten());
    let with = replayed(&page, writes.iter().flatten());
    assert!(cuts(&page, &once(&writes)).iter().any(|cut| ![&page, &with].contains(&&recovered(cut))));
    let again = recorded(&torn, Page::of(&torn).and_then(|page| page.recovery()).expect("a journal"));
    assert!(cuts(&torn, &once(&again)).iter().any(|cut| recovered(cut) != page));
}

/// Writes are of what differs, and no other byte is touched.
#[test]
fn what_is_written() {
    let page = page_with(40, &[b"a"]);
    let writes = recorded(&page, appending(&page, b"x\0y").expect("room"));
    assert_eq!(writes, [vec![(6, 3)], vec![(7, b'x'), (9, b'y')], vec![(10, 1)]]);
    let recovery = recorded(&page, Page::of(&page).and_then(|page| page.recovery()).expect("a journal"));
    assert_eq!(recovery.concat(), []);
}

/// What no cut leaves. The last entry's closing byte alone might not have been stored.
#[test]
fn damage() {
    let page = page_with(40, &[b"one", b"two", b"three"]);
    let ending = |writes: &[(usize, u8)]| Page::of(&replayed(&page, writes)).expect("a journal").ending();
    assert_eq!(ending(&[]), Ending::Zeros);
    assert_eq!(ending(&[(6, 0)]), Ending::Damaged, "the first closing byte");
    assert_eq!(ending(&[(2, 200)]), Ending::Damaged, "the first length");
    assert_eq!(ending(&[(20, 0)]), Ending::Cut, "the last closing byte");
    assert_eq!(ending(&[(20, 2)]), Ending::Damaged, "another closing byte");
    assert_eq!(ending(&[(21, 1)]), Ending::Damaged, "a length over the room");
    assert_eq!(ending(&[(22, 16)]), Ending::Cut, "a length that just fits");
    assert_eq!(ending(&[(22, 17)]), Ending::Damaged, "one byte more");
    assert_eq!(ending(&[(23, 1)]), Ending::Damaged, "behind a length of 0");
    assert_eq!(ending(&[(22, 2), (24, 9)]), Ending::Cut, "a part of an answer");
    assert_eq!(ending(&[(22, 2), (26, 9)]), Ending::Damaged, "behind an answer");
}
