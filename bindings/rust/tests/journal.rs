//! Calls of the journal through the safe functions.

use lampsickle::journal::{answers, append, append_cut, empty, recover, recover_cut};
use lampsickle::Refusal;

fn refused(number: u8) -> Result<(), Refusal> {
    Err(Refusal { number, place: 0 })
}

#[test]
fn sizes_of_pages() {
    for (size, fine) in [(0, false), (15, false), (16, true), (65_535, true), (65_536, false)] {
        assert_eq!(empty(size).is_some(), fine, "{size}");
        let mut page = vec![1; size];
        page[1.min(size)..].fill(0);
        let before = page.clone();
        assert_eq!(recover(&mut page), if fine { Ok(()) } else { refused(5) }, "{size}");
        assert_eq!(page, before);
        assert_eq!(append(&mut page, b"a"), if fine { Ok(()) } else { refused(5) }, "{size}");
        assert_eq!(answers(&page).count(), usize::from(fine));
    }
}

#[test]
fn empty_slices() {
    assert_eq!(append(&mut [], &[]), refused(5));
    assert_eq!(append_cut(&mut [], b"a", 9), refused(5));
    assert_eq!(recover(&mut []), refused(5));
    assert_eq!(recover_cut(&mut [], 0), refused(5));
    assert_eq!(answers(&[]).count(), 0);
    assert_eq!(append(&mut empty(16).expect("a page"), &[]), refused(5));
}

#[test]
fn the_greatest_page_takes_the_longest_answer() {
    let mut page = empty(65_535).expect("a page");
    assert_eq!(append(&mut page, &[7; 65_532]), refused(9));
    assert_eq!(append(&mut page, &[7; 65_531]), Ok(()));
    assert_eq!(answers(&page).collect::<Vec<_>>(), [[7; 65_531]]);
    assert_eq!(append(&mut page, &[7]), refused(9));
}

#[test]
fn a_cut_counts_stores() {
    let mut page = empty(16).expect("a page");
    assert_eq!(append_cut(&mut page, b"abc", 3), Ok(()));
    assert_eq!(page[..8], [1, 0, 3, b'a', 0, 0, 0, 0]);
    assert_eq!(append(&mut page, b"abc"), refused(3));
    assert_eq!(recover_cut(&mut page, 13), Ok(()));
    assert_eq!(page[..4], [1, 0, 3, 0]);
    assert_eq!(recover(&mut page), Ok(()));
    assert_eq!(Some(page), empty(16));
}
