//! The fences themselves.

use comparison::fence::between_fences;
use second::Outcome;

#[test]
#[should_panic(expected = "beside the page")]
fn a_byte_behind_the_page() {
    between_fences(
        |_, page| {
            // SAFETY: the byte behind the page is the fence's.
            unsafe { *page.as_mut_ptr().add(page.len()) = 0 };
            Outcome::default()
        },
        &[1],
        &mut [0; 5],
    );
}

#[test]
fn nothing_written() {
    let mut page = [9; 5];
    assert_eq!(between_fences(|_, _| Outcome::default(), &[1], &mut page), Outcome::default());
    assert_eq!(page, [9; 5]);
}
