//! Patterns: the rulings, each fault, the meaning of a pattern computed without the
//! search, and the C library's matcher.

use std::collections::BTreeSet;
use std::ffi::{c_char, c_int, c_void, CString};

use second::generate::pattern::{broken, pattern, string, valid};
use second::pattern::{matches, read, Fault, Repeat, Tree};
use second::random::Random;

fn unhex(digits: &str) -> Vec<u8> {
    let byte = |index: usize| u8::from_str_radix(&digits[index..index + 2], 16).expect("hex digits");
    (0..digits.len()).step_by(2).map(byte).collect()
}

#[test]
fn rulings() {
    let lines = include_str!("../../data/patterns.tsv").lines().filter(|line| !line.starts_with('#'));
    let mut count = 0;
    for line in lines {
        let columns: Vec<&str> = line.split('\t').collect();
        let [name, pattern, string, expected] = columns[..] else { panic!("four columns: {line}") };
        let found = match matches(&unhex(pattern), &unhex(string)) {
            Ok(true) => "yes",
            Ok(false) => "no",
            Err(_) => "error",
        };
        assert_eq!(found, expected, "{name}");
        count += 1;
    }
    assert_eq!(count, 101);
}

#[test]
fn faults() {
    let of = |pattern: &str| read(pattern.as_bytes()).expect_err(pattern);
    assert_eq!(of(&"a".repeat(257)), Fault::Long);
    assert_eq!(["", "a|", "()", "(a|)"].map(of), [Fault::NoPiece; 4]);
    assert_eq!(["*", "a**", "^*", "(+a)"].map(of), [Fault::Repetition; 4]);
    assert_eq!(["(a", "((a)"].map(of), [Fault::OpenGroup; 2]);
    assert_eq!([")", "a)"].map(of), [Fault::NoGroup; 2]);
    assert_eq!(["{", "a{1}"].map(of), [Fault::Curly; 2]);
    assert_eq!(["\\", "\\]", "a\\1"].map(of), [Fault::Escape; 3]);
    assert_eq!(["[", "[]", "[^]", "[a-"].map(of), [Fault::OpenSet; 4]);
    assert_eq!(["[b-a]"].map(of), [Fault::Falling]);
    assert_eq!(["[a-c-e]", "[--a]", "[a--]"].map(of), [Fault::Hyphen; 3]);
    assert_eq!(["[[:a:]]", "[a[.]", "[A-[=]"].map(of), [Fault::Class; 3]);
    assert!(read(&[b'a'; 256]).is_ok());
}

/// All byte values: which are ordinary, which a backslash makes ordinary.
#[test]
fn every_byte() {
    for byte in 1..=255u8 {
        let special = b"^.[$()|*+?{\\".contains(&byte);
        let alone = matches(&[byte], &[byte]);
        assert_eq!(alone.is_ok() && read(&[byte]) == Ok(Tree::Byte(byte)), !special, "{byte}");
        assert_eq!(read(&[b'\\', byte]).is_ok(), special, "{byte}");
        for other in 1..=255u8 {
            if special {
                assert_eq!(matches(&[b'\\', byte], &[other]), Ok(byte == other));
            }
            assert_eq!(matches(b".", &[other]), Ok(true));
        }
    }
}

/// The ends of all matches of a tree that begin at a place, by the words of the
/// request: no search, no steps.
fn ends(tree: &Tree, string: &[u8], start: usize) -> BTreeSet<usize> {
    let one = |fits: bool| if fits { BTreeSet::from([start + 1]) } else { BTreeSet::new() };
    let none = |fits: bool| if fits { BTreeSet::from([start]) } else { BTreeSet::new() };
    let byte = string.get(start).copied();
    match tree {
        Tree::Start => none(start == 0),
        Tree::End => none(start == string.len()),
        Tree::AnyByte => one(byte.is_some()),
        Tree::Byte(wanted) => one(byte == Some(*wanted)),
        Tree::Set(set) => one(byte.is_some_and(|byte| set.holds(byte))),
        Tree::Pieces(pieces) => pieces.iter().fold(BTreeSet::from([start]), |places, piece| {
            places.into_iter().flat_map(|place| ends(piece, string, place)).collect()
        }),
        Tree::Branches(branches) => branches.iter().flat_map(|branch| ends(branch, string, start)).collect(),
        Tree::Repeat(Repeat::Optional, inner) => ends(inner, string, start).into_iter().chain([start]).collect(),
        Tree::Repeat(repeat, inner) => {
            let mut all = ends(inner, string, start);
            loop {
                let more: BTreeSet<usize> = all.iter().flat_map(|&place| ends(inner, string, place)).collect();
                if more.is_subset(&all) {
                    break;
                }
                all.extend(more);
            }
            all.extend((*repeat == Repeat::Any).then_some(start));
            all
        }
    }
}

#[test]
fn meaning_without_the_search() {
    let mut random = Random::new(208);
    let mut found = [0; 2];
    for _ in 0..60_000 {
        let pattern = valid(&mut random);
        let mut string = string(&mut random, &pattern);
        string.truncate(12);
        let tree = read(&pattern).unwrap();
        let expected = (0..=string.len()).any(|start| !ends(&tree, &string, start).is_empty());
        assert_eq!(matches(&pattern, &string), Ok(expected), "{:?} on {string:?}", String::from_utf8_lossy(&pattern));
        found[usize::from(expected)] += 1;
    }
    assert!(found[0] > 10_000 && found[1] > 10_000, "{found:?}");
}

/// Time is bounded by the pattern times the string, also where ways multiply.
#[test]
fn no_way_is_gone_twice() {
    let string = vec![b'a'; 4_096];
    for pattern in ["((a*)*)*b", "(a|aa|aaa)*b", "(a?a?a?a?)*b", "(c|a(.(..)*b|.)*b)*b", "^(a*a*a*a*)*$"] {
        let expected = pattern.starts_with('^');
        assert_eq!(matches(pattern.as_bytes(), &string), Ok(expected), "{pattern}");
    }
    let pattern = "a?".repeat(128);
    assert_eq!(matches(pattern.as_bytes(), &string), Ok(true));
}

#[test]
fn broken_ones_are_mostly_broken() {
    let mut random = Random::new(9);
    let count = (0..10_000).filter(|_| read(&broken(&mut random)).is_err()).count();
    assert!(count > 8_000, "{count}");
}

// The C library's matcher. A `regex_t` of glibc has 64 bytes.
extern "C" {
    fn regcomp(regex: *mut c_void, pattern: *const c_char, flags: c_int) -> c_int;
    fn regexec(regex: *const c_void, string: *const c_char, count: usize, found: *mut c_void, flags: c_int) -> c_int;
    fn regfree(regex: *mut c_void);
}

const REG_EXTENDED: c_int = 1;
const REG_NOSUB: c_int = 8;

/// A pattern as the C library reads it.
struct Compiled(Box<[u64; 32]>);

impl Compiled {
    fn new(pattern: &[u8]) -> Option<Self> {
        let pattern = CString::new(pattern).ok()?;
        let mut regex = Box::new([0; 32]);
        // SAFETY: the room is larger than a `regex_t`, the pattern ends with a NUL.
        let status = unsafe { regcomp(regex.as_mut_ptr().cast(), pattern.as_ptr(), REG_EXTENDED | REG_NOSUB) };
        (status == 0).then_some(Self(regex))
    }

    fn matches(&self, string: &[u8]) -> bool {
        let string = CString::new(string).expect("no NUL");
        // SAFETY: compiled before, and no places are asked for.
        unsafe { regexec(self.0.as_ptr().cast(), string.as_ptr(), 0, std::ptr::null_mut(), 0) == 0 }
    }
}

impl Drop for Compiled {
    fn drop(&mut self) {
        // SAFETY: compiled before.
        unsafe { regfree(self.0.as_mut_ptr().cast()) }
    }
}

fn anchored(tree: &Tree) -> bool {
    match tree {
        Tree::Start | Tree::End => true,
        Tree::Pieces(trees) | Tree::Branches(trees) => trees.iter().any(anchored),
        Tree::Repeat(_, inner) => anchored(inner),
        _ => false,
    }
}

/// Whether an anchor stands in a group that is repeated.
fn repeats_anchor(tree: &Tree) -> bool {
    match tree {
        Tree::Pieces(trees) | Tree::Branches(trees) => trees.iter().any(repeats_anchor),
        Tree::Repeat(_, inner) => anchored(inner),
        _ => false,
    }
}

/// A million pairs. The program keeps the locale "C", so that the C library takes
/// bytes as they are. Left out are:
/// - patterns that aren't valid here, as the C library has more (`a{2}`, `[[:alpha:]]`)
///   and takes some of the others as ordinary (`a)`); it accepts all that is valid here;
/// - anchors on strings that hold a newline: glibc 2.36 lets `$.` match "\nx";
/// - anchors in a group that is repeated: glibc 2.36 lets `(ab|^a)+b` match "aabc".
///
/// `meaning_without_the_search` has those patterns too.
#[test]
fn as_the_c_library() {
    let mut random = Random::new(1003);
    let (mut pairs, mut found) = (0, 0);
    while pairs < 1_000_000 {
        let pattern = pattern(&mut random);
        let Ok(tree) = read(&pattern) else { continue };
        if repeats_anchor(&tree) {
            continue;
        }
        let anchored = anchored(&tree);
        let compiled = Compiled::new(&pattern).unwrap_or_else(|| panic!("{:?}", String::from_utf8_lossy(&pattern)));
        for _ in 0..25 {
            let string = string(&mut random, &pattern);
            if anchored && string.contains(&b'\n') {
                continue;
            }
            let expected = compiled.matches(&string);
            let shown = (String::from_utf8_lossy(&pattern), String::from_utf8_lossy(&string));
            assert_eq!(matches(&pattern, &string), Ok(expected), "{shown:?}");
            pairs += 1;
            found += usize::from(expected);
        }
    }
    assert!((300_000..700_000).contains(&found), "{found}");
}
