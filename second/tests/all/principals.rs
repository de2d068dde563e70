//! The equality of principals: K01's table, its laws, and the numbers given to
//! spellings of one principal.

use std::collections::BTreeSet;

use second::generate::keys;
use second::principal::{canonical, form_of, Principals};
use second::random::Random;

/// Whether two identifiers are one principal, in the words of the rule, byte
/// against byte; no form is built.
pub fn same(left: &[u8], right: &[u8]) -> bool {
    let front = |identifier: &[u8]| identifier.iter().position(|&byte| byte == b':');
    let (Some(first), Some(second)) = (front(left), front(right)) else {
        return left == right;
    };
    let hexadecimal = alike(&left[..first], b"rsa-hex") || alike(&left[..first], b"dsa-hex");
    let (left_rest, right_rest) = (&left[first..], &right[second..]);
    let rest = if hexadecimal { alike(left_rest, right_rest) } else { left_rest == right_rest };
    rest && alike(&left[..first], &right[..second])
}

/// Equal but for the case of letters A to Z.
fn alike(left: &[u8], right: &[u8]) -> bool {
    let capital = |one: u8, other: u8| one.is_ascii_uppercase() && other == one + (b'a' - b'A');
    let letters = |(&one, &other): (&u8, &u8)| one == other || capital(one, other) || capital(other, one);
    left.len() == right.len() && left.iter().zip(right).all(letters)
}

fn equal(left: &[u8], right: &[u8]) -> bool {
    form_of(left) == form_of(right)
}

#[test]
fn table() {
    let table: [(&[u8], &[u8], bool); 16] = [
        (b"DSA:ab", b"dsa:ab", true),
        (b"DSA:ab", b"DSA:AB", false),
        (b"rsa-hex:ab", b"RSA-HEX:AB", true),
        (b"dsa-hex:a:Xy", b"DSA-hex:A:xY", true),
        (b"rsa-hexx:a", b"rsa-hexx:A", false),
        (b"rsa-base64:a", b"RSA-BASE64:a", true),
        (b":a", b":A", false),
        (b":a", b"a", false),
        (b"a", b"A", false),
        (b"rsa-hex", b"RSA-HEX", false),
        (b"rsa-hex:", b"RSA-HEX:", true),
        (b"\xc9:a", b"\xe9:a", false),
        (b"POLICY", b"policy", false),
        (b"POLICY", b"POLICY:", false),
        (b"POLICY:", b"policy:", true),
        (b"[:a", b"{:a", false),
    ];
    for (left, right, expected) in table {
        assert_eq!(equal(left, right), expected, "{left:?} {right:?}");
        assert_eq!(same(left, right), expected, "{left:?} {right:?}");
    }
}

/// Some keys in many spellings, and near ones.
fn identifiers(random: &mut Random) -> Vec<Vec<u8>> {
    let keys: Vec<Vec<u8>> = (0..3).map(|number| keys::key(random, number)).collect();
    let mut all: Vec<Vec<u8>> = (0..9).map(|place| keys::spelling(random, &keys[place % 3])).collect();
    all.extend(keys.iter().map(|key| keys::other_case(random, key)));
    all.push(b"POLICY".to_vec());
    all
}

/// Reflexive, symmetric, transitive, and as the words of the rule say.
#[test]
fn laws() {
    let mut random = Random::new(205);
    let (mut spellings, mut chains) = (0, 0);
    for _ in 0..2_000 {
        let all = identifiers(&mut random);
        for a in &all {
            assert!(equal(a, a));
            assert_eq!(form_of(&form_of(a)), form_of(a));
            for b in &all {
                assert_eq!(equal(a, b), same(a, b), "{a:?} {b:?}");
                assert_eq!(same(a, b), same(b, a), "{a:?} {b:?}");
                spellings += usize::from(equal(a, b) && a != b);
                for c in all.iter().filter(|c| same(b, c)) {
                    assert!(!same(a, b) || same(a, c), "{a:?} {b:?} {c:?}");
                    chains += usize::from(same(a, b) && a != b && b != c && a != c);
                }
            }
        }
    }
    assert!(spellings > 10_000 && chains > 10_000, "{spellings} {chains}");
}

#[test]
fn policy_alone() {
    let mut random = Random::new(206);
    for number in 0..20_000 {
        let key = if number % 2 == 0 { b"POLICY".to_vec() } else { keys::key(&mut random, 1) };
        let other = keys::other_case(&mut random, &key);
        assert_eq!(equal(b"POLICY", &other), other == b"POLICY", "{other:?}");
    }
}

/// Spellings are given one number exactly where they are one principal.
#[test]
fn numbers() {
    let mut random = Random::new(207);
    for _ in 0..2_000 {
        let all = identifiers(&mut random);
        let mut principals = Principals::new(canonical, all.len());
        let numbers: Vec<usize> = all.iter().map(|identifier| principals.number(identifier)).collect();
        for (a, first) in all.iter().zip(&numbers) {
            assert_eq!(principals.find(a), Some(*first));
            for (b, second) in all.iter().zip(&numbers) {
                assert_eq!(first == second, same(a, b), "{a:?} {b:?}");
            }
        }
        assert_eq!(principals.len(), numbers.iter().collect::<BTreeSet<_>>().len());
        let stranger = b"a stranger".to_vec();
        assert_eq!(principals.find(&stranger), None);
    }
}
