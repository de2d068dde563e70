//! Webs whose principals are keys, spelled anew at each mention: they connect
//! by the equality of principals and not by bytes.

use super::expression::literal;
use super::{scene, web};
use crate::check::POLICY;
use crate::draft::Draft;
use crate::limits;
use crate::principal::folded;
use crate::random::Random;

/// What stands before a key's number: fronts that fold, keys that fold as a
/// whole, and identifiers that only look like them.
const FRONTS: [&[u8]; 18] = [
    b"dsa-hex:Ab",
    b"RSA-HEX:0f",
    b"Rsa-Hex:a:B:",
    b"dSA-hEX::",
    b"dsa-hex:\xc9[{",
    b"DSA:aB",
    b"rsa-base64:QmFz",
    b"two words:Xy",
    b"sha1-rsa-hex:aB",
    b"rsa-hexx:aB",
    b"rsa-hex :aB",
    b"\xc9t\xe9:aB",
    b"[k{`@Z:aB",
    b"x:rsa-hex:aB",
    b":aB",
    b"::aB",
    b"rsa-hexaB",
    b"plain aB",
];

/// A key with a number; some are as long as an identifier may be.
pub fn key(random: &mut Random, number: usize) -> Vec<u8> {
    let mut key = random.pick(&FRONTS).to_vec();
    if random.once_in(12) {
        let length = *random.pick(&[15, 16, 17, 31, 32, 33, 63, 64, 65, 250]);
        // Before what is there, or behind it.
        let more = b"xYzAbC0:".iter().cycle().take(length - key.len().min(length));
        match random.once_in(3) {
            true => key = more.filter(|&&byte| byte != b':').copied().chain(key).collect(),
            false => key.extend(more),
        }
    }
    key.extend(format!("k{number}").bytes());
    key.truncate(limits::PRINCIPAL_BYTES.most);
    key
}

/// Another spelling of the same principal, seldom of a near one.
pub fn spelling(random: &mut Random, key: &[u8]) -> Vec<u8> {
    match random.below(24) {
        0 => other_case(random, key),
        1 => other_byte(random, key),
        _ => {
            let mut spelling = key.to_vec();
            cases(random, &mut spelling[..folded(key)]);
            spelling
        }
    }
}

/// The same but for the case of letters, wherever they stand.
pub fn other_case(random: &mut Random, key: &[u8]) -> Vec<u8> {
    let mut other = key.to_vec();
    let first = random.below(other.len());
    cases(random, &mut other[first..]);
    other
}

/// All letters in one case, some in the other case, or as they are.
fn cases(random: &mut Random, letters: &mut [u8]) {
    match random.below(5) {
        0 => letters.make_ascii_lowercase(),
        1 => letters.make_ascii_uppercase(),
        2 => {}
        way => {
            let share = if way == 3 { 2 } else { 8 };
            for byte in letters.iter_mut().filter(|byte| byte.is_ascii_alphabetic()) {
                *byte ^= if random.once_in(share) { 0x20 } else { 0 };
            }
        }
    }
}

/// One byte with another bit 5: a letter in the other case, or another byte.
fn other_byte(random: &mut Random, key: &[u8]) -> Vec<u8> {
    let mut other = key.to_vec();
    let place = random.below(other.len());
    // A blank would be a NUL.
    other[place] ^= if other[place] == b' ' { 0 } else { 0x20 };
    other
}

pub fn draft(random: &mut Random) -> Draft {
    let keys: Vec<Vec<u8>> = (0..web::PRINCIPALS).map(|number| key(random, number)).collect();
    let values = values(random);
    let mut draft = web::spelled(random, values, &|random, number| match number {
        0 if random.once_in(40) => random.pick(&[&b"policy"[..], b"POLICY:", b"Policy"]).to_vec(),
        0 => POLICY.to_vec(),
        _ => spelling(random, &keys[number]),
    });
    if random.once_in(4) {
        let text = strings(random, &draft, &keys[1]);
        draft.assertions.insert(0, (1, text));
        draft.assertions.truncate(limits::ASSERTIONS.most);
    }
    while draft.record().len() > limits::RECORD_BYTES {
        draft.assertions.pop();
    }
    draft
}

/// Spellings of one key are different values.
fn values(random: &mut Random) -> Vec<Vec<u8>> {
    const VALUES: [&[u8]; 4] = [b"RSA:v", b"rsa:v", b"dsa-hex:v", b"DSA-HEX:V"];
    match random.once_in(4) {
        true => VALUES[..random.between(2, 4)].iter().map(|value| value.to_vec()).collect(),
        false => scene::values(random),
    }
}

/// Spellings of one key are different strings, and requesters keep theirs.
fn strings(random: &mut Random, draft: &Draft, key: &[u8]) -> Vec<u8> {
    let joined = draft.requesters.join(&b',');
    let (left, right) = match random.below(3) {
        0 => (b"_ACTION_AUTHORIZERS".to_vec(), joined),
        1 => (b"_ACTION_AUTHORIZERS".to_vec(), joined.to_ascii_lowercase()),
        _ => {
            let left = spelling(random, key);
            (literal(random, &left), spelling(random, key))
        }
    };
    let operator = *random.pick(&[&b" == "[..], b" != ", b" < "]);
    let right = literal(random, &right);
    let value = literal(random, &draft.values[draft.values.len() - 1]);
    [b"Authorizer: \"POLICY\"\nConditions: ", &left[..], operator, &right, b" -> ", &value, b";"].concat()
}
