//! Principals as numbers: identifiers are equal when their canonical forms are.

use std::hash::{BuildHasher, RandomState};

/// Gives an identifier's form: adds it behind what the list holds.
pub type Form = fn(&[u8], &mut Vec<u8>);

/// Keys of these algorithms compare without case as a whole.
const HEXADECIMAL: [&[u8]; 2] = [b"rsa-hex", b"dsa-hex"];

/// How many bytes at an identifier's front compare without case: those before
/// the first ":", all where they name hexadecimal digits, none without a ":".
pub fn folded(identifier: &[u8]) -> usize {
    // Without a ":" this is told sooner than by `position`.
    if !identifier.contains(&b':') {
        return 0;
    }
    let front = identifier.iter().take_while(|&&byte| byte != b':').count();
    let algorithm = &identifier[..front];
    match HEXADECIMAL.iter().any(|name| algorithm.eq_ignore_ascii_case(name)) {
        true => identifier.len(),
        false => front,
    }
}

/// The canonical form: what compares without case in small letters.
pub fn canonical(identifier: &[u8], forms: &mut Vec<u8>) {
    let start = forms.len();
    forms.extend_from_slice(identifier);
    forms[start..][..folded(identifier)].make_ascii_lowercase();
}

/// An identifier as it is spelled: the equality of bytes, to compare with.
pub fn spelled(identifier: &[u8], forms: &mut Vec<u8>) {
    forms.extend_from_slice(identifier);
}

/// The canonical form by itself.
pub fn form_of(identifier: &[u8]) -> Vec<u8> {
    let mut form = Vec::with_capacity(identifier.len());
    canonical(identifier, &mut form);
    form
}

/// Each different form once, with a table of hashes to find it.
pub struct Principals {
    form: Form,
    /// Another one for each query: no list of identifiers is slow to number.
    seed: u64,
    /// The forms, one behind the other, and where each ends.
    forms: Vec<u8>,
    ends: Vec<usize>,
    /// Numbers of forms plus one, by hash; 0 is free.
    slots: Vec<u16>,
}

impl Principals {
    /// Room for at most `most` principals.
    pub fn new(form: Form, most: usize) -> Self {
        let slots = (2 * most).next_power_of_two();
        Self {
            form,
            seed: RandomState::new().hash_one(0),
            // Most identifiers are short.
            forms: Vec::with_capacity(16 * most),
            ends: Vec::with_capacity(most),
            slots: vec![0; slots],
        }
    }

    pub fn len(&self) -> usize {
        self.ends.len()
    }

    pub fn is_empty(&self) -> bool {
        self.ends.is_empty()
    }

    /// The number of a principal, which is added if it is new.
    pub fn number(&mut self, identifier: &[u8]) -> usize {
        let start = self.forms.len();
        (self.form)(identifier, &mut self.forms);
        let slot = self.slot(&self.forms[start..]);
        match self.slots[slot] {
            0 => {
                self.ends.push(self.forms.len());
                self.slots[slot] = self.ends.len() as u16;
                self.ends.len() - 1
            }
            number => {
                self.forms.truncate(start);
                usize::from(number) - 1
            }
        }
    }

    /// The number of a principal that was added.
    pub fn find(&self, identifier: &[u8]) -> Option<usize> {
        let mut form = Vec::with_capacity(identifier.len());
        (self.form)(identifier, &mut form);
        usize::from(self.slots[self.slot(&form)]).checked_sub(1)
    }

    /// The slot that holds the form, or the free one where it belongs.
    fn slot(&self, form: &[u8]) -> usize {
        let mask = self.slots.len() - 1;
        let mut slot = hash(self.seed, form) as usize & mask;
        loop {
            match usize::from(self.slots[slot]).checked_sub(1) {
                Some(number) if self.of_number(number) != form => slot = (slot + 1) & mask,
                _ => return slot,
            }
        }
    }

    fn of_number(&self, number: usize) -> &[u8] {
        let start = if number == 0 { 0 } else { self.ends[number - 1] };
        &self.forms[start..self.ends[number]]
    }
}

/// Mixes the bytes into a seed, eight at a time, by the two halves of a product.
fn hash(seed: u64, bytes: &[u8]) -> u64 {
    const ODD: u64 = 0x9e37_79b9_7f4a_7c15;
    let mix = |hash: u64, word: u64| {
        let product = u128::from(hash ^ word) * u128::from(ODD ^ seed);
        product as u64 ^ (product >> 64) as u64
    };
    let mut words = bytes.chunks_exact(8);
    let mut hash = mix(seed, bytes.len() as u64);
    for word in words.by_ref() {
        hash = mix(hash, u64::from_le_bytes(word.try_into().expect("eight bytes")));
    }
    let mut rest = [0; 8];
    rest[..words.remainder().len()].copy_from_slice(words.remainder());
    mix(hash, u64::from_le_bytes(rest))
}
