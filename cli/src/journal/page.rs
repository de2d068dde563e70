//! A journal's page: what it holds by the proved recovery, and the steps by which a
//! medium comes to hold more. Behind each step there is a barrier.

use lampsickle::{journal, Refusal};

/// Pages that the medium is to hold, one after the other. Each is made from the page
/// before the first step, by the proved stores up to the step's barrier.
pub type Steps = Vec<Vec<u8>>;

/// The length's stores, then the answer's, then that of the closing byte.
pub fn appending(page: &[u8], answer: &[u8]) -> Result<Steps, Refusal> {
    let stores = [2, answer.len() + 2, answer.len() + 3];
    let after = |stores| changed(page, |page| journal::append_cut(page, answer, stores));
    stores.into_iter().map(after).collect()
}

fn changed(page: &[u8], change: impl FnOnce(&mut [u8]) -> Result<(), Refusal>) -> Result<Vec<u8>, Refusal> {
    let mut after = page.to_vec();
    change(&mut after).map(|()| after)
}

pub struct Page {
    bytes: Vec<u8>,
    /// The page after recovery: the finished entries, then zeros.
    kept: Vec<u8>,
}

/// What stands behind the last finished entry.
#[derive(Clone, Copy, Debug, PartialEq, Eq)]
pub enum Ending {
    Zeros,
    /// What an append or a recovery leaves that a power cut interrupts.
    Cut,
    /// What neither leaves: the bytes were changed by something else.
    Damaged,
}

impl Page {
    pub fn of(bytes: &[u8]) -> Result<Self, Refusal> {
        let kept = changed(bytes, journal::recover)?;
        Ok(Self { bytes: bytes.to_vec(), kept })
    }

    pub fn answers(&self) -> impl Iterator<Item = &[u8]> {
        journal::answers(&self.kept)
    }

    /// Where the finished entries end. Each ends with a closing byte, and none is 0.
    pub fn end(&self) -> usize {
        self.kept.iter().rposition(|byte| *byte != 0).map_or(0, |last| last + 1)
    }

    pub fn room(&self) -> usize {
        self.bytes.len() - self.end()
    }

    /// What is behind them up to the zeros at the page's end.
    pub fn behind(&self) -> &[u8] {
        let rest = &self.bytes[self.end()..];
        &rest[..rest.iter().rposition(|byte| *byte != 0).map_or(0, |last| last + 1)]
    }

    /// A cut leaves a length for which there is room, or one of its two bytes, and
    /// zeros behind the answer's place.
    pub fn ending(&self) -> Ending {
        let length = match self.behind() {
            [] => return Ending::Zeros,
            [high] => usize::from(*high) << 8,
            [high, low, ..] => usize::from(u16::from_be_bytes([*high, *low])),
        };
        match length + 3 <= self.room() && self.behind().len() <= length + 2 {
            true => Ending::Cut,
            false => Ending::Damaged,
        }
    }

    /// All but the last two stores, which are those of a length, then these.
    pub fn recovery(&self) -> Result<Steps, Refusal> {
        let before = self.room().saturating_sub(2);
        let first = changed(&self.bytes, |page| journal::recover_cut(page, before))?;
        Ok(vec![first, changed(&self.bytes, journal::recover)?])
    }
}
