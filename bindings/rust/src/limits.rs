//! The limits of a query record.

/// A closed range of counts or lengths.
#[derive(Clone, Copy, Debug, PartialEq, Eq)]
pub struct Range {
    pub least: usize,
    pub most: usize,
}

impl Range {
    const fn new(least: usize, most: usize) -> Self {
        Self { least, most }
    }

    pub const fn holds(self, number: usize) -> bool {
        self.least <= number && number <= self.most
    }
}

pub const RECORD_BYTES: usize = 65_535;
pub const RECORD_VERSION: u8 = 1;
pub const VALUES: Range = Range::new(2, 16);
pub const VALUE_BYTES: Range = Range::new(1, 64);
pub const REQUESTERS: Range = Range::new(1, 8);
pub const REQUESTER_BYTES: Range = Range::new(1, 256);
pub const ATTRIBUTES: Range = Range::new(0, 32);
pub const NAME_BYTES: Range = Range::new(1, 2_048);
pub const ATTRIBUTE_BYTES: Range = Range::new(0, 2_048);
pub const ASSERTIONS: Range = Range::new(0, 200);
pub const TEXT_BYTES: Range = Range::new(1, 8_192);

pub const REPORT_HEAD: usize = 3;
pub const REPORT_ENTRY: usize = 3;

/// A page that any report fits on.
pub const PAGE: usize = REPORT_HEAD + REPORT_ENTRY * ASSERTIONS.most;

/// A journal's page, in bytes.
pub const JOURNAL: Range = Range::new(16, 65_535);
pub const JOURNAL_VERSION: u8 = 1;
/// The last byte of a finished entry of a journal.
pub const CLOSING: u8 = 1;
