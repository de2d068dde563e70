//! Every limit of the query record and of assertion texts, each named once.

/// A closed range of counts, lengths or values.
#[derive(Clone, Copy, Debug, PartialEq, Eq)]
pub struct Range {
    pub least: usize,
    pub most: usize,
}

impl Range {
    pub const fn new(least: usize, most: usize) -> Self {
        Self { least, most }
    }

    pub const fn holds(self, number: usize) -> bool {
        self.least <= number && number <= self.most
    }
}

// The query record.
pub const RECORD_BYTES: usize = 65_535;
pub const RECORD_VERSION: u8 = 1;
pub const VALUES: Range = Range::new(2, 16);
pub const VALUE_BYTES: Range = Range::new(1, 64);
pub const REQUESTERS: Range = Range::new(1, 8);
pub const REQUESTER_BYTES: Range = Range::new(1, 256);
pub const ATTRIBUTES: Range = Range::new(0, 32);
pub const NAME_BYTES: Range = Range::new(1, 2_048);
pub const ATTRIBUTE_BYTES: Range = Range::new(0, 2_048);
pub const ASSERTIONS: Range = Range::new(0, 200);
pub const TEXT_BYTES: Range = Range::new(1, 8_192);
pub const STANDING_MOST: u8 = 2;

// The report.
pub const REPORT_VERSION: u8 = 1;
pub const REPORT_HEAD: usize = 3;
pub const REPORT_ENTRY: usize = 3;

// Assertion texts.
pub const KEYNOTE_VERSION: u32 = 2;
pub const CONSTANTS: usize = 16;
pub const LICENSEES: usize = 16;
pub const THRESHOLD: Range = Range::new(1, 16);
pub const BRACKETS: usize = 16;
pub const PREFIXES: usize = 16;
pub const LITERAL_BYTES: usize = 2_048;
pub const PRINCIPAL_BYTES: Range = Range::new(1, 256);
pub const INTEGER_LITERAL: u32 = 2_147_483_647;
pub const FLOAT_DIGITS: usize = 18;

// Evaluation.
pub const STRING_BYTES: usize = 4_096;
pub const PATTERN_BYTES: usize = 256;
pub const FLOAT_EXPONENT: f32 = 64.0;

// The journal.
pub const JOURNAL_BYTES: Range = Range::new(16, 65_535);
pub const JOURNAL_VERSION: u8 = 1;
pub const CLOSING: u8 = 1;

// The register of priority moves.
pub const REGISTER_PLACES: usize = 64;
pub const REGISTER_MOVES: u64 = 1_000_000;
pub const REGISTER_VERSION: u8 = 1;
pub const REGISTER_HEAD: usize = 9;
pub const REGISTER_PLACE: usize = 13;
pub const REGISTER_BYTES: usize = REGISTER_HEAD + REGISTER_PLACES * REGISTER_PLACE;
