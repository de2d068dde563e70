//! An assertion's text, read as far as files and messages need it. What it is
//! worth is the library's to say: nothing here changes a record.

pub mod literal;
pub mod pattern;
#[cfg(test)]
mod random;
pub mod reading;
pub mod tokens;

use lampsickle::limits::Range;

/// What an assertion may hold, beside the limits of a record.
pub const CONSTANTS: usize = 16;
pub const LICENSEES: usize = 16;
pub const BRACKETS: usize = 16;
pub const PREFIXES: usize = 16;
pub const LITERAL_BYTES: usize = 2_048;
pub const STRING_BYTES: usize = 4_096;
pub const FLOAT_DIGITS: usize = 18;
pub const PATTERN_BYTES: usize = 256;
pub const PRINCIPAL_BYTES: Range = Range { least: 1, most: 256 };
