//! Files, read no further than is of use.

use std::ffi::OsStr;
use std::fs::File;
use std::io::{self, Read};
use std::os::unix::ffi::OsStrExt;

use crate::arguments::STANDARD;
use crate::end::Trouble;
use crate::text::shown;

/// How much of a file is read that isn't a record: many times what a record holds.
pub const FILE_BYTES: usize = 1 << 20;

/// The bytes at a file's front, and whether it goes on behind them.
pub struct Front {
    pub bytes: Vec<u8>,
    pub more: bool,
}

/// At most `most` bytes of a file; "-" is standard input.
pub fn front(option: &str, file: &[u8], most: usize) -> Result<Front, Trouble> {
    let read = match file {
        STANDARD => taken(&mut io::stdin().lock(), most),
        _ => File::open(OsStr::from_bytes(file)).and_then(|mut file| taken(&mut file, most)),
    };
    read.map_err(|error| Trouble::with(format!("{option} {}", shown(file)).trim_start(), &error))
}

/// The error of a file that goes on behind `FILE_BYTES`.
pub fn too_long(option: &str, file: &[u8]) -> Trouble {
    let file = shown(file);
    Trouble::file(format!("{option} {file}: more than {FILE_BYTES} bytes, which no query has room for"))
}

/// At most `most` bytes; one more is read, to know whether there are more.
pub fn taken(input: &mut impl Read, most: usize) -> io::Result<Front> {
    let mut bytes = Vec::new();
    input.take(most as u64 + 1).read_to_end(&mut bytes)?;
    let more = bytes.len() > most;
    bytes.truncate(most);
    Ok(Front { bytes, more })
}

/// A mark that editors put before a text, by what to do about it.
pub fn byte_order_mark(bytes: &[u8]) -> Option<&'static str> {
    if bytes.starts_with(b"\xef\xbb\xbf") {
        return Some("a byte order mark stands before the text: save the file as UTF-8 without one");
    }
    let wide = bytes.starts_with(b"\xff\xfe") || bytes.starts_with(b"\xfe\xff");
    wide.then_some("a byte order mark of UTF-16 stands before the text: save the file as UTF-8 without one")
}

/// What to do about a return.
pub const RETURN: &str =
    "a return (\\r) isn't permitted here: lines end with a newline alone, as `tr -d '\\r'` makes them";
