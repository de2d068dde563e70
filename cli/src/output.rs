//! The two outputs: answers go to the standard output, all else to standard error.

use std::io::{self, ErrorKind, Write};

use crate::end::Trouble;

/// Whether somebody still reads the standard output.
#[derive(Clone, Copy, Debug, PartialEq, Eq)]
pub enum Reader {
    There,
    Gone,
}

/// Writes to standard output, at once. A reader that went away is no error.
pub fn answered(bytes: &[u8]) -> Result<Reader, Trouble> {
    let mut output = io::stdout().lock();
    match output.write_all(bytes).and_then(|()| output.flush()) {
        Ok(()) => Ok(Reader::There),
        Err(error) if error.kind() == ErrorKind::BrokenPipe => Ok(Reader::Gone),
        Err(error) => Err(Trouble::with("standard output", &error)),
    }
}

/// Writes to standard error. Where that can't be written, nothing can be said of it.
pub fn aside(text: &str) {
    let _ = io::stderr().lock().write_all(text.as_bytes());
}

/// A line on standard error, in the program's name.
pub fn told(words: &str) {
    aside(&format!("lampsickle: {words}\n"));
}
