//! Reads a query record from standard input and prints its answer.

use std::io::{self, Read, Write};

fn main() -> io::Result<()> {
    let mut record = Vec::new();
    // One byte over the limit is enough to be refused for it.
    let most = second::limits::RECORD_BYTES as u64 + 1;
    io::stdin().lock().take(most).read_to_end(&mut record)?;
    io::stdout().write_all(second::print::print(&record).as_bytes())
}
