//! The program run, and files for it. Each program of tests uses a part of this.
#![allow(dead_code)]

use std::fs;
use std::io::Write;
use std::path::{Path, PathBuf};
use std::process::{Command, Output, Stdio};

pub const PROGRAM: &str = env!("CARGO_BIN_EXE_lampsickle");

const PLAIN: [&str; 5] = ["ask", "--values", "hold,immediate", "--requester", "a"];

pub fn run(arguments: &[&str], input: &[u8]) -> Output {
    let mut command = Command::new(PROGRAM);
    command.args(arguments).stdin(Stdio::piped()).stdout(Stdio::piped()).stderr(Stdio::piped());
    let mut child = command.spawn().expect("the program");
    // A program that reads no input may end before it is written.
    let _ = child.stdin.take().expect("an input").write_all(input);
    child.wait_with_output().expect("its output")
}

pub fn status(output: &Output) -> i32 {
    output.status.code().expect("a status")
}

pub fn printed(output: &Output) -> String {
    String::from_utf8(output.stdout.clone()).expect("text")
}

/// What went to standard error.
pub fn told(output: &Output) -> String {
    String::from_utf8(output.stderr.clone()).expect("text")
}

/// The words of a mistake, for which nothing is printed, with this status.
pub fn mistake(expected: i32, arguments: &[&str], input: &[u8]) -> String {
    let output = run(arguments, input);
    assert_eq!((status(&output), output.stdout.len()), (expected, 0), "{arguments:?} {}", told(&output));
    told(&output)
}

/// A query of two values and one requester, and more.
pub fn plain<'a>(more: &[&'a str]) -> Vec<&'a str> {
    PLAIN.into_iter().chain(more.iter().copied()).collect()
}

/// A file with this content.
pub fn file(name: &str, content: impl AsRef<[u8]>) -> String {
    let path = Path::new(env!("CARGO_TARGET_TMPDIR")).join(name);
    fs::write(&path, content).expect("a file");
    path.display().to_string()
}

pub fn root() -> PathBuf {
    Path::new(env!("CARGO_MANIFEST_DIR")).join("..")
}

pub fn first_ruling() -> Vec<u8> {
    fs::read(root().join("examples/first-ruling.record")).expect("the record")
}

/// Records behind their lengths.
pub fn prefixed(records: &[&[u8]]) -> Vec<u8> {
    let one = |record: &&[u8]| [&(record.len() as u32).to_be_bytes(), *record].concat();
    records.iter().flat_map(one).collect()
}
