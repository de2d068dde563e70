//! The commands on the pages of `docs/` and `examples/`, and what they print.
//!
//! In a block of "console" a command begins with "$ " and goes on while lines end
//! with a backslash; what stands behind it is what it prints, on both outputs.

mod common;

use std::fs;
use std::path::{Path, PathBuf};
use std::process::{Command, Stdio};

use common::{root, PROGRAM};

/// A folder of its own with a copy of the examples.
fn playground(name: &str) -> PathBuf {
    let folder = Path::new(env!("CARGO_TARGET_TMPDIR")).join(name);
    let _ = fs::remove_dir_all(&folder);
    copy(&root().join("examples"), &folder.join("examples"));
    folder
}

fn copy(from: &Path, to: &Path) {
    fs::create_dir_all(to).expect("a folder");
    for entry in fs::read_dir(from).expect("a folder") {
        let entry = entry.expect("an entry");
        match entry.path().is_dir() {
            true => copy(&entry.path(), &to.join(entry.file_name())),
            false => drop(fs::copy(entry.path(), to.join(entry.file_name())).expect("a copy")),
        }
    }
}

/// A command and what it is to print.
struct Shown {
    command: String,
    printed: String,
}

fn shown(page: &str) -> Vec<Shown> {
    let mut all: Vec<Shown> = Vec::new();
    let (mut inside, mut going_on) = (false, false);
    for line in page.lines() {
        match (inside, line) {
            (_, "```console") => inside = true,
            (_, "```") => inside = false,
            (false, _) => {}
            (true, _) => going_on = add(&mut all, line, going_on),
        }
    }
    all
}

/// Adds a line of a block; whether the command goes on after it.
fn add(all: &mut Vec<Shown>, line: &str, going_on: bool) -> bool {
    if let Some(command) = line.strip_prefix("$ ") {
        all.push(Shown { command: command.into(), printed: String::new() });
        return line.ends_with('\\');
    }
    let last = all.last_mut().expect("a command before what it prints");
    let part = if going_on { &mut last.command } else { &mut last.printed };
    if going_on {
        part.push('\n');
    }
    part.push_str(line);
    if !going_on {
        part.push('\n');
    }
    going_on && line.ends_with('\\')
}

fn run(command: &str, folder: &Path) -> String {
    let programs = Path::new(PROGRAM).parent().expect("a folder").display().to_string();
    let path = format!("{programs}:{}", std::env::var("PATH").unwrap_or_default());
    let script = format!("exec 2>&1\n{command}");
    let mut shell = Command::new("sh");
    shell.args(["-c", &script]).current_dir(folder).env("PATH", path).stdin(Stdio::null());
    String::from_utf8_lossy(&shell.output().expect("a shell").stdout).into_owned()
}

fn check(page: &str, folder: &str) {
    let place = playground(&page.replace('/', "-")).join(folder);
    let text = fs::read_to_string(root().join(page)).expect("a page");
    let all = shown(&text);
    assert!(!all.is_empty(), "{page}: no commands");
    for Shown { command, printed } in all {
        assert_eq!(run(&command, &place), printed, "{page}: {command}");
    }
}

#[test]
fn readme() {
    check("README.md", ".");
}

#[test]
fn using() {
    check("docs/USING.md", ".");
}

#[test]
fn port() {
    check("examples/port/README.md", "examples/port");
}

#[test]
fn spend() {
    check("examples/spend/README.md", "examples/spend");
}

#[test]
fn moves() {
    check("examples/moves/README.md", "examples/moves");
}

#[test]
fn email() {
    check("examples/email/README.md", "examples/email");
}
