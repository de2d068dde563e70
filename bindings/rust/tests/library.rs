//! Where the library is looked for.

use std::fs;
use std::path::{Path, PathBuf};
use std::process::{Command, Output};

/// A folder of its own, with archives of nothing in `lib`.
fn folder(name: &str) -> PathBuf {
    let folder = Path::new(env!("CARGO_TARGET_TMPDIR")).join(name);
    let _ = fs::remove_dir_all(&folder);
    fs::create_dir_all(folder.join("lib")).expect("a folder");
    for library in ["keynote", "journal", "register"] {
        fs::write(folder.join(format!("lib/lib{library}.a")), "!<arch>\n").expect("an archive");
    }
    fs::create_dir_all(folder.join("elsewhere")).expect("a folder");
    folder
}

/// Builds this crate from a folder, the library in a directory.
fn build(target: &Path, from: &Path, library: &str) -> Output {
    let mut cargo = Command::new(env!("CARGO"));
    cargo.args([
        "build",
        "--offline",
        "--quiet",
        "--manifest-path",
        concat!(env!("CARGO_MANIFEST_DIR"), "/Cargo.toml"),
    ]);
    cargo.arg("--target-dir").arg(target).current_dir(from).env("LAMPSICKLE_LIB", library);
    cargo.output().expect("cargo")
}

#[test]
fn a_relative_directory_is_taken_from_where_cargo_is_run() {
    let folder = folder("relative");
    let (target, elsewhere) = (folder.join("target"), folder.join("elsewhere"));
    assert!(build(&target, &folder, "lib").status.success());
    assert!(build(&target, &elsewhere, "../lib").status.success());
    // The same word from another place is another directory, though this one was found before.
    assert!(build(&target, &folder, "lib").status.success());
    let missing = build(&target, &elsewhere, "lib");
    assert!(!missing.status.success());
    let words = String::from_utf8_lossy(&missing.stderr).into_owned();
    assert!(words.contains(&format!("{}/lib/libkeynote.a is missing", elsewhere.display())), "{words}");
}
