//! Links the proved static libraries from the repository's `target/staticlib`,
//! or from the directory that `LAMPSICKLE_LIB` names.

use std::os::unix::process::parent_id;
use std::path::{Path, PathBuf};
use std::process::exit;

/// Each is made by `tools/build NAME`, as libNAME.a.
const LIBRARIES: [&str; 3] = ["keynote", "journal", "register"];

fn main() {
    let directory = directory();
    println!("cargo:rerun-if-env-changed=LAMPSICKLE_LIB");
    println!("cargo:rustc-link-search=native={}", directory.display());
    for library in LIBRARIES {
        link(&directory, library);
    }
}

fn link(directory: &Path, library: &str) {
    let archive = directory.join(format!("lib{library}.a"));
    println!("cargo:rerun-if-changed={}", archive.display());
    if !archive.is_file() {
        eprintln!("{} is missing.", archive.display());
        eprintln!("Run `tools/build {library}` at the root of the repository, or set LAMPSICKLE_LIB to the archives' directory.");
        exit(1);
    }
    println!("cargo:rustc-link-lib=static={library}");
}

fn directory() -> PathBuf {
    match std::env::var_os("LAMPSICKLE_LIB") {
        Some(directory) if !directory.is_empty() => whole(Path::new(&directory)),
        _ => {
            let here = std::env::var_os("CARGO_MANIFEST_DIR").expect("cargo sets it");
            Path::new(&here).join("../../target/staticlib")
        }
    }
}

/// A relative directory is taken from where cargo is run, not from here.
fn whole(directory: &Path) -> PathBuf {
    if directory.is_absolute() {
        return directory.into();
    }
    // From elsewhere it is another directory, so the script is run each time:
    // what is named here is never there.
    println!("cargo:rerun-if-changed=never-there");
    let cargo = format!("/proc/{}/cwd", parent_id());
    let run = std::fs::read_link(cargo).ok().or_else(|| std::env::var_os("PWD").map(PathBuf::from));
    match run.filter(|run| run.is_absolute()) {
        Some(run) => run.join(directory),
        None => {
            eprintln!("LAMPSICKLE_LIB is relative, and where cargo is run isn't known: give the whole path.");
            exit(1);
        }
    }
}
