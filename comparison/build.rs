//! Links the orders of looking names up, which only the benchmark calls, from
//! the repository's `target/staticlib` or the directory that `LAMPSICKLE_LIB`
//! names.

use std::path::PathBuf;
use std::process::exit;

fn main() {
    println!("cargo:rerun-if-env-changed=LAMPSICKLE_LIB");
    let here = PathBuf::from(std::env::var_os("CARGO_MANIFEST_DIR").expect("cargo sets it"));
    let directory = match std::env::var_os("LAMPSICKLE_LIB") {
        Some(directory) if !directory.is_empty() => here.join(directory),
        _ => here.join("../target/staticlib"),
    };
    let archive = directory.join("liborders.a");
    println!("cargo:rerun-if-changed={}", archive.display());
    if !archive.is_file() {
        eprintln!("{} is missing. Run `tools/build orders` at the root of the repository.", archive.display());
        exit(1);
    }
    println!("cargo:rustc-link-search=native={}", directory.display());
    println!("cargo:rustc-link-lib=static=orders");
}
