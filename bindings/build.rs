//! Finds the archive that a crate links, libodu0.a for `odu0`, in ODU0_LIB_DIR or where
//! `bindings/archive` writes it. The name is that of `links` in the crate's Cargo.toml. An archive
//! to which archives.txt gives no crates is not made, and not linked.

use std::path::PathBuf;
use std::{env, fs, process};

fn main() {
    println!("cargo:rerun-if-env-changed=ODU0_LIB_DIR");
    println!("cargo:rerun-if-changed=../archives.txt");
    let name = env::var("CARGO_MANIFEST_LINKS").unwrap();
    let list = fs::read_to_string("../archives.txt").unwrap();
    if list.lines().any(|line| line.trim() == format!("{name}:")) {
        return;
    }
    // Cargo runs this in the folder of the crate. The path is taken then, and not when this is
    // compiled, so that a tree that was copied with its target/ finds its own archive.
    let dir = PathBuf::from(env::var_os("ODU0_LIB_DIR").unwrap_or("../../target/staticlib".into()));
    let file = format!("lib{name}.a");
    println!("cargo:rerun-if-changed={}", dir.join(&file).display());
    let dir = env::current_dir().unwrap().join(dir);
    let archive = dir.join(&file);
    if !archive.is_file() {
        eprintln!("There is no {}.", archive.display());
        eprintln!(
            "Run `bindings/archive` in the repository first, or set ODU0_LIB_DIR to the folder \
             that holds {file}."
        );
        process::exit(1);
    }
    println!("cargo:rustc-link-search=native={}", dir.display());
    println!("cargo:rustc-link-lib=static={name}");
}
