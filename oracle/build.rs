//! Copies the source's four files into OUT_DIR, byte for byte, each with its block of accessors
//! from src/append/ behind it, and writes the module tree that compiles them as `cap::token` etc.
//!
//! The source is the folder in STONESPRY_SOURCE, else ../shared/docs/src beside the repository.
//! With the feature `port`, the port's static libraries are linked from the folder in STONESPRY_NATIVE.

use std::env;
use std::fmt::Write;
use std::fs;
use std::path::{Path, PathBuf};

const FILES: [&str; 4] = ["token", "space", "manager", "revocation"];

fn main() {
    let project = PathBuf::from(env::var_os("CARGO_MANIFEST_DIR").unwrap());
    let out = PathBuf::from(env::var_os("OUT_DIR").unwrap());

    println!("cargo:rerun-if-changed=build.rs");
    println!("cargo:rerun-if-env-changed=STONESPRY_SOURCE");
    let source = match env::var_os("STONESPRY_SOURCE") {
        Some(folder) => PathBuf::from(folder),
        None => project.join("../../shared/docs/src"),
    };
    let mut tree = String::new();
    for file in FILES {
        let original = source.join(format!("kernel/src/cap/{file}.rs"));
        let appended = project.join(format!("src/append/{file}.rs"));
        let copy = out.join(format!("{file}.rs"));
        extend(&original, &appended, &copy);
        // What is allowed here is allowed in the source: it is not edited to please a newer compiler.
        writeln!(tree, "#[allow(dead_code, unused, clippy::all)]\n#[path = {copy:?}]\npub mod {file};").unwrap();
    }
    fs::write(out.join("cap.rs"), tree).unwrap();

    if env::var_os("CARGO_FEATURE_PORT").is_some() {
        link_port();
    }
}

/// Writes `copy`: the original's bytes, then the appended block; and looks that it is so.
fn extend(original: &Path, appended: &Path, copy: &Path) {
    println!("cargo:rerun-if-changed={}", original.display());
    println!("cargo:rerun-if-changed={}", appended.display());
    let bytes = read(original);
    fs::write(copy, [bytes.clone(), read(appended)].concat()).unwrap();
    assert!(read(copy).starts_with(&bytes), "{} does not start with {}", copy.display(), original.display());
}

fn read(file: &Path) -> Vec<u8> {
    fs::read(file).unwrap_or_else(|e| panic!("{}: {e} (STONESPRY_SOURCE names the source's folder)", file.display()))
}

fn link_port() {
    println!("cargo:rerun-if-env-changed=STONESPRY_NATIVE");
    let folder = PathBuf::from(env::var_os("STONESPRY_NATIVE").expect("STONESPRY_NATIVE: the port's folder"));
    println!("cargo:rerun-if-changed={}", folder.display());
    println!("cargo:rustc-link-search=native={}", folder.display());
}
