//! With the feature `port`, links the port's static library from the folder in STONESPRY_NATIVE.

use std::env;
use std::path::PathBuf;

fn main() {
    println!("cargo:rerun-if-changed=build.rs");
    if env::var_os("CARGO_FEATURE_PORT").is_some() {
        link_port();
    }
}

fn link_port() {
    println!("cargo:rerun-if-env-changed=STONESPRY_NATIVE");
    let folder = PathBuf::from(env::var_os("STONESPRY_NATIVE").expect("STONESPRY_NATIVE: the folder of libhost.a"));
    println!("cargo:rerun-if-changed={}", folder.join("libhost.a").display());
    println!("cargo:rustc-link-search=native={}", folder.display());
}
