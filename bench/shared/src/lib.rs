//! What the packages share that measure proved functions beside plain Rust: floors, numbers that look random, places in lent words, the form
//! rule, how far long work is; and for their build scripts, the link to the proved functions.

pub mod floors;
pub mod numbers;
pub mod places;
pub mod progress;
pub mod rule;

/// For a build script: links the archive that `tools/prove NAME` makes.
pub fn link(name: &str) {
    let package = std::env::var("CARGO_MANIFEST_DIR").expect("cargo says where the package is");
    let archive = format!("{package}/../../target/staticlib");
    println!("cargo:rerun-if-changed={archive}/lib{name}.a");
    println!("cargo:rustc-link-search=native={archive}");
    println!("cargo:rustc-link-lib=static={name}");
}
