//! Links the archive of the proved controller, which `tools/prove mekhturia` makes.

use std::path::Path;

fn main() {
    let package = std::env::var("CARGO_MANIFEST_DIR").expect("cargo says where the package is");
    let folder =
        std::env::var("MEKHTURIA_ARCHIVE").unwrap_or(format!("{package}/../../target/staticlib"));
    let archive = format!("{folder}/libmekhturia.a");
    println!("cargo:rerun-if-env-changed=MEKHTURIA_ARCHIVE");
    println!("cargo:rerun-if-changed={archive}");
    if !Path::new(&archive).exists() {
        eprintln!("mekhturia: there is no {archive}: make it with `tools/prove mekhturia`, or name its folder in MEKHTURIA_ARCHIVE");
        std::process::exit(1);
    }
    println!("cargo:rustc-link-search=native={folder}");
    println!("cargo:rustc-link-lib=static=mekhturia");
}
