//! Links the archive of the proved totals, which `tools/prove exported_totals` makes.

fn main() {
    let package = std::env::var("CARGO_MANIFEST_DIR").expect("cargo says where the package is");
    let archive = format!("{package}/../../target/staticlib");
    println!("cargo:rerun-if-changed={archive}/libexported_totals.a");
    println!("cargo:rustc-link-search=native={archive}");
    println!("cargo:rustc-link-lib=static=exported_totals");
}
