//! Links the proved library, which `bin/build library` writes to target/staticlib at the repository's root.

use std::path::Path;

fn main() {
    let folder = Path::new(env!("CARGO_MANIFEST_DIR")).join("../../target/staticlib");
    let archive = folder.join("libexports.a");
    assert!(archive.exists(), "{} is missing: run `bin/build library` at the repository's root", archive.display());
    println!("cargo:rerun-if-changed={}", archive.display());
    println!("cargo:rustc-link-search=native={}", folder.display());
    println!("cargo:rustc-link-lib=static=exports");
}
