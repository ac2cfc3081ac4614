//! Where the proved library is found, and whether it has been built.

use std::path::Path;

fn main() {
    let folder = Path::new(env!("CARGO_MANIFEST_DIR")).join("../target/staticlib");
    let library = folder.join("libjullpinay.a");
    println!("cargo:rerun-if-changed={}", folder.display());
    println!("cargo:rustc-check-cfg=cfg(not_built)");
    println!("cargo:rustc-link-search=native={}", folder.display());
    if !library.exists() {
        println!("cargo:rustc-cfg=not_built");
    }
}
