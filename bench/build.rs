//! Links the archive that `rt lib` writes in crates/c_api.

use std::path::Path;

fn main() {
    let root = std::env::var("CARGO_MANIFEST_DIR").unwrap();
    let archive = Path::new(&root).join("../crates/c_api/out");
    println!("cargo:rustc-link-search=native={}", archive.display());
    println!("cargo:rustc-link-lib=static=c_api");
    println!("cargo:rerun-if-changed={}", archive.join("libc_api.a").display());
}
