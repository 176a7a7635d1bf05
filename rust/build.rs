//! Says where the proved library lies, which `rt lib` in `crates/grain` writes.

use std::path::PathBuf;

fn main() {
    let here = std::env::var_os("CARGO_MANIFEST_DIR").expect("cargo sets it for a build step");
    let libraries = PathBuf::from(here).join("../crates/grain/out");
    let library = libraries.join("libgrain.a");
    println!("cargo:rustc-link-search=native={}", libraries.display());
    println!("cargo:rerun-if-changed={}", library.display());
    println!("cargo:rerun-if-changed=build.rs");
    if !library.is_file() {
        println!("cargo:warning=run `rt lib` in crates/grain first: it writes the library to link");
    }
}
