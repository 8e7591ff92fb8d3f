//! Links libpti.a from the folder PTI_LIB_DIR, or from target/staticlib of this repository, where `./library` writes it.

use std::env;
use std::path::{Path, PathBuf};

fn main() {
    println!("cargo:rerun-if-env-changed=PTI_LIB_DIR");
    let folder = env::var_os("PTI_LIB_DIR").map_or_else(|| Path::new(&env::var_os("CARGO_MANIFEST_DIR").unwrap()).join("../../target/staticlib"), PathBuf::from);
    let library = folder.join("libpti.a");
    // Else a library that was built anew would not be linked anew.
    println!("cargo:rerun-if-changed={}", library.display());
    println!("cargo:rustc-link-search=native={}", folder.display());
    println!("cargo:rustc-link-lib=static=pti");
    // `cargo doc` and `cargo check` do without it.
    if !library.exists() {
        println!("cargo:warning=there is no {}: `./library` makes it, and PTI_LIB_DIR names another folder of it", library.display());
    }
}
