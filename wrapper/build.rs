//! Links libcovrith.a, which `tools/staticlib` writes to target/staticlib; COVRITH_LIB names another folder.

use std::path::PathBuf;

fn main() {
    let beside = PathBuf::from(std::env::var("CARGO_MANIFEST_DIR").expect("set by cargo"));
    let folder = match std::env::var("COVRITH_LIB") {
        Ok(folder) => PathBuf::from(folder),
        Err(_) => beside.join("../target/staticlib"),
    };
    let archive = folder.join("libcovrith.a");
    if !archive.exists() {
        panic!("{} is not there: run `tools/staticlib`", archive.display());
    }
    println!("cargo:rustc-link-search=native={}", folder.display());
    println!("cargo:rustc-link-lib=static=covrith");
    println!("cargo:rerun-if-changed={}", archive.display());
    println!("cargo:rerun-if-env-changed=COVRITH_LIB");
}
