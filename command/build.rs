//! What the program says of itself: the library that it links, and the kit and commit that were written down when that library was
//! proved (tools/note-proof). Nothing is asked of the PATH.

#[path = "src/sha256.rs"]
#[allow(dead_code)]
mod sha256;

use std::path::PathBuf;

fn main() {
    let beside = PathBuf::from(std::env::var("CARGO_MANIFEST_DIR").expect("set by cargo"));
    let folder = match std::env::var("COVRITH_LIB") {
        Ok(folder) => PathBuf::from(folder),
        Err(_) => beside.join("../target/staticlib"),
    };
    let library = folder.join("libcovrith.a");
    let note = folder.join("libcovrith.proved");
    let sum = std::fs::read(&library).map_or("unknown".to_string(), |bytes| sha256::hex(&bytes));
    let text = std::fs::read_to_string(&note).unwrap_or_default();
    let said = |name: &str| {
        let line = text
            .lines()
            .find_map(|line| line.strip_prefix(name)?.strip_prefix(' '));
        line.map(str::to_string)
    };
    // the note of another library says nothing of this one
    let (kit, commit) = match said("library") == Some(sum.clone()) {
        true => (said("kit"), said("commit")),
        false => (None, None),
    };
    println!("cargo:rustc-env=COVRITH_LIBRARY={sum}");
    println!(
        "cargo:rustc-env=COVRITH_KIT={}",
        kit.unwrap_or("not written down".to_string())
    );
    println!(
        "cargo:rustc-env=COVRITH_COMMIT=commit {}",
        commit.unwrap_or("not written down".to_string())
    );
    for path in ["build.rs", "src/sha256.rs"] {
        println!("cargo:rerun-if-changed={path}");
    }
    for path in [library, note] {
        println!("cargo:rerun-if-changed={}", path.display());
    }
    println!("cargo:rerun-if-env-changed=COVRITH_LIB");
}
