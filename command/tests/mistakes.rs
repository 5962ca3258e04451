//! The mistakes of a beginner, each with the exact message of `covrith check`: file, line, column, rule, remedy.

use std::path::Path;
use std::process::Command;

#[test]
fn messages_are_as_stored() {
    let here = Path::new(env!("CARGO_MANIFEST_DIR")).join("tests/mistakes");
    let entries = std::fs::read_dir(&here).unwrap();
    let mut folders: Vec<_> = entries.map(|e| e.unwrap().file_name()).collect();
    folders.sort();
    assert!(folders.len() >= 20);
    for folder in folders {
        for words in [vec!["check"], vec!["run"]] {
            let done = Command::new(env!("CARGO_BIN_EXE_covrith"))
                .args(&words)
                .arg(&folder)
                .current_dir(&here)
                .output()
                .unwrap();
            let said = String::from_utf8(done.stderr).unwrap();
            let stored = here.join(&folder).join("said");
            if std::env::var("COVRITH_STORE").is_ok() {
                std::fs::write(&stored, &said).unwrap();
            }
            let wanted = std::fs::read_to_string(&stored).unwrap();
            assert_eq!(said, wanted, "{folder:?}");
            assert_eq!((done.status.code(), &done.stdout[..]), (Some(1), &b""[..]));
            assert!(said.lines().next().unwrap().contains(".txt:"), "{said}");
            // nothing is written for a refused pair
            assert!(!here.join(&folder).join("model.bin").exists());
            assert!(!here.join(&folder).join("tape.bin").exists());
        }
    }
}
