//! A drawn tape and its page drawn.txt: archived with the distributions where they fit the tape, and told where they no longer do.

use std::fs;
use std::path::{Path, PathBuf};
use std::process::Command;

const MODEL: &str = "\
FACILITY clerk
LIST     arrivals, service
COUNTER  30
         GENERATE  arrivals
         SEIZE     clerk
         ADVANCE   service
         RELEASE   clerk
         TERMINATE 1
";

const DISTRIBUTIONS: &str = "\
arrivals: exponential 20, 40 times, stream 1
service:  erlang 2 15, 40 times, stream 2
";

/// A folder with a model and its distributions, whose tape is drawn.
fn drawn(name: &str) -> PathBuf {
    let folder = Path::new(env!("CARGO_TARGET_TMPDIR")).join(name);
    let _ = fs::remove_dir_all(&folder);
    fs::create_dir_all(&folder).unwrap();
    fs::write(folder.join("model.txt"), MODEL).unwrap();
    fs::write(folder.join("distributions.txt"), DISTRIBUTIONS).unwrap();
    covrith(&folder, &["tape", "distributions.txt", "tape.bin"]);
    folder
}

/// What a command that ends well says on standard error.
fn covrith(folder: &Path, words: &[&str]) -> String {
    let mut command = Command::new(env!("CARGO_BIN_EXE_covrith"));
    let done = command.args(words).current_dir(folder).output().unwrap();
    let said = String::from_utf8(done.stderr).unwrap();
    assert!(done.status.success(), "{words:?}: {said}");
    said
}

fn payload(folder: &Path, name: &str) -> Option<Vec<u8>> {
    fs::read(folder.join("archive/data").join(name)).ok()
}

#[test]
fn an_archive_takes_the_distributions_of_its_tape_along() {
    let folder = drawn("drawn-archived");
    covrith(&folder, &["archive", "."]);
    assert_eq!(
        payload(&folder, "distributions.txt").unwrap(),
        DISTRIBUTIONS.as_bytes()
    );
    assert_eq!(
        payload(&folder, "drawn.txt").unwrap(),
        fs::read(folder.join("drawn.txt")).unwrap()
    );
    covrith(&folder, &["verify", "archive"]);
    // the tape that the archived distributions give is the archived tape
    let again = Path::new(env!("CARGO_TARGET_TMPDIR")).join("drawn-again.bin");
    let _ = fs::remove_file(&again);
    let to = again.to_str().unwrap();
    covrith(&folder, &["tape", "archive/data/distributions.txt", to]);
    assert_eq!(
        payload(&folder, "tape.bin").unwrap(),
        fs::read(again).unwrap()
    );
}

#[test]
fn distributions_of_another_tape_stay_outside() {
    let folder = drawn("drawn-another");
    let mut tape = fs::read(folder.join("tape.bin")).unwrap();
    tape[1] = (tape[1] + 1) % 100; // the first time of the first list
    fs::write(folder.join("tape.bin"), tape).unwrap();
    let said = covrith(&folder, &["archive", "."]);
    for name in ["drawn.txt", "distributions.txt"] {
        assert_eq!(payload(&folder, name), None);
        assert!(said.contains(name), "{said}");
    }
    covrith(&folder, &["verify", "archive"]);
}

#[test]
fn distributions_that_were_changed_since_are_told() {
    let folder = drawn("drawn-changed");
    let told = |said: &str| said.contains("distributions.txt");
    assert!(!told(&covrith(&folder, &["run", "."])));
    let other = DISTRIBUTIONS.replace("exponential 20", "exponential 25");
    fs::write(folder.join("distributions.txt"), other).unwrap();
    let said = covrith(&folder, &["run", "."]);
    assert!(told(&said), "{said}");
}
