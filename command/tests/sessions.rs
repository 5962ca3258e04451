//! What the command prints, as stored in sessions/: `$` a command line, then its output, `2>` before lines of standard error, and the
//! status where it is not 0. Run in a folder with copies of models/ and cases/. COVRITH_STORE=1 writes the files anew.

use std::fs;
use std::path::{Path, PathBuf};
use std::process::Command;

fn copy(from: &Path, to: &Path) {
    fs::create_dir_all(to).unwrap();
    for entry in fs::read_dir(from).unwrap() {
        let entry = entry.unwrap();
        let (from, to) = (entry.path(), to.join(entry.file_name()));
        if from.is_dir() {
            copy(&from, &to);
        } else {
            fs::copy(from, to).unwrap();
        }
    }
}

fn scratch(name: &str) -> PathBuf {
    let folder = Path::new(env!("CARGO_TARGET_TMPDIR")).join(name);
    let _ = fs::remove_dir_all(&folder);
    let root = Path::new(env!("CARGO_MANIFEST_DIR"));
    copy(&root.join("../models"), &folder.join("models"));
    for model in fs::read_dir(folder.join("models")).unwrap() {
        let _ = fs::remove_dir_all(model.unwrap().path().join("archive")); // the sessions make their own
    }
    copy(&root.join("tests/cases"), &folder.join("cases"));
    folder
}

/// A command line and what it prints.
fn transcript(line: &str, folder: &Path) -> String {
    let words = line.split_whitespace().skip(1);
    let done = Command::new(env!("CARGO_BIN_EXE_covrith"))
        .args(words)
        .current_dir(folder)
        .output()
        .unwrap();
    let mut text = format!("$ {line}\n");
    text.push_str(&String::from_utf8(done.stdout).unwrap());
    for said in String::from_utf8(done.stderr).unwrap().lines() {
        text.push_str(&format!("2> {said}\n"));
    }
    match done.status.code() {
        Some(0) => {}
        code => text.push_str(&format!("status {}\n", code.unwrap_or(-1))),
    }
    text
}

fn session(name: &str) {
    let folder = scratch(name);
    let path = Path::new(env!("CARGO_MANIFEST_DIR")).join(format!("tests/sessions/{name}.txt"));
    let stored = fs::read_to_string(&path).unwrap();
    let lines = stored.lines().filter_map(|line| line.strip_prefix("$ "));
    let now: String = lines.map(|line| transcript(line, &folder)).collect();
    if std::env::var("COVRITH_STORE").is_ok() {
        fs::write(&path, now).unwrap();
        return;
    }
    for (k, (was, is)) in stored.lines().zip(now.lines()).enumerate() {
        assert_eq!(is, was, "{name}, line {}", k + 1);
    }
    assert_eq!(now, stored);
}

#[test]
fn models() {
    session("models");
}

#[test]
fn ends() {
    session("ends");
}

#[test]
fn others() {
    session("others");
}

#[test]
fn tapes() {
    session("tapes");
}

#[test]
fn findings() {
    session("findings");
}

#[test]
fn joins() {
    session("joins");
}

#[test]
fn usage() {
    session("usage");
}

#[test]
fn studies() {
    session("studies");
}
