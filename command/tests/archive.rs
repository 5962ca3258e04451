//! Archives: a second run of what was archived is the same, and any change of a file is noticed. `tools/check-archive` has what the
//! program does when it is killed, when a file system fails, and where others verify.

use command::commands::archive;
use command::execute::Lent;
use command::page1;
use command::study::{other_text, Study};
use command::verify::{verify, Form, Judgement, Verdict};
use reference::generate::random::Random;
use reference::generate::{case, Size};
use std::fs;
use std::path::{Path, PathBuf};
use std::process::Command;

/// A folder of its own for a test.
fn scratch(name: &str) -> PathBuf {
    let folder = Path::new(env!("CARGO_TARGET_TMPDIR")).join(name);
    let _ = fs::remove_dir_all(&folder);
    fs::create_dir_all(&folder).unwrap();
    folder
}

const MODEL: [u8; 19] = [1, 1, 0, 0, 0, 2, 2, 5, 1, 1, 0, 4, 1, 2, 2, 5, 1, 3, 1];
const TAPE: [u8; 6] = [2, 3, 2, 2, 5, 4];
const DAY: &str = "2026-11-18";

fn put(place: &Path, model: &[u8], tape: &[u8], lent: Lent, columns: bool) {
    let study = Study::of_bytes(place, model.to_vec(), tape.to_vec()).unwrap();
    archive(&study, lent, columns, place, false, DAY).unwrap();
}

/// A new file in place of the old: to overwrite one waits for the disk.
fn write(path: &Path, bytes: &[u8]) {
    let _ = fs::remove_file(path);
    fs::write(path, bytes).unwrap();
}

fn judged(folder: &Path) -> Judgement {
    verify(folder, Form::Bag)
}

fn noticed(folder: &Path, what: &str) {
    assert_ne!(judged(folder).verdict(), Verdict::Same, "{what}");
}

fn files(folder: &Path) -> Vec<PathBuf> {
    let mut found = Vec::new();
    for entry in fs::read_dir(folder).unwrap() {
        let path = entry.unwrap().path();
        match path.is_dir() {
            true => found.extend(files(&path)),
            false => found.push(path),
        }
    }
    found.sort();
    found
}

#[test]
fn any_change_of_any_file_is_noticed() {
    for columns in [false, true] {
        let folder = scratch(if columns {
            "changed columns"
        } else {
            "changes"
        })
        .join("archive");
        put(&folder, &MODEL, &TAPE, Lent::usual(None, None), columns);
        assert_eq!(
            judged(&folder),
            Judgement {
                maker: judged(&folder).maker,
                ..Judgement::default()
            }
        );
        let all = files(&folder);
        assert_eq!(all.len(), 4 + 7);
        for path in &all {
            let bytes = fs::read(path).unwrap();
            // the page of formats is long and only summed: each of its bytes once is enough
            let long = bytes.len() > 10_000;
            for at in (0..bytes.len()).step_by(if long && columns { 997 } else { 1 }) {
                for mask in if long { &[1][..] } else { &[1, 128] } {
                    let mut other = bytes.clone();
                    other[at] ^= mask;
                    write(path, &other);
                    noticed(&folder, &format!("{} at {at}", path.display()));
                }
            }
            for other in [
                &bytes[..bytes.len() - 1],
                &[&bytes[..], b"\n"].concat(),
                b"",
            ] {
                write(path, other);
                noticed(&folder, &format!("{} of another length", path.display()));
            }
            fs::remove_file(path).unwrap();
            noticed(&folder, &format!("{} removed", path.display()));
            write(path, &bytes);
            let added = path.with_file_name("another.txt");
            write(&added, b"x");
            noticed(&folder, "a file added");
            fs::remove_file(&added).unwrap();
            for other in all.iter().filter(|other| *other > path) {
                let beside = folder.join("..").join("beside");
                let exchange = |a: &Path, b: &Path| {
                    fs::rename(a, &beside).unwrap();
                    fs::rename(b, a).unwrap();
                    fs::rename(&beside, b).unwrap();
                };
                exchange(path, other);
                noticed(&folder, "two files exchanged");
                exchange(path, other);
            }
        }
        fs::create_dir(folder.join("data/more")).unwrap();
        noticed(&folder, "a folder added");
        fs::remove_dir(folder.join("data/more")).unwrap();
        assert_eq!(judged(&folder).verdict(), Verdict::Same);
    }
}

#[test]
fn the_first_differing_record_is_named() {
    let folder = scratch("record").join("archive");
    put(&folder, &MODEL, &TAPE, Lent::usual(None, None), false);
    let path = folder.join("data/trace.bin");
    let mut trace = fs::read(&path).unwrap();
    trace[17] = 3; // the transaction of the fifth record
    fs::write(&path, &trace).unwrap();
    let lines: Vec<String> = judged(&folder).findings.into_iter().map(|f| f.1).collect();
    assert!(lines[0].starts_with("data/trace.bin: its SHA-256 is "));
    assert_eq!(
        lines[1],
        "data/trace.bin: record 5, at byte 16: archived \"clock 5, transaction 3, block 2, began to wait\", now \"clock 5, transaction 2, block 2, began to wait\""
    );
    fs::write(&path, &trace[..16]).unwrap();
    let found = judged(&folder).findings;
    let line = "data/trace.bin: record 5, at byte 16: archived no more records, now \"clock 5, transaction 2, block 2, began to wait\"";
    assert!(found
        .iter()
        .any(|(differs, found)| *differs && found == line));
}

/// Budget and room belong to an archive: a run that they cut is the same again, whatever the usual ones are.
#[test]
fn runs_that_their_limits_cut() {
    let folder = scratch("limits");
    for (k, (budget, room)) in [(3, 65_536), (1_000, 20), (1_000, 44), (0, 0), (11, 56)]
        .into_iter()
        .enumerate()
    {
        let one = folder.join(k.to_string());
        let lent = Lent {
            budget,
            room,
            short: false,
        };
        put(&one, &MODEL, &TAPE, lent, k % 2 == 0);
        assert_eq!(judged(&one).verdict(), Verdict::Same);
    }
}

/// A run that was lent less because memory was short, and did not need it, has the page of a run that was lent all.
#[test]
fn short_memory_leaves_no_trace() {
    let folder = scratch("short");
    let usual = Lent {
        budget: 1_000,
        room: command::execute::ROOM,
        short: false,
    };
    let short = Lent {
        room: 1_000,
        short: true,
        ..usual
    };
    put(&folder.join("usual"), &MODEL, &TAPE, usual, false);
    put(&folder.join("short"), &MODEL, &TAPE, short, false);
    for (a, b) in files(&folder.join("usual"))
        .iter()
        .zip(files(&folder.join("short")))
    {
        assert_eq!(fs::read(a).unwrap(), fs::read(b).unwrap());
    }
    // one that needed it is not archived
    let cut = Lent { room: 20, ..short };
    let study = Study::of_bytes(&folder, MODEL.to_vec(), TAPE.to_vec()).unwrap();
    let refused = archive(&study, cut, false, &folder.join("cut"), false, DAY).unwrap_err();
    assert!(
        refused
            .message
            .contains("not archived: memory ended the run"),
        "{}",
        refused.message
    );
    assert!(!folder.join("cut").exists());
}

/// A flat archive of form 1, as it was written before bags, is still verified; its text is no part of it.
#[test]
fn flat_archives() {
    let stored = Path::new(env!("CARGO_MANIFEST_DIR")).join("tests/form1");
    let folder = scratch("flat");
    for file in page1::FILES.iter().chain(&["archive.txt"]) {
        fs::copy(stored.join(file), folder.join(file)).unwrap();
    }
    let judged = || verify(&folder, Form::Flat);
    assert_eq!(judged().verdict(), Verdict::Same);
    assert!(other_text(&folder).is_empty());
    let model = fs::read(folder.join("model.bin")).unwrap();
    let text = modeltext::model_text(&model).unwrap();
    write(&folder.join("model.txt"), text.as_bytes());
    assert!(other_text(&folder).is_empty());
    write(
        &folder.join("model.txt"),
        text.replace("COUNTER 2", "COUNTER 1").as_bytes(),
    );
    assert!(other_text(&folder)[0].ends_with("model.bin, which was archived"));
    assert_eq!(judged().verdict(), Verdict::Same);
    for file in page1::FILES.iter().chain(&["archive.txt"]) {
        let path = folder.join(file);
        let bytes = fs::read(&path).unwrap();
        for at in 0..bytes.len() {
            let mut other = bytes.clone();
            other[at] ^= 1;
            write(&path, &other);
            assert_ne!(judged().verdict(), Verdict::Same, "{file} at {at}");
        }
        fs::remove_file(&path).unwrap();
        assert_eq!(judged().verdict(), Verdict::Unjudged, "{file} removed");
        write(&path, &bytes);
    }
}

#[test]
fn a_hundred_random_folders() {
    let folder = scratch("random");
    let mut random = Random::new(3);
    let mut made = 0;
    while made < 100 {
        let case = case(&mut random, Size::Small);
        if command::judge::refusal(&case.model, &case.tape) != 0 {
            continue;
        }
        // a random model may run for ever: 5,000 turns are enough
        let lent = if made % 2 == 0 {
            Lent::usual(Some(5_000), None)
        } else {
            Lent {
                budget: case.budget,
                room: case.trace_len as u64,
                short: false,
            }
        };
        let above = folder.join((made % 7).to_string());
        fs::create_dir_all(&above).unwrap();
        put(
            &above.join(made.to_string()),
            &case.model,
            &case.tape,
            lent,
            made % 3 == 0,
        );
        made += 1;
    }
    let verify = || {
        let done = Command::new(env!("CARGO_BIN_EXE_covrith"))
            .args(["verify", "."])
            .current_dir(&folder)
            .output()
            .unwrap();
        let text = String::from_utf8(done.stdout).unwrap();
        (
            done.status.code(),
            text,
            String::from_utf8(done.stderr).unwrap(),
        )
    };
    let wanted = "100 archives: 100 same, 0 differ, 0 cannot be judged\n".to_string();
    assert_eq!(verify(), (Some(0), wanted, String::new()));
    // what is not the same is named, in the order of the paths
    fs::remove_file(folder.join("1/1/data/report.bin")).unwrap();
    assert_eq!(verify().0, Some(3));
    fs::write(folder.join("3/3/data/report.bin"), [1]).unwrap();
    let (status, text, _) = verify();
    assert_eq!(status, Some(1));
    let starts: Vec<&str> = text.lines().filter(|l| !l.starts_with(' ')).collect();
    assert_eq!(
        starts,
        [
            "./1/1: cannot be judged",
            "./3/3: differs",
            "100 archives: 98 same, 1 differ, 1 cannot be judged"
        ]
    );
}
