//! Text and bytes of a folder: text counts, whatever is newer; large models and tapes with no option; readers that go away.

use std::fs::{self, File};
use std::io::Read;
use std::path::{Path, PathBuf};
use std::process::{Command, Output, Stdio};
use std::time::{Duration, SystemTime};

const MODEL: &str = "\
FACILITY tug
LIST arrivals, towing
COUNTER 2
  GENERATE arrivals
  SEIZE tug
  ADVANCE towing
  RELEASE tug
  TERMINATE 1
";
const TAPE: &str = "arrivals: 3 2\ntowing: 5 4\n";

fn scratch(name: &str) -> PathBuf {
    let folder = Path::new(env!("CARGO_TARGET_TMPDIR")).join(name);
    let _ = fs::remove_dir_all(&folder);
    fs::create_dir_all(&folder).unwrap();
    fs::write(folder.join("model.txt"), MODEL).unwrap();
    fs::write(folder.join("tape.txt"), TAPE).unwrap();
    folder
}

fn covrith(words: &[&str], folder: &Path) -> Output {
    let mut command = Command::new(env!("CARGO_BIN_EXE_covrith"));
    command.args(words).arg(".").current_dir(folder);
    command.output().unwrap()
}

fn said(output: &Output) -> String {
    String::from_utf8(output.stderr.clone()).unwrap()
}

/// Makes a file older by so many seconds.
fn age(path: &Path, seconds: u64) {
    let file = File::options().append(true).open(path).unwrap();
    let then = SystemTime::now() - Duration::from_secs(seconds);
    file.set_modified(then).unwrap();
}

fn names(folder: &Path) -> Vec<String> {
    let entries = fs::read_dir(folder).unwrap();
    let names = entries.map(|e| e.unwrap().file_name().into_string().unwrap());
    let mut names: Vec<String> = names.collect();
    names.sort();
    names
}

#[test]
fn text_is_assembled_and_said_so() {
    let folder = scratch("text");
    let done = covrith(&["run"], &folder);
    assert!(done.status.success());
    assert_eq!(
        said(&done),
        "covrith: ./model.txt: assembled to ./model.bin\ncovrith: ./tape.txt: assembled to ./tape.bin\n"
    );
    assert_eq!(
        names(&folder),
        ["model.bin", "model.txt", "tape.bin", "tape.txt"]
    );
    let first = fs::read(folder.join("tape.bin")).unwrap();
    assert_eq!(first, [2, 3, 2, 2, 5, 4]);
    assert_eq!(said(&covrith(&["run"], &folder)), "");
    age(&folder.join("tape.bin"), 60);
    assert_eq!(said(&covrith(&["run"], &folder)), "", "older, but the same");
    // the text counts, whether it is newer or, as after a restore, older
    for (time, older) in [(6, false), (7, true)] {
        let text = format!("arrivals: 3 2\ntowing: {time} 4\n");
        fs::write(folder.join("tape.txt"), text).unwrap();
        if older {
            age(&folder.join("tape.txt"), 60);
        }
        let done = covrith(&["run"], &folder);
        assert_eq!(
            said(&done),
            "covrith: ./tape.bin was not what ./tape.txt gives: assembled anew\n"
        );
        assert_eq!(
            fs::read(folder.join("tape.bin")).unwrap(),
            [2, 3, 2, 2, time, 4]
        );
    }
}

#[test]
fn nothing_is_written_where_either_is_refused() {
    let folder = scratch("refused");
    fs::write(folder.join("tape.txt"), "arrivals: 3 2\n").unwrap();
    for command in ["run", "archive", "check"] {
        let done = covrith(&[command], &folder);
        assert_eq!(done.status.code(), Some(1));
        assert!(said(&done).starts_with("./tape.txt:1:1: the list `towing` is missing"));
        assert_eq!(names(&folder), ["model.txt", "tape.txt"]);
    }
    // nor where only the engine refuses
    fs::write(
        folder.join("tape.txt"),
        "arrivals: 3 2\ntowing: 10000000001\n",
    )
    .unwrap();
    let done = covrith(&["archive"], &folder);
    assert!(said(&done).contains("; question 9\n"), "{}", said(&done));
    assert_eq!(names(&folder), ["model.txt", "tape.txt"]);
}

/// What stands in the place of the bytes and is no regular file stays, and the text is used.
#[test]
fn bytes_that_are_no_file() {
    let folder = scratch("no file");
    std::os::unix::fs::symlink("elsewhere.bin", folder.join("tape.bin")).unwrap();
    let done = covrith(&["run"], &folder);
    assert!(done.status.success());
    assert!(
        said(&done).ends_with(
            "covrith: ./tape.bin: it is there, and no regular file; the text is used as it is\n"
        ),
        "{}",
        said(&done)
    );
    assert_eq!(
        names(&folder),
        ["model.bin", "model.txt", "tape.bin", "tape.txt"]
    );
}

/// 5,000 customers, and a tape of more than 80 KB, with no option.
#[test]
fn large_models_run_as_they_are() {
    let folder = scratch("large");
    fs::write(
        folder.join("model.txt"),
        MODEL.replace("COUNTER 2", "COUNTER 5000"),
    )
    .unwrap();
    let mut tape = String::from("arrivals:");
    for list in ["", "\ntowing:"] {
        tape.push_str(list);
        for k in 0..21_000 {
            tape.push_str(&format!(" {}", 600 + (k * 7) % 90));
        }
    }
    fs::write(folder.join("tape.txt"), tape).unwrap();
    let done = covrith(&["run"], &folder);
    assert!(done.status.success(), "{}", said(&done));
    let text = String::from_utf8(done.stdout).unwrap();
    assert!(fs::metadata(folder.join("tape.bin")).unwrap().len() > 80_000);
    assert!(text.contains("2: the counter fell to 0"), "{text}");
    assert!(text.contains(" 5000 ended, "), "{text}");
    // runmodel reads the first 65,536 bytes, and --plain says so
    let done = covrith(&["run", "--plain"], &folder);
    assert!(said(&done).starts_with("covrith: of ./tape.bin the first 65536 bytes are read\n"));
    assert_eq!(done.stdout, b"refused 8\n");
    assert_eq!(done.status.code(), Some(1));
    let done = covrith(&["archive"], &folder);
    assert!(done.status.success(), "{}", said(&done));
    let done = covrith(&["verify"], &folder);
    assert_eq!(done.stdout, b"./archive: same\n");
}

/// Standard output that is closed early ends the program, without a panic.
#[test]
fn a_reader_that_goes_away() {
    let folder = scratch("pipe");
    let mut model = MODEL.replace("COUNTER 2", "COUNTER 60000");
    model = model.replace(
        "TERMINATE 1\n",
        "TERMINATE 1\n GENERATE arrivals\n TERMINATE 1\n",
    );
    fs::write(folder.join("model.txt"), model).unwrap();
    fs::write(
        folder.join("tape.txt"),
        "arrivals: 60000*2\ntowing: 60000*1\n",
    )
    .unwrap();
    let mut child = Command::new(env!("CARGO_BIN_EXE_covrith"))
        .args(["run", "--records", "."])
        .current_dir(&folder)
        .stdout(Stdio::piped())
        .stderr(Stdio::piped())
        .spawn()
        .unwrap();
    let mut first = [0; 5];
    child.stdout.take().unwrap().read_exact(&mut first).unwrap();
    assert_eq!(&first, b"clock");
    let done = child.wait_with_output().unwrap();
    assert_eq!(done.status.code(), Some(1));
    assert!(!said(&done).contains("panicked"), "{}", said(&done));
}
