//! Studies: draws that no two runs share, the same bytes whatever the jobs, nothing written, and what is done when Ctrl-C comes.

use command::drawing;
use command::slots::{self, Slots};
use std::fs;
use std::path::{Path, PathBuf};
use std::process::{Command, Output, Stdio};
use std::time::Duration;

const DESK: &str = "FACILITY clerk\nLIST arrivals, service\nCOUNTER 30\n GENERATE arrivals\n SEIZE clerk\n ADVANCE service\n RELEASE clerk\n TERMINATE 1\n";

fn folder(name: &str, model: &str, distributions: &str) -> PathBuf {
    let folder = Path::new(env!("CARGO_TARGET_TMPDIR")).join(name);
    let _ = fs::remove_dir_all(&folder);
    fs::create_dir_all(&folder).unwrap();
    fs::write(folder.join("model.txt"), model).unwrap();
    fs::write(folder.join("distributions.txt"), distributions).unwrap();
    folder
}

fn covrith(words: &[&str], folder: &Path) -> Output {
    let mut command = Command::new(env!("CARGO_BIN_EXE_covrith"));
    command.args(words).current_dir(folder).output().unwrap()
}

/// All draws of a list of so many lists, in every run: where each begins and ends, on one line of streams.
fn ranges(count: u64, lists: usize) -> Vec<(u64, u64)> {
    let text: String = (0..lists)
        .map(|i| format!("l{i}: uniform 0 9, {count} times\n"))
        .collect();
    let lists = drawing::read(Path::new("distributions.txt"), &text).unwrap();
    let slots = Slots::of(&lists);
    let all = (1..=slots.runs()).flat_map(|run| slots.of_run(run));
    all.map(|slot| {
        assert!(slot.stream < 512);
        let first = u64::from(slot.stream) * 100_000 + slot.before;
        (first, first + count)
    })
    .collect()
}

#[test]
fn no_two_slots_share_a_draw() {
    for (count, lists, runs) in [
        (10_000, 2, 2560),
        (10_000, 3, 1706),
        (10_001, 3, 170),
        (65_535, 1, 512),
        (1, 16, 320),
    ] {
        let mut ranges = ranges(count, lists);
        assert_eq!(ranges.len(), runs * lists);
        ranges.sort_unstable();
        assert!(ranges.windows(2).all(|pair| pair[0].1 <= pair[1].0));
    }
}

#[test]
fn a_slot_is_its_part_of_the_stream() {
    let path = Path::new("distributions.txt");
    let whole = "a: exponential 50, 65535 times\nb: exponential 50, 34465 times\n";
    let whole = drawing::read(path, whole).unwrap();
    let few = "a: exponential 50, 10000 times\nb: exponential 50, 777 times\nc: fixed 3, 5 times\n";
    let few = drawing::read(path, few).unwrap();
    for run in [1, 2, 3, 4, 7, 1706] {
        let slots = Slots::of(&few).of_run(run);
        let times = slots::draw(path, &few, &slots).unwrap();
        for (slot, drawn) in slots.iter().zip(&times).take(2) {
            let stream = drawing::draw(path, &whole, &[slot.stream; 2])
                .unwrap()
                .concat();
            let from = slot.before as usize;
            assert_eq!(drawn[..], stream[from..from + drawn.len()], "run {run}");
        }
        assert_eq!(times[2], [3; 5]);
    }
}

#[test]
fn the_same_bytes_whatever_the_jobs_and_nothing_is_written() {
    let text = "arrivals: exponential 7, 40 times\nservice: erlang 2 5, 40 times\n";
    let folder = folder("study-jobs", DESK, text);
    let until = ["--until", "12%", "--measure", "clerk.mean-wait"];
    for more in [&["--runs", "200"][..], &until[..]] {
        let study = |jobs: &str| {
            let words = [&["study", ".", "--jobs", jobs], more].concat();
            covrith(&words, &folder)
        };
        let one = study("1");
        assert!(!one.stdout.is_empty());
        for jobs in ["2", "8", "300"] {
            assert_eq!(study(jobs), one, "{jobs} jobs");
        }
    }
    let mut names: Vec<_> = fs::read_dir(&folder)
        .unwrap()
        .map(|entry| entry.unwrap().file_name())
        .collect();
    names.sort();
    assert_eq!(names, ["distributions.txt", "model.txt"]);
}

/// The report of a tape that `tape --run` wrote has what the study has of that run.
#[test]
fn each_run_can_be_repeated() {
    let text = "arrivals: exponential 7, 40 times\nservice: erlang 2 5, 40 times\n";
    let folder = folder("study-repeat", DESK, text);
    let mut clocks = Vec::new();
    for run in ["9", "10", "11"] {
        let words = [
            "tape",
            "distributions.txt",
            "tape.bin",
            "--replace",
            "--run",
            run,
        ];
        assert!(covrith(&words, &folder).status.success());
        let report = String::from_utf8(covrith(&["run", "."], &folder).stdout).unwrap();
        let line = report.lines().nth(2).unwrap();
        let clock = line.strip_prefix("clock ").unwrap().split(',').next();
        clocks.push(clock.unwrap().parse::<u64>().unwrap());
    }
    let words = ["study", ".", "--first", "9", "--runs", "3"];
    let study = String::from_utf8(covrith(&words, &folder).stdout).unwrap();
    let row = study.lines().find(|line| line.starts_with("run.clock"));
    let cells: Vec<&str> = row.unwrap().split_whitespace().collect();
    let sum: u64 = clocks.iter().sum();
    assert_eq!(cells[1], "3");
    assert_eq!(
        cells[2],
        format!("{}.{:02}", sum / 3, (sum % 3 * 100 + 1) / 3)
    );
    assert_eq!(cells[5], clocks.iter().min().unwrap().to_string());
    assert_eq!(cells[6], clocks.iter().max().unwrap().to_string());
}

/// Waits until a process has a handler for SIGINT, as Linux tells it: before that an interrupt would end it.
fn until_interrupts_are_caught(process: u32) {
    const SIGINT: u64 = 1 << 1;
    for _ in 0..600 {
        let status = std::fs::read_to_string(format!("/proc/{process}/status")).unwrap_or_default();
        let caught = status.lines().find_map(|line| line.strip_prefix("SigCgt:"));
        let caught = caught.and_then(|mask| u64::from_str_radix(mask.trim(), 16).ok());
        if caught.is_some_and(|mask| mask & SIGINT != 0) {
            return;
        }
        std::thread::sleep(Duration::from_millis(50));
    }
    panic!("no handler for SIGINT after half a minute");
}

#[test]
fn an_interrupt_prints_what_is_done() {
    let model = DESK.replace("COUNTER 30", "COUNTER 60000");
    let text = "arrivals: exponential 7, 65535 times\nservice: erlang 2 5, 65535 times\n";
    let folder = folder("study-interrupt", &model, text);
    let study = Command::new(env!("CARGO_BIN_EXE_covrith"))
        .args(["study", ".", "--runs", "256", "--jobs", "1"])
        .current_dir(&folder)
        .stdout(Stdio::piped())
        .stderr(Stdio::piped())
        .spawn()
        .unwrap();
    until_interrupts_are_caught(study.id());
    std::thread::sleep(Duration::from_millis(700));
    let kill = Command::new("kill")
        .args(["-INT", &study.id().to_string()])
        .status();
    assert!(kill.unwrap().success());
    let done = study.wait_with_output().unwrap();
    assert_eq!(done.status.code(), Some(130));
    let (out, said) = (
        String::from_utf8(done.stdout).unwrap(),
        String::from_utf8(done.stderr).unwrap(),
    );
    let head = out.lines().next().unwrap();
    assert!(head.contains("interrupted"), "{head}");
    assert!(said.contains("covrith: interrupted: "), "{said}");
}
