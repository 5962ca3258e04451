//! `columns FOLDER..`: for each folder with a model.bin and a tape.bin, how large its trace and its columns are, and how small `xz -9` and
//! `zstd -19` make both; then the speed of both directions on 100 MB of trace, the first folder's records again and again with
//! later clocks. Processor time, the best of several runs.

use covrith::{from_columns, simulate, to_columns, write_record, Records};
use std::io::Write;
use std::process::{Command, Stdio};

const RUNS: usize = 5;
const LONG: usize = 100_000_000;

/// Seconds of processor time of this process.
fn now() -> f64 {
    const CLOCK_PROCESS_CPUTIME_ID: i32 = 2;
    extern "C" {
        fn clock_gettime(clock: i32, time: *mut [i64; 2]) -> i32;
    }
    let mut time = [0; 2];
    // SAFETY: two 64-bit numbers are a timespec on x86-64 Linux.
    unsafe { clock_gettime(CLOCK_PROCESS_CPUTIME_ID, &mut time) };
    time[0] as f64 + time[1] as f64 / 1e9
}

fn trace_of(folder: &str) -> Vec<u8> {
    let read =
        |name: &str| std::fs::read(format!("{folder}/{name}")).expect("a file of the folder");
    let run = simulate(&read("model.bin"), &read("tape.bin"), u64::MAX, 64_000_000);
    run.expect("an accepted model").trace
}

/// How many bytes a program makes of these.
fn packed(program: &str, level: &str, bytes: &[u8]) -> usize {
    let mut child = Command::new(program)
        .args([level, "-c"])
        .stdin(Stdio::piped())
        .stdout(Stdio::piped())
        .spawn()
        .expect("the program is installed");
    let mut input = child.stdin.take().expect("a pipe");
    let copy = bytes.to_vec();
    let writer = std::thread::spawn(move || input.write_all(&copy));
    let out = child.wait_with_output().expect("its output").stdout;
    writer.join().expect("a thread").expect("all was read");
    out.len()
}

/// The records of a trace again and again, each time later, up to `LONG` bytes.
fn long(trace: &[u8]) -> Vec<u8> {
    let records: Vec<_> = Records::new(trace)
        .map(|record| record.expect("a record"))
        .collect();
    let last = records.last().expect("some record").clock;
    let mut out = vec![0; LONG];
    let (mut used, mut shift) = (0, 0);
    loop {
        for record in &records {
            let mut later = *record;
            later.clock += shift;
            match write_record(&mut out[used..], later) {
                Ok(length) => used += length,
                Err(_) => {
                    out.truncate(used);
                    return out;
                }
            }
        }
        shift += last;
    }
}

fn best(mut call: impl FnMut()) -> f64 {
    (0..RUNS)
        .map(|_| {
            let start = now();
            call();
            now() - start
        })
        .fold(f64::MAX, f64::min)
}

fn main() {
    let folders: Vec<String> = std::env::args().skip(1).collect();
    let Some(first) = folders.first() else {
        eprintln!("usage: columns FOLDER..");
        std::process::exit(2);
    };
    println!("| model | records | trace | columns | trace, xz | columns, xz | trace, zstd | columns, zstd |");
    println!("|---|---|---|---|---|---|---|---|");
    for folder in &folders {
        let trace = trace_of(folder);
        let mut columns = vec![0; trace.len() + 4];
        let length = to_columns(&trace, &mut columns).expect("the trace of a run");
        columns.truncate(length);
        println!(
            "| {} | {} | {} | {} | {} | {} | {} | {} |",
            folder
                .trim_end_matches('/')
                .rsplit('/')
                .next()
                .unwrap_or(folder),
            Records::new(&trace).count(),
            trace.len(),
            columns.len(),
            packed("xz", "-9", &trace),
            packed("xz", "-9", &columns),
            packed("zstd", "-19", &trace),
            packed("zstd", "-19", &columns),
        );
    }
    let trace = long(&trace_of(first));
    let mut columns = vec![0; trace.len() + 4];
    let mut back = vec![0; trace.len()];
    let mut length = 0;
    let to = best(|| length = to_columns(&trace, &mut columns).expect("rising clocks"));
    let from = best(|| {
        from_columns(&columns[..length], &mut back).expect("its columns");
    });
    assert!(back == trace, "the inverse");
    let size = trace.len() as f64 / 1e6;
    println!();
    println!("{size:.0} MB of trace, {:.0} MB of columns: to columns {:.0} MB/s, back {:.0} MB/s of trace", length as f64 / 1e6, size / to, size / from);
}
