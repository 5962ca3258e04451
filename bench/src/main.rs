//! Measures the proved engine, the second implementation and SimPy on the same work and prints tables; then the two engines on work
//! that goes on for ever, in nanoseconds a turn.
//! Processor time; of the engine and the second implementation the best of several runs, from model bytes to report.

mod turns;
mod work;

use covrith::{Outcome, REPORT_BYTES, WORK_NUMBERS};
use reference::generate::fields::{encode_model, encode_tape};
use std::io::Write;
use std::process::{Command, Stdio};
use work::Work;

const RUNS: usize = 7;

/// Seconds of processor time of this process.
fn now() -> f64 {
    const CLOCK_PROCESS_CPUTIME_ID: i32 = 2;
    extern "C" {
        fn clock_gettime(clock: i32, time: *mut [i64; 2]) -> i32;
    }
    let mut time = [0; 2];
    // SAFETY: two 64-bit numbers are a timespec on x86-64 Linux.
    unsafe { clock_gettime(CLOCK_PROCESS_CPUTIME_ID, &mut time) };
    time[0] as f64 + time[1] as f64 / 1e9
}

struct Measured {
    outcome: Outcome,
    engine: f64,
    reference: f64,
    simpy: f64,
}

/// The least seconds of some runs.
fn best(mut run: impl FnMut()) -> f64 {
    (0..RUNS)
        .map(|_| {
            let start = now();
            run();
            now() - start
        })
        .fold(f64::MAX, f64::min)
}

fn measure(work: &Work, simpy: &str) -> Measured {
    let (model, tape) = (encode_model(&work.model), encode_tape(&work.tape));
    let mut buffer = vec![0; WORK_NUMBERS];
    let mut trace = vec![0; 64_000_000];
    let mut report = vec![0; REPORT_BYTES];
    let mut outcome = Outcome::default();
    let engine = best(|| {
        outcome = covrith::run(
            &model,
            &tape,
            u64::MAX,
            &mut buffer,
            &mut trace,
            &mut report,
        );
    });
    let mut wanted = [0; 8];
    let reference = best(|| {
        wanted = reference::run(
            &model,
            &tape,
            u64::MAX,
            WORK_NUMBERS,
            &mut trace,
            &mut report,
        )
        .numbers();
    });
    assert_eq!(outcome, Outcome::of(wanted), "{}", work.title);
    assert_eq!(
        (outcome.end, outcome.ended),
        (2, u64::from(work.customers)),
        "{}",
        work.title
    );
    Measured {
        outcome,
        engine,
        reference,
        simpy: run_simpy(work, &outcome, simpy),
    }
}

/// The same work by SimPy, which must finish as many customers at the same clock.
fn run_simpy(work: &Work, outcome: &Outcome, program: &str) -> f64 {
    let mut text = format!("{} {} {}\n", work.kind, work.living, work.customers);
    for list in &work.tape {
        let words: Vec<String> = list.iter().map(u64::to_string).collect();
        text += &(words.join(" ") + "\n");
    }
    let mut child = Command::new("/usr/bin/python3")
        .arg(program)
        .stdin(Stdio::piped())
        .stdout(Stdio::piped())
        .spawn()
        .expect("/usr/bin/python3");
    let mut input = child.stdin.take().expect("piped");
    input.write_all(text.as_bytes()).expect("SimPy reads");
    drop(input);
    let output = child.wait_with_output().expect("SimPy ends");
    let output = String::from_utf8_lossy(&output.stdout).into_owned();
    let words: Vec<&str> = output.split_whitespace().collect();
    let [done, clock, seconds] = words[..] else {
        panic!("SimPy failed: install Debian's python3-simpy3");
    };
    if (done, clock) != (&*outcome.ended.to_string(), &*outcome.clock.to_string()) {
        println!(
            "{}: SimPy finished {done} at {clock}, the engine {} at {}",
            work.title, outcome.ended, outcome.clock
        );
    }
    seconds.parse().expect("seconds")
}

fn main() {
    let simpy = std::env::args()
        .nth(1)
        .expect("the path of simpy_models.py");
    println!(
        "{:<24}{:>8}{:>10} |{:>20} |{:>30} |{:>19}",
        "", "", "", "turns a second", "customers finished a second", "engine's rate over"
    );
    println!(
        "{:<24}{:>8}{:>10} |{:>10}{:>10} |{:>10}{:>10}{:>10} |{:>10}{:>9}",
        "work",
        "turns",
        "customers",
        "engine",
        "reference",
        "engine",
        "reference",
        "SimPy",
        "reference",
        "SimPy"
    );
    let mut living = Vec::new();
    for work in work::all() {
        let m = measure(&work, &simpy);
        let (turns, customers) = (m.outcome.turns as f64, m.outcome.ended as f64);
        println!(
            "{:<24}{:>8}{:>10} |{:>10}{:>10} |{:>10}{:>10}{:>10} |{:>10.1}{:>9.1}",
            work.title,
            turns,
            customers,
            thousands(turns / m.engine),
            thousands(turns / m.reference),
            thousands(customers / m.engine),
            thousands(customers / m.reference),
            thousands(customers / m.simpy),
            m.reference / m.engine,
            m.simpy / m.engine
        );
        if work.living > 0 {
            living.push((work, m));
        }
    }
    println!("\ncost against the number living, ns a turn (engine, reference) and a customer (all three)");
    for (work, m) in living {
        let turns = m.outcome.turns as f64 / 1e9;
        let customers = m.outcome.ended as f64 / 1e9;
        println!(
            "{:<24}{:>8.0}{:>8.0} |{:>10.0}{:>10.0}{:>10.0}",
            work.title,
            m.engine / turns,
            m.reference / turns,
            m.engine / customers,
            m.reference / customers,
            m.simpy / customers
        );
    }
    println!("\nturns without end, ns a turn (engine, reference)");
    for work in turns::all() {
        let (engine, reference) = endless(&work);
        println!("{:<44}{engine:>8.1}{reference:>10.1}", work.title);
    }
}

/// Nanoseconds a turn of the two engines, which must agree.
fn endless(work: &turns::Endless) -> (f64, f64) {
    let (model, tape) = (encode_model(&work.model), encode_tape(&work.tape));
    let mut buffer = vec![0; WORK_NUMBERS];
    let mut trace = vec![0; 64_000_000];
    let mut report = vec![0; REPORT_BYTES];
    let mut outcome = Outcome::default();
    let engine = best(|| {
        outcome = covrith::run(
            &model,
            &tape,
            work.budget,
            &mut buffer,
            &mut trace,
            &mut report,
        );
    });
    let mut wanted = [0; 8];
    let reference = best(|| {
        wanted = reference::run(
            &model,
            &tape,
            work.budget,
            WORK_NUMBERS,
            &mut trace,
            &mut report,
        )
        .numbers();
    });
    assert_eq!(outcome, Outcome::of(wanted), "{}", work.title);
    assert_eq!(outcome.refusal, 0, "{}", work.title);
    let turns = outcome.turns as f64 / 1e9;
    (engine / turns, reference / turns)
}

/// A rate in thousands.
fn thousands(rate: f64) -> String {
    format!("{:.0}k", rate / 1e3)
}
