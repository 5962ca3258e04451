//! The stored cases of crate `test_vectors` are those that this program writes, and
//! each refusal, end, kind with its outcomes and list is among them.

use reference::blocks::Done;
use reference::claims::check;
use reference::coverage::{ends, possible, Second, Takeovers};
use reference::decode::decode_model_with;
use reference::generate::Case;
use reference::model::Block;
use reference::report::read_report;
use reference::rules::LAST_KIND;
use reference::run::{run, Outcome};
use reference::stored::{
    cases, encode, expected, gathered_cases, held_cases, joined_cases, late_cases, misread_cases,
    preempted_cases, runs, second_cases,
};
use reference::trace::TraceReader;
use reference::Rules;

fn stored(name: &str) -> Vec<u8> {
    let folder = concat!(env!("CARGO_MANIFEST_DIR"), "/../");
    std::fs::read(format!("{folder}{name}")).expect("stored")
}

#[test]
fn stored_cases_are_up_to_date() {
    let (cases, met) = cases();
    let same = stored("crates/test_vectors/stdin") == encode(&cases);
    assert!(same, "run `vectors crates/test_vectors box/runs.txt`");
    assert!(stored("crates/test_vectors/stdout") == expected(&cases).into_bytes());
    assert!(stored("box/runs.txt") == runs(&cases).into_bytes());
    let mut wanted: Vec<String> = (0..=10).map(|n| format!("refusal {n}")).collect();
    wanted.extend(ends(Rules::LANDED).iter().map(|n| format!("end {n}")));
    for kind in 1..=LAST_KIND {
        for done in [
            Done::Entered,
            Done::BeganToWait,
            Done::PutBack,
            Done::WentBack,
        ] {
            if possible(Rules::LANDED, kind, done) {
                wanted.push(format!("kind {kind} {done:?}"));
            }
        }
    }
    wanted.extend((1..=6).map(|code| format!("WEL {code}")));
    wanted.extend((1..=7).map(|back| format!("group of {back}")));
    wanted.extend(Second::cells());
    wanted.extend(
        Takeovers::cells(Rules::LANDED)
            .iter()
            .map(|c| c.to_string()),
    );
    for name in [
        "facility QL",
        "storage QL",
        "WSL",
        "REL",
        "FEL",
        "holder of several",
        "several holders",
        "gatherers",
        "interrupted",
        "1,024 living",
        "last clock",
        "clock term past 2^31",
        "clock term past 2^32",
    ] {
        wanted.push(name.to_string());
    }
    for name in wanted {
        assert!(met.contains_key(&name), "{name}");
    }
}

fn outcome(case: &Case) -> Outcome {
    outcome_in(case, &mut vec![0; case.trace_len])
}

fn outcome_in(case: &Case, trace: &mut [u8]) -> Outcome {
    outcome_and_report(case, trace, &mut vec![0; case.report_len])
}

fn outcome_and_report(case: &Case, trace: &mut [u8], report: &mut [u8]) -> Outcome {
    run(
        &case.model,
        &case.tape,
        case.budget,
        case.work_len,
        trace,
        report,
    )
}

/// Refusal, end, clock, turns, records, made, ended.
fn counts(came: &Outcome, trace: &[u8]) -> [u64; 7] {
    let written = &trace[..came.trace_bytes as usize];
    // Four numbers to a record, each ended by its one low byte.
    let records = written.iter().filter(|byte| **byte < 0x80).count() as u64 / 4;
    [
        came.refusal,
        came.end,
        came.clock,
        came.turns,
        records,
        came.made,
        came.ended,
    ]
}

/// The living of a report without queues: behind clock, made and ended, five
/// numbers of each server and how many live.
fn places(report: &[u64], servers: usize) -> Vec<(u64, u64)> {
    let pairs = report[3 + 5 * servers + 1..].chunks(2);
    pairs.map(|pair| (pair[0], pair[1])).collect()
}

#[test]
fn late_cases_come_to_what_the_papers_give() {
    for (number, (case, wanted)) in late_cases().iter().enumerate() {
        let came = outcome(case);
        let came = [came.refusal, came.end, came.clock];
        assert_eq!(came, *wanted, "late case {number}");
    }
}

#[test]
fn held_cases_come_to_what_the_papers_give() {
    for (number, (case, wanted)) in held_cases().iter().enumerate() {
        let came = outcome(case);
        assert_eq!(came.refusal, 0, "held case {number}");
        let came = [came.end, came.clock, came.turns, came.made, came.ended];
        assert_eq!(came, *wanted, "held case {number}");
    }
}

#[test]
fn joined_cases_come_to_what_the_papers_give() {
    for (number, (case, wanted)) in joined_cases().iter().enumerate() {
        let mut trace = vec![0; case.trace_len];
        let came = outcome_in(case, &mut trace);
        assert_eq!(counts(&came, &trace), *wanted, "joined case {number}");
    }
}

#[test]
fn gathered_cases_come_to_what_the_papers_give() {
    for (number, (case, wanted, living)) in gathered_cases().iter().enumerate() {
        let mut trace = vec![0; case.trace_len];
        let mut report = vec![0; case.report_len];
        let came = outcome_and_report(case, &mut trace, &mut report);
        assert_eq!(counts(&came, &trace), *wanted, "gathered case {number}");
        if came.refusal == 0 {
            let report = read_report(&report[..came.report_bytes as usize]).unwrap();
            assert_eq!(places(&report, 1 + 1), *living, "gathered case {number}");
        }
    }
}

#[test]
fn misread_cases_come_to_what_the_papers_give() {
    for (number, (case, wanted, living)) in misread_cases().iter().enumerate() {
        let mut trace = vec![0; case.trace_len];
        let mut report = vec![0; case.report_len];
        let came = outcome_and_report(case, &mut trace, &mut report);
        assert_eq!(counts(&came, &trace), *wanted, "misread case {number}");
        if came.refusal == 0 {
            let report = read_report(&report[..came.report_bytes as usize]).unwrap();
            let facilities = usize::from(case.model[1]);
            assert_eq!(
                places(&report, facilities),
                *living,
                "misread case {number}"
            );
        }
    }
}

#[test]
fn preempted_cases_come_to_what_the_papers_give() {
    for (number, (case, wanted, facility, living)) in preempted_cases().iter().enumerate() {
        let mut trace = vec![0; case.trace_len];
        let mut report = vec![0; case.report_len];
        let came = outcome_and_report(case, &mut trace, &mut report);
        assert_eq!(counts(&came, &trace), *wanted, "preempted case {number}");
        if came.refusal == 0 {
            let report = read_report(&report[..came.report_bytes as usize]).unwrap();
            assert_eq!(report[3..8], facility[..], "preempted case {number}");
            let facilities = usize::from(case.model[1]);
            let came = places(&report, facilities + 1);
            assert_eq!(came, *living, "preempted case {number}");
        }
        assert!(check(case).is_ok(), "preempted case {number}");
    }
}

#[test]
fn second_cases_come_to_what_the_papers_give() {
    for (number, (case, wanted, order)) in second_cases().iter().enumerate() {
        let mut trace = vec![0; case.trace_len];
        let came = outcome_in(case, &mut trace);
        let mut reader = TraceReader::new(&trace[..came.trace_bytes as usize]);
        let mut ended = Vec::new();
        let mut records = 0;
        while let Ok(record) = reader.next_record() {
            let model = decode_model_with(Rules::LANDED, &case.model).expect("it ran");
            records += 1;
            if let Block::Terminate { .. } = model.block(record.block as u32) {
                ended.push(record.transaction);
            }
        }
        let came = [
            came.refusal,
            came.end,
            came.clock,
            came.turns,
            records,
            came.made,
        ];
        assert_eq!((came, &ended), (*wanted, order), "second case {number}");
    }
}
