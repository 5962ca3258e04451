//! What the program counts from records, against the second implementation: entries of each block, those made, where the living
//! are, who holds a facility, the block that a question stopped at, and the averages of the report.

use command::execute::{execute, Lent};
use command::study::Study;
use command::table::{mean, percent};
use command::walk::walk;
use command::words;
use command::{ends, report};
use reference::generate::random::Random;
use reference::generate::{case, Case, Size};
use reference::machine::{Machine, Transaction};
use reference::run::{run_watched, Watcher};
use reference::Rules;
use std::collections::{BTreeMap, BTreeSet};
use std::path::Path;

/// The last state of the second implementation.
#[derive(Default)]
struct Last(Option<Machine>);

impl Watcher for Last {
    fn at_end(&mut self, machine: &Machine, _end: u32, _trace: &[u8]) {
        self.0 = Some(machine.clone());
    }
}

fn second(case: &Case) -> Option<Machine> {
    let mut last = Last::default();
    let mut trace = vec![0; case.trace_len];
    let mut report = vec![0; case.report_len];
    run_watched(
        Rules::LANDED,
        &case.model,
        &case.tape,
        case.budget,
        case.work_len,
        &mut trace,
        &mut report,
        &mut last,
    );
    last.0
}

/// Everybody on a list, with the block that comes next.
fn next_blocks(machine: &Machine) -> BTreeMap<u64, u64> {
    let mut all: Vec<&Transaction> = Vec::new();
    for server in machine.facilities.iter().chain(&machine.storages) {
        all.extend(&server.ql);
        all.extend(server.wel.iter().flatten());
    }
    all.extend(&machine.wsl);
    all.extend(machine.fel.iter().map(|event| &event.transaction));
    all.extend(&machine.rel);
    all.extend(&machine.moving);
    let gatherers = machine.gatherers.values().flatten();
    all.extend(gatherers.map(|one| &one.transaction));
    all.extend(machine.interrupted.iter().map(|one| &one.transaction));
    let all = all.iter();
    all.map(|t| (t.number, u64::from(t.next_block))).collect()
}

#[test]
fn counts_of_random_runs() {
    let mut random = Random::new(11);
    let mut stops = BTreeSet::new();
    let mut runs = 0;
    for _ in 0..3_000 {
        let case = case(&mut random, Size::Small);
        let Some(machine) = second(&case) else {
            continue;
        };
        let study = Study::of_bytes(Path::new("."), case.model.clone(), case.tape.clone()).unwrap();
        let lent = Lent {
            budget: case.budget,
            room: case.trace_len as u64,
            short: false,
        };
        let run = execute(&study.model, &study.tape, lent).unwrap();
        let walk = walk(&study, &run);
        runs += 1;
        assert_eq!(walk.entries, machine.entries, "entries of blocks");
        assert_eq!(walk.made, machine.made, "made");
        assert_eq!(walk.made, run.outcome.made, "made");
        let servers = machine.facilities.iter().zip(1..);
        let holders = servers.filter_map(|(server, f)| Some((f, server.holder?)));
        assert_eq!(walk.holders.of, holders.collect(), "holders");
        let servers = machine.facilities.iter().zip(1..);
        let preempted = servers.filter(|(server, _)| server.preempted);
        let preempted = preempted.map(|(_, f)| f).collect();
        assert_eq!(walk.holders.preempted, preempted, "preempted");
        let interrupted = machine.interrupted.iter();
        let interrupted = interrupted.map(|one| (one.facility, one.transaction.number));
        assert_eq!(walk.holders.interrupted, interrupted.collect());
        let next = next_blocks(&machine);
        assert_eq!(walk.living.len(), next.len());
        for (number, life) in &walk.living {
            assert!(life.birth.is_some(), "the birth of {number}");
            let may = life.next(&study);
            assert!(
                may.contains(&next[number]),
                "next block of {number}: {may:?}"
            );
            assert!(may.len() <= 2);
        }
        // a stopped run names the block of the one that moves, and no other kind
        if let (Some(stop), Some(moving)) = (words::stop_of(run.outcome.end), &machine.moving) {
            let blocks = ends::candidates(&study, &walk, moving.number, stop);
            assert!(blocks.contains(&u64::from(moving.next_block)), "{blocks:?}");
            let told = ends::told(&study, &run, &walk, lent).join("\n");
            let transaction = format!("{}: transaction {} at block", stop.end, moving.number);
            assert!(told.starts_with(&transaction), "{told}");
            stops.insert(stop.end);
        }
        // averages against the second implementation's own sums
        for (server, theirs) in run.report.facilities.iter().zip(&machine.facilities) {
            let cells = report::facility_cells(server, run.report.clock);
            assert_eq!(cells[0], theirs.entries.to_string());
            near(
                &cells[1],
                100.0 * theirs.unit_ticks as f64,
                machine.clock,
                0.05,
            );
            near(&cells[2], theirs.unit_ticks as f64, theirs.entries, 0.005);
            near(
                &cells[4],
                theirs.ticks_waited as f64,
                theirs.waits_begun,
                0.005,
            );
            near(&cells[5], theirs.ticks_waited as f64, machine.clock, 0.005);
        }
        for (server, theirs) in run.report.storages.iter().zip(&machine.storages) {
            let cells = report::storage_cells(server, theirs.capacity, run.report.clock);
            let all = machine.clock * u64::from(theirs.capacity);
            near(&cells[2], 100.0 * theirs.unit_ticks as f64, all, 0.05);
            near(&cells[3], theirs.unit_ticks as f64, machine.clock, 0.005);
            near(
                &cells[5],
                theirs.ticks_waited as f64,
                theirs.waits_begun,
                0.005,
            );
        }
        for (queue, theirs) in run.report.queues.iter().zip(&machine.queues) {
            let cells = report::queue_cells(queue, run.report.clock);
            near(&cells[1], theirs.content_ticks as f64, machine.clock, 0.005);
            near(
                &cells[2],
                theirs.content_ticks as f64,
                theirs.arrivals,
                0.005,
            );
        }
    }
    assert!(runs > 1_000, "{runs} runs");
    for end in words::STOPS.iter().map(|stop| stop.end) {
        assert!(stops.contains(&end), "end {end} is not met: {stops:?}");
    }
}

/// A printed quotient is right to half a unit of its last digit.
fn near(printed: &str, n: f64, d: u64, half: f64) {
    if d == 0 {
        assert_eq!(printed, "-");
        return;
    }
    let printed: f64 = printed.trim_end_matches('%').parse().unwrap();
    let exact = n / d as f64;
    let slack = half + exact * 1e-12;
    assert!(
        (printed - exact).abs() <= slack * 1.000_001,
        "{printed} for {exact}"
    );
}

#[test]
fn quotients() {
    assert_eq!(mean(10, 4), "2.50");
    assert_eq!(percent(1, 8), "12.5%");
}
