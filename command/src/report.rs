//! The report of a run for people.

use crate::ends;
use crate::execute::Lent;
use crate::study::Study;
use crate::table::{mean, percent, Table};
use crate::walk::{Birth, Life, Missed, Walk};
use crate::words;
use engine::{Queue, Report, Run, Server};
use std::collections::BTreeMap;

/// The whole report, line by line.
pub fn report(study: &Study, run: &Run, walk: &Walk, lent: Lent) -> Vec<String> {
    let o = &run.outcome;
    let mut lines = vec![study.folder.display().to_string()];
    lines.extend(ends::told(study, run, walk, lent));
    lines.push(format!(
        "clock {}, {} turns, {} records, {} made, {} ended, {} living",
        o.clock,
        o.turns,
        walk.records,
        o.made,
        o.ended,
        run.report.living.len()
    ));
    for table in servers(study, &run.report) {
        if !table.is_empty() {
            lines.push(String::new());
            lines.extend(table.lines());
        }
    }
    if !study.times.is_empty() {
        lines.push(String::new());
        lines.extend(lists(study, walk).lines());
        lines.extend(used_up(study, walk, o.clock));
    }
    lines.push(String::new());
    lines.extend(blocks(study, walk).lines());
    if !run.report.living.is_empty() {
        lines.push(String::new());
        lines.extend(living(study, run, walk).lines());
    }
    lines
}

/// The columns of a facility: what they are called and what they show.
pub fn facility_cells(server: &Server, clock: u64) -> Vec<String> {
    vec![
        server.entries.to_string(),
        percent(server.unit_ticks, clock),
        mean(server.unit_ticks, server.entries),
        server.waits_begun.to_string(),
        mean(server.ticks_waited, server.waits_begun),
        mean(server.ticks_waited, clock),
        server.longest.to_string(),
    ]
}

pub const FACILITY: &[&str] = &[
    ">entries",
    ">utilisation",
    ">mean hold",
    ">waits",
    ">mean wait",
    ">mean line",
    ">longest",
];

/// The same of a storage.
pub fn storage_cells(server: &Server, capacity: u32, clock: u64) -> Vec<String> {
    vec![
        capacity.to_string(),
        server.entries.to_string(),
        percent(server.unit_ticks, clock.saturating_mul(u64::from(capacity))),
        mean(server.unit_ticks, clock),
        server.waits_begun.to_string(),
        mean(server.ticks_waited, server.waits_begun),
        mean(server.ticks_waited, clock),
        server.longest.to_string(),
    ]
}

pub const STORAGE: &[&str] = &[
    ">capacity",
    ">entries",
    ">utilisation",
    ">mean content",
    ">waits",
    ">mean wait",
    ">mean line",
    ">longest",
];

/// The same of a queue.
pub fn queue_cells(queue: &Queue, clock: u64) -> Vec<String> {
    vec![
        queue.arrivals.to_string(),
        mean(queue.content_ticks, clock),
        mean(queue.content_ticks, queue.arrivals),
        queue.longest.to_string(),
    ]
}

pub const QUEUE: &[&str] = &[">arrivals", ">mean content", ">mean stay", ">longest"];

fn headed(first: &'static str, headings: &[&'static str]) -> Table {
    let mut all = vec![first];
    all.extend(headings);
    Table::new(&all)
}

fn named(name: &str, mut cells: Vec<String>) -> Vec<String> {
    cells.insert(0, name.to_string());
    cells
}

/// Facilities, storages and queues, a table each.
fn servers(study: &Study, report: &Report) -> [Table; 3] {
    let (names, clock) = (&study.names, report.clock);
    let mut facilities = headed("facility", FACILITY);
    for (name, server) in names.facilities.iter().zip(&report.facilities) {
        facilities.row(named(name, facility_cells(server, clock)));
    }
    let mut storages = headed("storage", STORAGE);
    let capacities = &study.decoded.capacities;
    for ((name, server), capacity) in names.storages.iter().zip(&report.storages).zip(capacities) {
        storages.row(named(name, storage_cells(server, *capacity, clock)));
    }
    let mut queues = headed("queue", QUEUE);
    for (name, queue) in names.queues.iter().zip(&report.queues) {
        queues.row(named(name, queue_cells(queue, clock)));
    }
    [facilities, storages, queues]
}

/// How many times each list has, how many were used and how many are left.
fn lists(study: &Study, walk: &Walk) -> Table {
    let mut table = Table::new(&["list", ">times", ">used", ">left"]);
    for ((name, times), left) in study.names.lists.iter().zip(&study.times).zip(&walk.left) {
        table.row(vec![
            name.clone(),
            times.to_string(),
            (times - left).to_string(),
            left.to_string(),
        ]);
    }
    table
}

/// Where a GENERATE found its list used up before the end, so that nobody came there any more.
fn used_up(study: &Study, walk: &Walk, end: u64) -> Vec<String> {
    let mut lines = Vec::new();
    let before = |missed: &&Missed| missed.clock != Some(end);
    for missed in walk.missed.iter().filter(before) {
        let name = &study.names.lists[missed.list];
        let block = format!("block {}, {}", missed.block, study.statement(missed.block));
        lines.push(match missed.clock {
            Some(clock) => {
                format!("list {name} was used up at clock {clock}; none came after that at {block}")
            }
            None => format!("list {name} had no time at the start; none came at {block}"),
        });
    }
    lines
}

/// The listing with what each block had.
fn blocks(study: &Study, walk: &Walk) -> Table {
    let mut table = Table::new(&[">block", "label", "statement", ">entries", ">waits"]);
    for (i, (entries, waits)) in walk.entries.iter().zip(&walk.waits).enumerate() {
        let number = i as u64 + 1;
        table.row(vec![
            number.to_string(),
            study.names.label(number as u32).unwrap_or_default(),
            study.statement(number),
            entries.to_string(),
            waits.to_string(),
        ]);
    }
    table
}

/// The living by place and block of their last record.
fn living(study: &Study, run: &Run, walk: &Walk) -> Table {
    let mut groups: BTreeMap<(u64, String), (Vec<u64>, &str)> = BTreeMap::new();
    for one in &run.report.living {
        let life = walk.living.get(&one.transaction).copied();
        let last = last_block(study, &life.unwrap_or_default());
        let place = (one.place.number(), last);
        let group = groups.entry(place);
        let words = words::place_of(one.place);
        let (numbers, _) = group.or_insert_with(|| (Vec::new(), words));
        numbers.push(one.transaction);
    }
    let mut table = Table::new(&[">living", "place", "last block", "transactions"]);
    for ((_, last), (mut numbers, place)) in groups {
        numbers.sort_unstable();
        for (i, line) in wrapped(&numbers).into_iter().enumerate() {
            let first = |cell: String| if i == 0 { cell } else { String::new() };
            table.row(vec![
                first(numbers.len().to_string()),
                first(place.to_string()),
                first(last.trim_start_matches('0').to_string()),
                line,
            ]);
        }
    }
    table
}

/// The block of the last record as a listing has it, with its number in front so that groups sort by it.
fn last_block(study: &Study, life: &Life) -> String {
    match (life.last, life.birth) {
        (Some(last), _) => format!("{:03} {}", last.block, study.statement(last.block)),
        (None, Some(Birth::Arrival { block, .. })) => format!("none yet: to come at block {block}"),
        (None, Some(Birth::Copy { target, .. })) => format!("none yet: a copy for block {target}"),
        (None, None) => "none".to_string(),
    }
}

/// Transaction numbers, rows of them as ranges.
fn wrapped(numbers: &[u64]) -> Vec<String> {
    let mut ranges: Vec<(u64, u64)> = Vec::new();
    for &n in numbers {
        match ranges.last_mut() {
            Some((_, last)) if *last + 1 == n => *last = n,
            _ => ranges.push((n, n)),
        }
    }
    let words = ranges.iter().map(|(a, b)| match b - a {
        0 => a.to_string(),
        1 => format!("{a} {b}"),
        _ => format!("{a}..{b}"),
    });
    let mut lines = vec![String::new()];
    for word in words {
        let last = lines.len() - 1;
        if !lines[last].is_empty() && lines[last].len() + word.len() >= 50 {
            lines.push(word);
        } else {
            if !lines[last].is_empty() {
                lines[last].push(' ');
            }
            lines[last].push_str(&word);
        }
    }
    lines
}
