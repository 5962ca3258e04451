//! `covrith follow`: one transaction's life.

use super::{run_study, say_lines, tell, Command, LENT};
use crate::args::{self, Args};
use crate::execute::Lent;
use crate::failure::{Done, Failure};
use crate::holders::{Handover, Holders};
use crate::shown;
use crate::study::{self, Study};
use crate::table::Table;
use crate::walk::{Birth, Births};
use crate::words;
use engine::{Record, Run};
use modeltext::words::{ASSEMBLE, WAITIF_JOINED, WAITIF_STATUS};
use std::io::Write;
use std::path::Path;

pub const COMMAND: Command = Command {
    name: "follow",
    words: "FOLDER N",
    about: "print the life of transaction N",
    help: "\
Runs the model and prints how transaction N was made, each of its records with the ticks that it waited or was
interrupted, and where it stands at the end.

",
    flags: &[],
    valued: LENT,
    run: follow,
};

fn follow(args: &Args, out: &mut dyn Write) -> Done<()> {
    let [folder, number] = args.exactly("a folder and the number of a transaction")?;
    let number = args::number(number, "the number of a transaction")?;
    let lent = Lent::usual(args.number("--budget")?, args.number("--trace-bytes")?);
    let mut notes = Vec::new();
    let study = study::load(Path::new(folder), &mut notes)?;
    tell(&notes);
    let run = run_study(&study, lent)?;
    if number == 0 || number > run.outcome.made {
        return Err(Failure::new(format!(
            "there is no transaction {number}: the run made {}",
            match run.outcome.made {
                0 => "none".to_string(),
                made => format!("1 to {made}"),
            }
        )));
    }
    say_lines(out, &life(&study, &run, number))
}

/// The life of a transaction in lines.
pub fn life(study: &Study, run: &Run, number: u64) -> Vec<String> {
    let mut birth = None;
    let mut births = Births::start(study, |n, b| {
        if n == number {
            birth = Some(b);
        }
    });
    let mut table = Table::new(&[">clock", ">block", "statement", "outcome"]);
    let mut last: Option<Record> = None;
    let mut holders = Holders::default();
    let mut interrupted = Interrupted::default();
    for record in run.records() {
        if let Some((numbers, b)) = births.record(&record) {
            if numbers.contains(&number) {
                birth = Some(b);
            }
        }
        let handover = holders.record(study, &record);
        interrupted.count(handover, number, record.clock);
        if record.transaction != number {
            continue;
        }
        table.row(vec![
            record.clock.to_string(),
            record.block.to_string(),
            study.statement(record.block),
            outcome(study, &record, last.as_ref()) + &interrupted.told(),
        ]);
        last = Some(record);
    }
    let mut lines = vec![format!(
        "transaction {number} of {}, {}",
        shown::path(&study.folder),
        born(birth)
    )];
    if table.is_empty() {
        lines.push("it has no record".to_string());
    } else {
        lines.extend(table.lines());
    }
    let mut living = run.report.living.iter();
    lines.push(match living.find(|one| one.transaction == number) {
        Some(one) => format!(
            "living at the end, clock {}: {}",
            run.outcome.clock,
            words::place_of(one.place)
        ),
        None => format!("ended at clock {}", last.map_or(0, |record| record.clock)),
    });
    lines
}

/// How long it was interrupted since its last record.
#[derive(Default)]
struct Interrupted {
    since: u64,
    times: u64,
    ticks: u64,
}

impl Interrupted {
    fn count(&mut self, handover: Option<Handover>, number: u64, clock: u64) {
        match handover {
            Some(Handover::Interrupted(who)) if who == number => self.since = clock,
            Some(Handover::GivenBack(who)) if who == number => {
                self.times += 1;
                self.ticks += clock - self.since;
            }
            _ => {}
        }
    }

    /// In words behind the outcome; then it begins again.
    fn told(&mut self) -> String {
        match std::mem::take(self) {
            Interrupted { times: 0, .. } => String::new(),
            Interrupted {
                times: 1, ticks, ..
            } => {
                format!(", interrupted for {}", words::ticks(ticks))
            }
            Interrupted { times, ticks, .. } => {
                format!(", interrupted {times} times for {}", words::ticks(ticks))
            }
        }
    }
}

fn born(birth: Option<Birth>) -> String {
    match birth {
        Some(Birth::Arrival { clock: 0, block }) => {
            format!("made at clock 0 by the GENERATE of block {block}")
        }
        Some(Birth::Arrival { clock, block }) => {
            format!("made at clock {clock} by the GENERATE of block {block}")
        }
        Some(Birth::Copy {
            clock, of, block, ..
        }) => {
            format!(
                "made at clock {clock} by the SPLIT of block {block}, a copy of transaction {of}"
            )
        }
        None => "of unknown making".to_string(),
    }
}

/// What a record tells, with the wait before it. Server waits go on to the next block, or are joined and send back; the first of a family
/// goes on from its ASSEMBLE without a record.
fn outcome(study: &Study, record: &Record, last: Option<&Record>) -> String {
    let began = last.filter(|last| !last.entered()).map(|last| last.clock);
    let kind = last
        .and_then(|last| study.block(last.block))
        .map_or(0, |block| block.kind);
    let waits = [WAITIF_STATUS, WAITIF_JOINED].contains(&kind);
    if kind == ASSEMBLE {
        if let Some(began) = began {
            let ticks = words::ticks(record.clock - began);
            return format!(
                "went on after {ticks}, {}",
                words::outcome_of(record.outcome)
            );
        }
    }
    if !waits || last.map_or(true, |last| last.block <= record.block) {
        return words::outcome_after(record, began);
    }
    let words = words::outcome_of(record.outcome);
    match began.map(|began| words::ticks(record.clock - began)) {
        None => format!("went back, {words}"),
        Some(ticks) => format!("went back after {ticks}, {words}"),
    }
}
