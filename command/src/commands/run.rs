//! `covrith run`: a run and its report for people.

use super::{cannot_write, run_study, say, say_lines, tell, Command, LENT};
use crate::args::Args;
use crate::execute::{cut_by_memory, execute, Lent};
use crate::failure::{Done, Failure};
use crate::report::report;
use crate::shown;
use crate::study::{self, Study};
use crate::walk::walk;
use crate::words;
use engine::{Outcome, Report, Run};
use std::collections::HashMap;
use std::io::Write;
use std::path::Path;

pub const COMMAND: Command = Command {
    name: "run",
    words: "FOLDER",
    about: "run a model and print its report",
    help: "\
Assembles the text, and writes bytes that differ anew and says so; runs the model; prints how the run ended and what
facilities, storages, queues and blocks had. Of an archive's data/ the bytes are run, and nothing is written. Exit status 1
where the run is refused or stopped (ends 21 to 28).

  --records         print each record with names before the report, and the ticks that a wait took
  --plain           print what runmodel prints, numbers alone, with what it lends: 1,000,000 turns and 65,536 bytes of trace;
                    of model and tape it reads 65,536 bytes each
",
    flags: &["--records", "--plain"],
    valued: LENT,
    run,
};

/// What the program runmodel lends and reads (document 01, first example).
const PLAIN_BUDGET: u64 = 1_000_000;
const PLAIN_ROOM: u64 = 65_536;
const PLAIN_FILE: usize = 65_536;

fn run(args: &Args, out: &mut dyn Write) -> Done<()> {
    let [folder] = args.exactly("one folder")?;
    let (budget, room) = (args.number("--budget")?, args.number("--trace-bytes")?);
    let mut notes = Vec::new();
    if args.has("--plain") {
        let lent = Lent {
            budget: budget.unwrap_or(PLAIN_BUDGET),
            room: room.unwrap_or(PLAIN_ROOM),
            short: false,
        };
        return plain(Path::new(folder), lent, out);
    }
    let study = study::load(Path::new(folder), &mut notes)?;
    tell(&notes);
    let lent = Lent::usual(budget, room);
    let run = run_study(&study, lent)?;
    if args.has("--records") {
        records(&study, &run, out)?;
    }
    let walk = walk(&study, &run);
    say_lines(out, &report(&study, &run, &walk, lent))?;
    let end = run.end.number();
    if words::stop_of(end).is_some() || end == 26 || cut_by_memory(lent, &run.outcome) {
        out.flush().map_err(cannot_write)?;
        return Err(Failure::new(format!(
            "covrith: the run was stopped, end {end}"
        )));
    }
    Ok(())
}

/// Each record with its block as the listing has it.
fn records(study: &Study, run: &Run, out: &mut dyn Write) -> Done<()> {
    let statements: Vec<String> = (1..=study.decoded.blocks.len() as u64)
        .map(|number| study.statement(number))
        .collect();
    let width = statements.iter().map(|s| s.chars().count()).max();
    let width = width.unwrap_or(0);
    let clock = run.outcome.clock.to_string().len().max(5);
    let made = run.outcome.made.to_string().len().max(11);
    say(
        out,
        &format!(
            "{:>clock$}  {:>made$}  {:>5}  {:width$}  outcome\n",
            "clock", "transaction", "block", "statement"
        ),
    )?;
    let mut waiting = HashMap::new();
    for record in run.records() {
        let statement = statements.get((record.block as usize).wrapping_sub(1));
        let began = waiting
            .remove(&record.transaction)
            .filter(|(block, _)| *block == record.block)
            .map(|(_, clock)| clock);
        if !record.entered() {
            waiting.insert(record.transaction, (record.block, record.clock));
        }
        let line = format!(
            "{:>clock$}  {:>made$}  {:>5}  {:width$}  {}\n",
            record.clock,
            record.transaction,
            record.block,
            statement.map_or("", String::as_str),
            words::outcome_after(&record, began)
        );
        say(out, &line)?;
    }
    say(out, "\n")
}

/// What runmodel prints, for the bytes of the folder as they are.
fn plain(folder: &Path, lent: Lent, out: &mut dyn Write) -> Done<()> {
    let mut notes = Vec::new();
    let loaded = study::load(folder, &mut notes);
    tell(&notes);
    let pair = match &loaded {
        Ok(study) => [study.model.clone(), study.tape.clone()],
        // what the engine refuses is told by its number; a text with faults has no bytes to be refused
        Err(failure) => {
            let (model, tape) = study::files_of(folder).map_err(|_| failure.clone())?;
            if !model.faults().is_empty() || !tape.faults().is_empty() {
                return Err(failure.clone());
            }
            [model.bytes, tape.bytes]
        }
    };
    let mut names = ["model.bin", "tape.bin"].iter();
    let pair = pair.map(|mut bytes| {
        let path = folder.join(names.next().unwrap_or(&""));
        if bytes.len() > PLAIN_FILE {
            tell(&[format!(
                "of {} the first {PLAIN_FILE} bytes are read",
                shown::path(&path)
            )]);
            bytes.truncate(PLAIN_FILE);
        }
        bytes
    });
    let number = crate::judge::refusal(&pair[0], &pair[1]);
    if number > 0 {
        say(out, &format!("refused {number}\n"))?;
        out.flush().map_err(cannot_write)?;
        return Err(Failure::new(match loaded {
            Err(failure) => failure.message,
            Ok(_) => String::new(),
        }));
    }
    let run = execute(&pair[0], &pair[1], lent)?;
    for record in run.records() {
        let line = format!(
            "{} {} {} {}\n",
            record.clock, record.transaction, record.block, record.outcome
        );
        say(out, &line)?;
    }
    say_lines(out, &plain_report(&run.outcome, &run.report))
}

/// The lines behind the records: the end, then servers and queues by number.
pub fn plain_report(outcome: &Outcome, report: &Report) -> Vec<String> {
    let mut lines = vec![format!(
        "end {} {} {} {} {}",
        outcome.end,
        outcome.clock,
        outcome.made,
        outcome.ended,
        report.living.len()
    )];
    for (letter, servers) in [('f', &report.facilities), ('s', &report.storages)] {
        for (i, s) in servers.iter().enumerate() {
            lines.push(format!(
                "{letter} {} {} {} {} {} {}",
                i + 1,
                s.entries,
                s.unit_ticks,
                s.waits_begun,
                s.ticks_waited,
                s.longest
            ));
        }
    }
    for (i, q) in report.queues.iter().enumerate() {
        let (arrivals, ticks) = (q.arrivals, q.content_ticks);
        lines.push(format!("q {} {arrivals} {ticks} {}", i + 1, q.longest));
    }
    lines
}
