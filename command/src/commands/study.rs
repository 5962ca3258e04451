//! `covrith study`: many runs of a model on tapes drawn for them, with means and intervals.

use super::{say, say_lines, tell, Command, LENT};
use crate::args::Args;
use crate::execute::Lent;
use crate::failure::{self, Done, Failure};
use crate::interrupt;
use crate::measures::Measure;
use crate::runs::{self, Subject, Tally};
use crate::shown;
use crate::sums::Sums;
use crate::table::Table;
use modeltext::words::nearest;
use std::ffi::OsStr;
use std::io::Write;
use std::sync::Arc;

pub const COMMAND: Command = Command {
    name: "study",
    words: "FOLDER",
    about: "run a model many times on drawn tapes, with intervals",
    help: "\
Draws a tape for each run from the distributions.txt of the folder, runs the model on it, and prints for each measure the
mean of the runs, their standard deviation, the half-width of the interval around the mean, the least and the most; how the
runs ended; and which lists were used up. The folder needs no tape, and nothing is written.

Each list of each run has draws of its own, whatever streams distributions.txt names; `covrith tape --run R` writes the tape
of run R. The result is the same whatever --jobs says. Ctrl-C prints what is done so far, with status 130. Runs that are
stopped (ends 21 to 28) are counted and left out, and give status 1.

  --runs N          so many runs, 2 at least (without it 30)
  --first R         begin with run R (without it 1): other runs draw other times
  --until P         from ten runs on, end as soon as the half-width of each --measure is below P percent of its mean (5%);
                    --runs is the most, and where that is not enough the status is 1
  --measure NAME    a measure for --until, named as the table has it: clerk.mean-wait; may be given several times
  --confidence P    how sure intervals are in percent, 50 to 99.9 (without it 95%)
  --jobs N          at most N at a time (without it as many as the machine has cores)
",
    flags: &[],
    valued: &[
        "--runs",
        "--first",
        "--until",
        "--measure",
        "--confidence",
        "--jobs",
        LENT[0],
        LENT[1],
    ],
    run: study,
};

/// Runs without `--runs`, and the fewest that `--until` is content with.
const RUNS: u64 = 30;
const FEWEST: u64 = 10;

/// The part of studies whose interval holds the true mean, in 100,000ths.
const CONFIDENCE: u32 = 95_000;

/// What is asked of the half-widths.
struct Until {
    /// In 100,000ths of the mean.
    part: u32,
    measures: Vec<usize>,
}

fn study(args: &Args, out: &mut dyn Write) -> Done<()> {
    let [folder] = args.paths("one folder")?;
    let count = args.number("--runs")?.unwrap_or(RUNS);
    let first = args.number("--first")?.unwrap_or(1);
    let confidence = percent(args, "--confidence", 50_000, 99_900)?.unwrap_or(CONFIDENCE);
    let part = percent(args, "--until", 10, 99_000)?;
    let given = args.values("--measure");
    if count < 2 {
        return Err(Failure::usage(
            "an interval needs two runs at least; covrith tape --run R and covrith run make one",
        ));
    }
    if first == 0 {
        return Err(Failure::usage("--first counts runs from 1"));
    }
    match part {
        Some(_) if given.is_empty() => {
            return Err(Failure::usage("--until needs a --measure to look at"))
        }
        Some(_) if count < FEWEST => {
            return Err(Failure::usage(format!(
                "--until looks from {FEWEST} runs on: --runs is at least {FEWEST} then"
            )))
        }
        None if !given.is_empty() => {
            return Err(Failure::usage("--measure goes with --until"));
        }
        _ => {}
    }
    let subject = runs::load(folder)?;
    let until = match part {
        Some(part) => Some(Until {
            part,
            measures: find_all(&subject.measures, &given)?,
        }),
        None => None,
    };
    let last = first.saturating_add(count - 1);
    subject.slots.refuse(&subject.distributions, last)?;
    let mut notes: Vec<String> = subject.lists.iter().flat_map(|l| l.notes.clone()).collect();
    if subject.lists.iter().any(|list| list.stream.is_some()) {
        notes.push(format!(
            "the streams that {} names are for single tapes: in a study each list of each run has draws of its own",
            shown::path(&subject.distributions)
        ));
    }
    tell(&notes);
    let cores = std::thread::available_parallelism().map_or(1, |n| n.get() as u64);
    let jobs = args.number("--jobs")?.unwrap_or(cores).max(1).min(count);
    let lent = Lent::shared(
        args.number("--budget")?,
        args.number("--trace-bytes")?,
        jobs,
    );
    let subject = Arc::new(subject);
    let mut tally = Tally::new(&subject);
    let mut reached = false;
    interrupt::watch();
    let cut = runs::each(&subject, (first, count), jobs, lent, |run, told| {
        tally.add(run, &told);
        let enough = |until: &Until| tally.runs >= FEWEST && until.holds(&tally.sums, confidence);
        reached = until.as_ref().is_some_and(enough);
        reached
    })?;
    let lines = page(&subject, &tally, (first, count), cut, confidence);
    say_lines(out, &lines)?;
    if let (Some(until), false) = (&until, cut) {
        say(out, "\n")?;
        let part = shown_part(until.part);
        let line = match reached {
            true => format!("{} runs were enough for {part} %\n", tally.runs),
            false => format!("{} runs were not enough for {part} %\n", tally.runs),
        };
        say(out, &line)?;
    }
    out.flush().map_err(super::cannot_write)?;
    if cut {
        return Err(Failure {
            status: failure::INTERRUPTED,
            message: format!(
                "covrith: interrupted: {} of {count} runs are done",
                tally.runs
            ),
        });
    }
    match tally.stopped() {
        0 => {}
        1 => return Err(Failure::new("covrith: a run was stopped and left out")),
        n => {
            return Err(Failure::new(format!(
                "covrith: {n} runs were stopped and left out"
            )))
        }
    }
    match until {
        Some(until) if !reached => Err(Failure::new(until.missed(&subject, &tally, confidence))),
        _ => Ok(()),
    }
}

/// A percentage behind an option, in 100,000ths.
fn percent(args: &Args, name: &str, low: u32, high: u32) -> Done<Option<u32>> {
    let Some(word) = args.value(name) else {
        return Ok(None);
    };
    let part = thousandths(word).filter(|part| (low..=high).contains(part));
    let wrong = || {
        Failure::usage(format!(
            "{name} wants a percentage from {} to {}, and not `{}`",
            shown_part(low),
            shown_part(high),
            word.to_string_lossy()
        ))
    };
    part.map(Some).ok_or_else(wrong)
}

/// A number with at most three decimals, and `%` behind it where one likes.
fn thousandths(word: &OsStr) -> Option<u32> {
    let text = word.to_str()?;
    let text = text.strip_suffix('%').unwrap_or(text);
    let (whole, part) = text.split_once('.').unwrap_or((text, ""));
    let digits = |text: &str| text.bytes().all(|b| b.is_ascii_digit());
    let fits = (1..=2).contains(&whole.len()) && part.len() <= 3;
    if !fits || !digits(whole) || !digits(part) {
        return None;
    }
    format!("{whole}{part:0<3}").parse().ok()
}

/// 100,000ths as a percentage.
fn shown_part(part: u32) -> String {
    let text = format!("{}.{:03}", part / 1000, part % 1000);
    text.trim_end_matches('0').trim_end_matches('.').to_string()
}

/// The measures of these names.
fn find_all(measures: &[Measure], names: &[String]) -> Done<Vec<usize>> {
    let find = |name: &String| {
        let mut all = measures.iter();
        let found = all.position(|measure| measure.name.eq_ignore_ascii_case(name));
        found.ok_or_else(|| {
            let known = || measures.iter().map(|measure| &measure.name[..]);
            let hint = match nearest(name, known()) {
                Some(meant) => format!("did you mean {meant}?"),
                None => format!("there are {}", known().collect::<Vec<_>>().join(", ")),
            };
            Failure::usage(format!("there is no measure {name}; {hint}"))
        })
    };
    names.iter().map(find).collect()
}

impl Until {
    fn holds(&self, sums: &[Sums], confidence: u32) -> bool {
        let measures = self.measures.iter();
        measures
            .map(|i| &sums[*i])
            .all(|sums| self.of(sums, confidence))
    }

    /// Whether the half-width is below its part of the mean, or 0.
    fn of(&self, sums: &Sums, confidence: u32) -> bool {
        match (sums.mean(), sums.half_width(confidence)) {
            (Some(_), Some(0)) => true,
            (Some(mean), Some(half)) => half * 100_000 < mean.abs() * i128::from(self.part),
            _ => false,
        }
    }

    /// What is to be said where the runs were not enough.
    fn missed(&self, subject: &Subject, tally: &Tally, confidence: u32) -> String {
        let mut missing = self.measures.iter();
        let missing = missing.find(|i| !self.of(&tally.sums[**i], confidence));
        let name = missing.map_or("", |i| &subject.measures[*i].name);
        format!(
            "covrith: after {} runs the half-width of {name} is not below {} % of its mean\n    \
             ask for more with --runs, up to {}",
            tally.runs,
            shown_part(self.part),
            subject.slots.runs()
        )
    }
}

/// What a study prints.
fn page(
    subject: &Subject,
    tally: &Tally,
    (first, count): (u64, u64),
    cut: bool,
    confidence: u32,
) -> Vec<String> {
    let folder = subject.study.folder.display();
    let mut lines = Vec::new();
    if tally.runs == 0 {
        lines.push(format!("{folder}: interrupted before run {first} was done"));
        return lines;
    }
    let last = first + tally.runs - 1;
    let mut head = format!(
        "{folder}: runs {first} to {last}, half-widths at {} %",
        shown_part(confidence)
    );
    if cut {
        head += &format!("; interrupted, {} of {count} runs", tally.runs);
    }
    lines.push(head);
    for (end, (count, run)) in &tally.ends {
        let left_out = match runs::stopped(*end) {
            true => format!("; left out, the first is run {run}"),
            false => String::new(),
        };
        lines.push(format!("{count} ended {}: {end}{left_out}", end.number()));
    }
    lines.push(String::new());
    lines.extend(table(&subject.measures, &tally.sums, confidence).lines());
    let kept = tally.runs - tally.stopped();
    let mut used_up = Vec::new();
    for (list, count) in subject.lists.iter().zip(&tally.used_up) {
        if *count > 0 {
            used_up.push(format!(
                "list {} was used up before the end in {count} of {kept} runs",
                list.name
            ));
        }
    }
    if !used_up.is_empty() {
        lines.push(String::new());
        lines.extend(used_up);
    }
    lines
}

/// A row for each measure.
fn table(measures: &[Measure], sums: &[Sums], confidence: u32) -> Table {
    let mut table = Table::new(&[
        "measure",
        ">runs",
        ">mean",
        ">sd",
        ">half-width",
        ">least",
        ">most",
    ]);
    for (measure, sums) in measures.iter().zip(sums) {
        let unit = measure.unit;
        let shown = |x: Option<i128>| x.map_or("-".to_string(), |x| unit.shown(x));
        let of_run = |x: i128| match sums.count {
            0 => "-".to_string(),
            _ => unit.of_run(x),
        };
        table.row(vec![
            measure.name.clone(),
            sums.count.to_string(),
            shown(sums.mean()),
            shown(sums.sd()),
            shown(sums.half_width(confidence)),
            of_run(sums.least),
            of_run(sums.most),
        ]);
    }
    table
}
