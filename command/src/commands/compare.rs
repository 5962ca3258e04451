//! `covrith compare`: two reports side by side.

use super::{run_study, say_lines, tell, Command, LENT};
use crate::args::Args;
use crate::execute::Lent;
use crate::failure::Done;
use crate::report::{self, facility_cells, queue_cells, storage_cells};
use crate::shown;
use crate::study::{self, Study};
use crate::table::Table;
use engine::Run;
use std::io::Write;

pub const COMMAND: Command = Command {
    name: "compare",
    words: "A B",
    about: "print the reports of two folders side by side",
    help: "\
Runs the models of both folders and prints their results and reports side by side, things by their names, with the
difference B - A. A dash stands where one has no such thing. Exit status 0 whether they differ or not.

  --all             print equal lines too
",
    flags: &["--all"],
    valued: LENT,
    run: compare,
};

fn compare(args: &Args, out: &mut dyn Write) -> Done<()> {
    let [a, b] = args.paths("two folders")?;
    let lent = Lent::usual(args.number("--budget")?, args.number("--trace-bytes")?);
    let mut notes = Vec::new();
    let mut sides = Vec::new();
    for folder in [a, b] {
        let study = study::load(folder, &mut notes)?;
        let run = run_study(&study, lent)?;
        sides.push(measures(&study, &run));
    }
    tell(&notes);
    let (a, b) = (shown::path(a), shown::path(b));
    say_lines(out, &lines(&a, &b, &sides[0], &sides[1], args.has("--all")))
}

/// What is measured of what, and its reading.
type Measure = (String, &'static str, String);

fn measures(study: &Study, run: &Run) -> Vec<Measure> {
    let o = &run.outcome;
    let living = run.report.living.len() as u64;
    let mut all = vec![(String::from("run"), "end", o.end.to_string())];
    for (what, n) in [
        ("clock", o.clock),
        ("turns", o.turns),
        ("made", o.made),
        ("ended", o.ended),
        ("living", living),
    ] {
        all.push((String::from("run"), what, n.to_string()));
    }
    let clock = run.report.clock;
    let mut add = |thing: String, headings: &[&'static str], cells: Vec<String>| {
        for (heading, cell) in headings.iter().zip(cells) {
            all.push((thing.clone(), heading.trim_start_matches('>'), cell));
        }
    };
    let names = &study.names;
    for (name, server) in names.facilities.iter().zip(&run.report.facilities) {
        let cells = facility_cells(server, clock);
        add(format!("facility {name}"), report::FACILITY, cells);
    }
    let capacities = &study.decoded.capacities;
    let storages = run.report.storages.iter().zip(capacities);
    for (name, (server, capacity)) in names.storages.iter().zip(storages) {
        let cells = storage_cells(server, *capacity, clock);
        add(format!("storage {name}"), report::STORAGE, cells);
    }
    for (name, queue) in names.queues.iter().zip(&run.report.queues) {
        add(
            format!("queue {name}"),
            report::QUEUE,
            queue_cells(queue, clock),
        );
    }
    all
}

fn lines(a: &str, b: &str, left: &[Measure], right: &[Measure], all: bool) -> Vec<String> {
    let mut table = Table::new(&["of", "what", ">A", ">B", ">B - A"]);
    let key = |m: &Measure| (m.0.to_lowercase(), m.1);
    let mut equal = 0;
    let only_right = right
        .iter()
        .filter(|m| !left.iter().any(|l| key(l) == key(m)));
    for measure in left.iter().chain(only_right) {
        let read = |side: &[Measure]| {
            let found = side.iter().find(|m| key(m) == key(measure));
            found.map_or("-".to_string(), |m| m.2.clone())
        };
        let (x, y) = (read(left), read(right));
        if x == y {
            equal += 1;
            if !all {
                continue;
            }
        }
        let d = difference(&x, &y);
        table.row(vec![measure.0.clone(), measure.1.to_string(), x, y, d]);
    }
    let mut lines = vec![format!("A {a}"), format!("B {b}")];
    if table.is_empty() {
        lines.push(format!("all {equal} readings are equal"));
    } else {
        lines.extend(table.lines());
        lines.push(format!("{equal} readings are equal"));
    }
    lines
}

/// The difference of two printed readings with the same decimals.
fn difference(a: &str, b: &str) -> String {
    let unit = if a.ends_with('%') { "%" } else { "" };
    let digits = |s: &str| -> Option<(i128, usize)> {
        let s = s.trim_end_matches('%');
        let decimals = s.split_once('.').map_or(0, |(_, d)| d.len());
        Some((s.replace('.', "").parse().ok()?, decimals))
    };
    let (Some((x, decimals)), Some((y, _))) = (digits(a), digits(b)) else {
        return "-".to_string();
    };
    let d = y - x;
    let sign = if d < 0 {
        "-"
    } else if d > 0 {
        "+"
    } else {
        ""
    };
    let d = d.abs();
    let scale = 10i128.pow(decimals as u32);
    match decimals {
        0 => format!("{sign}{d}{unit}"),
        _ => format!("{sign}{}.{:0decimals$}{unit}", d / scale, d % scale),
    }
}

#[cfg(test)]
mod tests {
    use super::difference;

    #[test]
    fn differences() {
        assert_eq!(difference("5", "3"), "-2");
        assert_eq!(difference("0.50", "1.05"), "+0.55");
        assert_eq!(difference("33.3%", "33.3%"), "0.0%");
        assert_eq!(difference("1.00", "0.95"), "-0.05");
        assert_eq!(difference("-", "3"), "-");
    }
}
