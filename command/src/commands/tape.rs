//! `covrith tape`: a tape drawn from distributions.

use super::{say, say_lines, tell, write_chosen, Command};
use crate::args::Args;
use crate::drawing;
use crate::drawn;
use crate::durable;
use crate::failure::{Done, Failure};
use crate::files;
use crate::shown;
use crate::slots::{self, Slots};
use crate::table::Table;
use modeltext::distribution::{Drawn, Form};
use modeltext::fixed::root;
use modeltext::read;
use modeltext::shape::{Figures, Number, PLACES, UNIT};
use modeltext::tape::names_against;
use modeltext::{Fault, Position};
use std::io::Write;
use std::path::Path;

pub const COMMAND: Command = Command {
    name: "tape",
    words: "DISTRIBUTIONS TAPE",
    about: "draw a tape from distributions",
    help: "\
Reads a text with a line for each list of a model, in its order, and writes the bytes of the tape that is drawn from it
(to standard output for -, and then nothing else):

  arrivals: exponential 12.5, 200 times
  stays:    lognormal 20 10, 200 times, stream 2
  walk:     fixed 7, 200 times

  covrith tape distributions.txt tape.bin --stream 3

The same text and stream give the same bytes on every machine. Where a model.txt lies beside the tape, the lists must be
its lists. For each list it prints what was asked for, what the curve has that stands for it, and what was drawn; drawn.txt
beside the tape keeps the text, the curves, the streams and the tape's SHA-256. docs/TEXT.md has the distributions.

  --stream N        tape N of this text: stream N for lists without a stream of their own, and for the others s + N x
                    (1 + the largest that the text names); 0 without it
  --run R           the tape of run R of covrith study, whose lists have draws of their own: 7 + 20000 is stream 7 behind its
                    first 20,000 draws
  --show            print what the engine draws from: each list as a fixed time, a spread or a curve
  --replace         write over TAPE where it is a regular file
",
    flags: &["--replace", "--show"],
    valued: &["--stream", "--run"],
    run: tape,
};

fn tape(args: &Args, out: &mut dyn Write) -> Done<()> {
    let [from, to] = args.paths("a text of distributions and the tape to write")?;
    let (number, run) = (args.number("--stream")?, args.number("--run")?);
    if number.is_some() && run.is_some() {
        return Err(Failure::usage("--stream and --run do not go together"));
    }
    if run == Some(0) {
        return Err(Failure::usage("--run counts runs from 1"));
    }
    let text = files::read_text(from)?;
    let lists = drawing::read(from, &text)?;
    let last = Position::at(text.lines().count().max(1), 1);
    let mismatches = against_model(&lists, last, to);
    if !mismatches.is_empty() {
        return Err(Failure::new(drawing::told(from, &mismatches).join("\n")));
    }
    let (streams, times, notes) = match run {
        Some(run) => of_run(from, &lists, run)?,
        None => of_streams(from, &lists, number.unwrap_or(0))?,
    };
    let bytes = drawing::bytes(&times);
    if to == Path::new("-") {
        tell(&notes);
        return write_chosen(to, &bytes, false, out);
    }
    let name = to.file_name().unwrap_or_default().to_string_lossy();
    let page_path = to.with_file_name(drawn::PAGE);
    other_page(&page_path, &name)?;
    write_chosen(to, &bytes, args.has("--replace"), out)?;
    let page = drawn::page(from, &text, &lists, &streams, (&name, &bytes));
    durable::write_file(&page_path, page.as_bytes(), true, true).map_err(|trouble| {
        Failure::new(trouble.message(&page_path, "the tape was written, this page was not"))
    })?;
    tell(&notes);
    let drawn: usize = times.iter().map(Vec::len).sum();
    let line = format!(
        "{}: {} lists, {drawn} times, {} bytes\n\n",
        shown::path(to),
        lists.len(),
        bytes.len()
    );
    say(out, &line)?;
    say_lines(out, &figures(&lists, &streams, &times).lines())?;
    if args.has("--show") {
        say(out, "\n")?;
        lists
            .iter()
            .try_for_each(|list| say_lines(out, &list.resolved()))?;
    }
    Ok(())
}

/// Where each list draws from, its times, and what is to be said of them.
type Times = (Vec<String>, Vec<Vec<u64>>, Vec<String>);

fn of_streams(from: &Path, lists: &[Drawn], number: u64) -> Done<Times> {
    let streams = drawing::streams(from, lists, number)?;
    let times = drawing::draw(from, lists, &streams)?;
    let notes = drawing::notes(lists, &streams, &times);
    let shown = streams.iter().map(|stream| stream.to_string()).collect();
    Ok((shown, times, notes))
}

/// The same for a run of a study.
fn of_run(from: &Path, lists: &[Drawn], run: u64) -> Done<Times> {
    let slots = Slots::of(lists);
    slots.refuse(from, run)?;
    let slots = slots.of_run(run);
    let times = slots::draw(from, lists, &slots)?;
    let notes = lists.iter().flat_map(|list| list.notes.clone()).collect();
    let shown = slots.iter().map(|slot| slot.to_string()).collect();
    Ok((shown, times, notes))
}

/// A page that speaks of another tape of the folder is not written over.
fn other_page(path: &Path, name: &str) -> Done<()> {
    let Ok(page) = files::read_text(path) else {
        return Ok(());
    };
    match drawn::tape_of(&page) {
        Some((_, other)) if other != name && path.with_file_name(other).exists() => {
            Err(Failure::new(format!(
                "{} tells what {other} beside it was drawn from; nothing was written\n    \
                 draw {name} in a folder of its own, or take that page away",
                shown::path(path)
            )))
        }
        _ => Ok(()),
    }
}

/// Where a model.txt lies beside the tape, how the lists differ from the model's.
fn against_model(lists: &[Drawn], last: Position, tape: &Path) -> Vec<Fault> {
    let Ok(text) = files::read_text(&tape.with_file_name("model.txt")) else {
        return Vec::new();
    };
    let source = read::model(&text);
    if !source.faults.is_empty() {
        return Vec::new();
    }
    let given: Vec<(&str, Position)> = lists.iter().map(|l| (&l.name[..], l.at)).collect();
    let add = |name: &str| format!("`{name}: distribution, count times`");
    let found = names_against(&given, last, &source.names.lists, add);
    found.iter().map(|one| one.fault().clone()).collect()
}

/// For each list what was asked for, what the form has that the engine draws from, and what was drawn.
fn figures(lists: &[Drawn], streams: &[String], times: &[Vec<u64>]) -> Table {
    let mut table = Table::new(&[
        "list", ">times", ">stream", "", ">mean", ">sd", ">least", ">most",
    ]);
    for ((list, stream), drawn) in lists.iter().zip(streams).zip(times) {
        let stream = match list.form {
            Form::Fixed(_) => "-".to_string(),
            _ => stream.clone(),
        };
        let front = [list.name.clone(), list.count.to_string(), stream];
        let whole: Vec<u64> = list.form.times().iter().map(|t| t * list.factor).collect();
        let rows = [
            (front, "asked", asked(list)),
            (Default::default(), "has", sample(&whole, whole.len())),
            (
                Default::default(),
                "drawn",
                sample(drawn, drawn.len().saturating_sub(1)),
            ),
        ];
        for (front, what, cells) in rows {
            table.row(
                front
                    .into_iter()
                    .chain([what.to_string()])
                    .chain(cells)
                    .collect(),
            );
        }
    }
    table
}

/// Mean, sd, least and most of times; of a sample the squares are divided by its number less one.
fn sample(times: &[u64], divisor: usize) -> [String; 4] {
    let (Some(least), Some(most)) = (times.iter().min(), times.iter().max()) else {
        return std::array::from_fn(|_| "-".to_string());
    };
    let count = times.len() as i128;
    let sum: i128 = times.iter().map(|t| i128::from(*t)).sum();
    let squares: i128 = times.iter().map(|t| i128::from(*t) * i128::from(*t)).sum();
    let off = count * squares - sum * sum;
    let sd = match divisor {
        0 => "-".to_string(),
        divisor => hundredths((root(40_000 * off / (count * divisor as i128)) + 1) / 2),
    };
    [
        hundredths((200 * sum + count) / (2 * count)),
        sd,
        least.to_string(),
        most.to_string(),
    ]
}

fn hundredths(n: i128) -> String {
    format!("{}.{:02}", n / 100, n % 100)
}

/// What was asked for, by the formula.
fn asked(list: &Drawn) -> [String; 4] {
    let figures = match (&list.shape, &list.form) {
        (Some(shape), _) => shape.figures(),
        (None, Form::Fixed(time)) => line(&[(0, parts(*time)), (65_536, parts(*time))]),
        (None, Form::Spread(mean, half)) => {
            let (mean, half) = (parts(*mean), parts(*half));
            line(&[(0, mean - half), (65_536, mean + half)])
        }
        (None, Form::Curve(points)) => {
            let points = points
                .iter()
                .map(|(u, t)| ((u * 65_536.0) as i128, parts(*t)));
            line(&points.collect::<Vec<_>>())
        }
    };
    let factor = i128::from(list.factor);
    let whole = |n: Option<Number>| match n {
        Some(n) => modeltext::shape::shown(n * factor),
        None => "-".to_string(),
    };
    let two = |n: Number| hundredths((100 * n * factor + UNIT / 2) >> PLACES);
    [
        two(figures.mean),
        two(figures.sd),
        whole(figures.least),
        whole(figures.most),
    ]
}

/// A time, which is a multiple of 1/64, as a parameter.
fn parts(time: f64) -> Number {
    (time * 64.0) as i128 * (UNIT / 64)
}

/// Of times on lines through points of u in 65,536ths: the mean of a + (b - a) x is (a + b) / 2, of its square (a² + ab + b²) / 3.
fn line(points: &[(i128, Number)]) -> Figures {
    let (mut sum, mut squares) = (0, 0);
    for ends in points.windows(2) {
        let ((u0, a), (u1, b)) = (ends[0], ends[1]);
        sum += (u1 - u0) * (a + b);
        squares += (u1 - u0) * ((a * a + a * b + b * b) / 3 >> PLACES);
    }
    let mean = sum >> 17;
    let variance = (squares >> 16) - (mean * mean >> PLACES);
    Figures {
        mean,
        sd: root(variance.max(0) << PLACES),
        least: points.first().map(|point| point.1),
        most: points.last().map(|point| point.1),
    }
}
