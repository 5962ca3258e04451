//! Distributions: a line for each list of a tape, `arrivals: exponential 12.5, 200 times`. Each becomes a fixed time, a spread or a curve,
//! and the engine draws the tape from these.

use crate::shape::{self, Shape};
use crate::{Fault, Position};

/// What the engine draws a list from.
#[derive(Clone, Debug, PartialEq)]
pub enum Form {
    Fixed(f64),
    Spread(f64, f64),
    /// Points of u and time.
    Curve(Vec<(f64, f64)>),
}

/// A list: its name, where it stands, its distribution and how many times are drawn.
#[derive(Clone, Debug, PartialEq)]
pub struct Drawn {
    pub name: String,
    pub at: Position,
    /// The distribution as it was written.
    pub written: String,
    /// By what name, if by one; then `form` is its curve.
    pub shape: Option<Shape>,
    pub form: Form,
    /// Where each number of the distribution stands, in the order of the text.
    pub places: Vec<Position>,
    pub count: u32,
    pub count_at: Position,
    /// What each time that was drawn is multiplied with.
    pub factor: u64,
    /// The stream of its own, if it has one.
    pub stream: Option<u32>,
    pub stream_at: Position,
    /// What is to be said of it though nothing is wrong.
    pub notes: Vec<String>,
}

/// A word and where it begins.
type Word<'a> = (Position, &'a str);

/// The lines of a list: its name and the words behind it.
struct Entry<'a> {
    name: &'a str,
    at: Position,
    words: Vec<Word<'a>>,
    /// Behind the last word.
    end: Position,
}

/// The names of distributions: what stands behind each, and an example.
pub const NAMES: &[(&str, &str, &str)] = &[
    ("exponential", "MEAN", "exponential 20"),
    ("uniform", "FIRST LAST", "uniform 4 12"),
    ("normal", "MEAN SD", "normal 20 3"),
    ("erlang", "PHASES MEAN", "erlang 3 20"),
    ("triangular", "LEAST FREQUENT MOST", "triangular 4 6 12"),
    ("lognormal", "MEAN SD", "lognormal 20 10"),
    ("weibull", "SHAPE SCALE", "weibull 1.5 20"),
    ("discrete", "TIME:PROBABILITY ..", "discrete 0:0.7 1:0.3"),
    ("empirical", "FILE", "empirical measured.txt"),
    ("fixed", "TIME", "fixed 7"),
    ("spread", "MEAN +- HALF", "spread 12.5 +- 4"),
    ("curve", "U:TIME ..", "curve 0:1 0.5:3 1:10"),
];

const COUNT: &str = "a list ends with how often a time is drawn: `, 200 times`";
const WHOLE: &str = "times of `uniform` and `discrete` are whole ticks, and phases whole numbers";

/// The longest time of a tape, the last stream, and how many draws streams begin apart.
pub const LONGEST: u64 = 10_000_000_000;
pub const LAST_STREAM: u32 = 511;
pub const APART: u64 = 100_000;

/// Gives the text of a file that a distribution names, or why there is none.
pub type Open<'a> = dyn Fn(&str) -> Result<String, String> + 'a;

/// The lists of a text in their order. A line that begins with a digit or a comma goes on with the list before it.
pub fn read(text: &str, open: &Open) -> Result<Vec<Drawn>, Vec<Fault>> {
    let mut entries: Vec<Result<Entry, Fault>> = Vec::new();
    for (i, source) in text.lines().enumerate() {
        let source = source.split(';').next().unwrap_or_default();
        let front = source.trim_start();
        if front.is_empty() || front.starts_with('*') {
            continue;
        }
        match entries.last_mut() {
            Some(entry) if front.starts_with(|c: char| c.is_ascii_digit() || c == ',') => {
                if let Ok(entry) = entry {
                    entry.words.extend(words(source, i + 1, 1));
                    entry.end = behind(source, i + 1);
                }
            }
            _ => entries.push(head(source, i + 1)),
        }
    }
    let mut lists = Vec::new();
    let mut faults = Vec::new();
    for entry in entries {
        match entry.and_then(|entry| drawn(entry, open)) {
            Ok(list) => lists.push(list),
            Err(fault) => faults.push(fault),
        }
    }
    faults.extend(shared_streams(&lists));
    if faults.is_empty() {
        Ok(lists)
    } else {
        Err(faults)
    }
}

/// Lists that name a stream which another list has.
fn shared_streams(lists: &[Drawn]) -> Vec<Fault> {
    let mut faults = Vec::new();
    for (i, list) in lists.iter().enumerate() {
        let same = |other: &&Drawn| list.stream.is_some() && other.stream == list.stream;
        let (Some(stream), Some(first)) = (list.stream, lists[..i].iter().find(same)) else {
            continue;
        };
        let taken = |n: &u32| lists.iter().any(|list| list.stream == Some(*n));
        let free = (1..=LAST_STREAM).find(|n| !taken(n)).unwrap_or(LAST_STREAM);
        faults.push(Fault::at(
            list.stream_at,
            format!(
                "`{}` has stream {stream} already, and lists of one stream would get the same draws",
                first.name
            ),
            format!("give `{}` a stream of its own, as `stream {free}`", list.name),
        ));
    }
    faults
}

/// The numbers and doubles that the engine's tape maker takes: for each list kind, count, index of its first double and points.
pub fn arguments(lists: &[Drawn]) -> (Vec<u32>, Vec<f64>) {
    let mut numbers = Vec::new();
    let mut doubles = Vec::new();
    for list in lists {
        let first = doubles.len() as u32;
        let (kind, points) = match &list.form {
            Form::Fixed(time) => {
                doubles.push(*time);
                (0, 0)
            }
            Form::Spread(mean, half) => {
                doubles.extend([*mean, *half]);
                (1, 0)
            }
            Form::Curve(points) => {
                doubles.extend(points.iter().flat_map(|(u, time)| [*u, *time]));
                (2, points.len() as u32)
            }
        };
        numbers.extend([kind, list.count, first, points]);
    }
    (numbers, doubles)
}

impl Form {
    /// The points of a curve as doubles, which hold them exactly.
    pub fn of_points(points: &[(u32, u32)]) -> Form {
        let (u_parts, time_parts) = (f64::from(shape::U_PARTS), f64::from(shape::TIME_PARTS));
        let double = |(u, t): &(u32, u32)| (f64::from(*u) / u_parts, f64::from(*t) / time_parts);
        Form::Curve(points.iter().map(double).collect())
    }

    /// The whole part of the time that the engine draws with each u, from 0/65,536 to 65,535/65,536, for a form that it takes.
    pub fn times(&self) -> Vec<u64> {
        let all = shape::U_PARTS;
        let us = (0..all).map(|k| f64::from(k) / f64::from(all));
        match self {
            Form::Fixed(time) => vec![*time as u64; all as usize],
            Form::Spread(mean, half) => us.map(|u| (mean - half + 2.0 * half * u) as u64).collect(),
            Form::Curve(points) => {
                let mut times = Vec::with_capacity(all as usize);
                let mut segments = points.windows(2).peekable();
                for u in us {
                    while segments.peek().is_some_and(|ends| u >= ends[1].0) {
                        segments.next();
                    }
                    let Some(&&[(u0, t0), (u1, t1)]) = segments.peek() else {
                        break;
                    };
                    times.push((t0 + ((t1 - t0) * (u - u0)) / (u1 - u0)) as u64);
                }
                times
            }
        }
    }
}

impl Drawn {
    /// The list with the distribution that the engine draws from, as text that reads back: lines of at most a hundred characters.
    pub fn resolved(&self) -> Vec<String> {
        let mut words = match &self.form {
            Form::Fixed(time) => vec![format!("fixed {time}")],
            Form::Spread(mean, half) => vec![format!("spread {mean} +- {half}")],
            Form::Curve(points) => {
                let mut words: Vec<String> =
                    points.iter().map(|(u, t)| format!("{u}:{t}")).collect();
                if let Some(first) = words.first_mut() {
                    first.insert_str(0, "curve ");
                }
                words
            }
        };
        if let Some(last) = words.last_mut() {
            last.push_str(&self.behind());
        }
        let mut lines = vec![format!("{}:", self.name)];
        for word in words {
            let last = lines.len() - 1;
            if lines[last].len() + 1 + word.len() > 100 {
                lines.push(format!("    {word}"));
            } else {
                lines[last].push(' ');
                lines[last].push_str(&word);
            }
        }
        lines
    }

    /// What stands behind the distribution.
    fn behind(&self) -> String {
        let factor = match self.factor {
            1 => String::new(),
            factor => format!(", times {factor}"),
        };
        let stream = self
            .stream
            .map_or(String::new(), |s| format!(", stream {s}"));
        format!("{factor}, {} times{stream}", self.count)
    }
}

/// The first line of a list.
fn head(source: &str, line: usize) -> Result<Entry<'_>, Fault> {
    let Some((front, rest)) = source.split_once(':') else {
        return Err(Fault::at(
            Position::at(line, 1),
            "`:` is expected behind the name of a list",
            "write `name: distribution, count times`",
        ));
    };
    let name = front.trim();
    let start = front.chars().take_while(|c| c.is_whitespace()).count() + 1;
    let at = Position::at(line, start);
    if !named(name) {
        return Err(Fault::at(
            at,
            "a line begins with the name of a list",
            "names have letters, digits and `_`, and begin with a letter",
        ));
    }
    Ok(Entry {
        name,
        at,
        words: words(rest, line, front.chars().count() + 2),
        end: behind(source, line),
    })
}

fn behind(source: &str, line: usize) -> Position {
    Position::at(line, source.trim_end().chars().count() + 1)
}

/// What stands behind the commas of a list.
#[derive(Default)]
struct Behind {
    count: Option<(u32, Position)>,
    factor: Option<(u64, Position)>,
    stream: Option<(u32, Position)>,
}

/// The parts behind a distribution, in any order, each once.
fn parts(words: &[Word], end: Position) -> Result<Behind, Fault> {
    let mut found = Behind::default();
    for part in words.split(|(_, word)| *word == ",") {
        let taken = match *part {
            [(at, count), (_, "times" | "time")] => {
                let wrong = |_| Fault::at(at, format!("`{count}` is no count"), COUNT);
                let count = count.parse().map_err(wrong)?;
                found.count.replace((count, at)).map(|_| at)
            }
            [(_, "times"), (at, factor)] => found
                .factor
                .replace((multiplier(factor, at)?, at))
                .map(|_| at),
            [(_, "stream"), (at, stream)] => found
                .stream
                .replace((own_stream(stream, at)?, at))
                .map(|_| at),
            _ => {
                let at = part.first().map_or(end, |word| word.0);
                return Err(Fault::at(
                    at,
                    "the count of times is expected",
                    format!("{COUNT}; beside it may stand `, times 60` and `, stream 3`"),
                ));
            }
        };
        if let Some(at) = taken {
            return Err(Fault::at(
                at,
                "this stands behind the distribution already",
                "take one of them away",
            ));
        }
    }
    Ok(found)
}

fn multiplier(word: &str, at: Position) -> Result<u64, Fault> {
    let value = word
        .parse()
        .ok()
        .filter(|factor| (1..=LONGEST).contains(factor));
    value.ok_or_else(|| {
        Fault::at(
            at,
            format!("behind `times` stands a whole number from 1 to {LONGEST}, and here `{word}`"),
            "`, times 60000` makes minutes that were drawn to milliseconds",
        )
    })
}

fn own_stream(word: &str, at: Position) -> Result<u32, Fault> {
    let value = word
        .parse()
        .ok()
        .filter(|stream| (1..=LAST_STREAM).contains(stream));
    value.ok_or_else(|| {
        Fault::at(
            at,
            match word {
                "0" => "stream 0 is the tape's own, for the lists that name none".to_string(),
                _ => format!("streams of lists are numbered from 1 to {LAST_STREAM}, and here stands `{word}`"),
            },
            "write a stream that no other list has, as `stream 3`",
        )
    })
}

/// The list of an entry.
fn drawn(entry: Entry, open: &Open) -> Result<Drawn, Fault> {
    let Entry {
        name,
        at,
        words,
        end,
    } = entry;
    let comma = words.iter().position(|(_, word)| *word == ",");
    let front = &words[..comma.unwrap_or(words.len())];
    let front_end = comma.map_or(end, |at| words[at].0);
    let (shape, form, places, notes) = distribution(name, front, front_end, open)?;
    let missing = || Fault::at(end, "the count of times is missing", COUNT);
    let behind = parts(&words[comma.ok_or_else(missing)? + 1..], end)?;
    let (count, count_at) = behind.count.ok_or_else(missing)?;
    let (factor, factor_at) = behind.factor.unwrap_or((1, end));
    let (stream, stream_at) = match behind.stream {
        Some((stream, at)) => (Some(stream), at),
        None => (None, end),
    };
    if factor > 1 {
        let longest = form.times().last().copied().unwrap_or(0);
        if longest.saturating_mul(factor) > LONGEST {
            return Err(Fault::at(
                factor_at,
                format!("the longest time would be {longest} x {factor}, and a time of a tape is at most {LONGEST}"),
                format!("write at most {}, and count in larger ticks", LONGEST / longest),
            ));
        }
    }
    let written: Vec<&str> = front.iter().map(|word| word.1).collect();
    Ok(Drawn {
        name: name.to_string(),
        at,
        written: written.join(" "),
        shape,
        form,
        places,
        count,
        count_at,
        factor,
        stream,
        stream_at,
        notes,
    })
}

/// What a list is drawn from: the name if it has one, the form, where its numbers stand, and notes.
type Read = (Option<Shape>, Form, Vec<Position>, Vec<String>);

fn distribution(list: &str, words: &[Word], end: Position, open: &Open) -> Result<Read, Fault> {
    let Some(((at, name), rest)) = words.split_first() else {
        return Err(unknown(end, ""));
    };
    let name = name.to_ascii_lowercase();
    let Some((_, wanted, example)) = NAMES.iter().find(|one| one.0 == name) else {
        return Err(unknown(*at, &name));
    };
    let form = || {
        let behind = rest.get(wanted.split(' ').count());
        Fault::at(
            behind.map_or(*at, |word| word.0),
            format!("`{name}` takes {wanted}"),
            format!("write it like `{example}`"),
        )
    };
    let mut places: Vec<Position> = rest.iter().map(|word| word.0).collect();
    let plain = |form| Ok((None, form, places.clone(), Vec::new()));
    let shape = match (&name[..], rest) {
        ("fixed", [time]) => return plain(Form::Fixed(decimal(*time)?)),
        ("spread", [mean, (_, "+-"), half]) => {
            let (mean, half) = (decimal(*mean)?, decimal(*half)?);
            return Ok((
                None,
                Form::Spread(mean, half),
                vec![places[0], places[2]],
                spread_note(list, mean, half),
            ));
        }
        ("curve", points) => return curve(list, points),
        ("exponential", [mean]) => Shape::Exponential(parameter(*mean)?),
        ("uniform", [first, last]) => Shape::Uniform(ticks(*first)?, ticks(*last)?),
        ("normal", [mean, sd]) => Shape::Normal(parameter(*mean)?, parameter(*sd)?),
        ("erlang", [phases, mean]) => Shape::Erlang(ticks(*phases)?, parameter(*mean)?),
        ("triangular", [a, c, b]) => {
            Shape::Triangular(parameter(*a)?, parameter(*c)?, parameter(*b)?)
        }
        ("lognormal", [mean, sd]) => Shape::Lognormal(parameter(*mean)?, parameter(*sd)?),
        ("weibull", [shape, scale]) => Shape::Weibull(parameter(*shape)?, parameter(*scale)?),
        ("discrete", [_, ..]) => {
            let mut values = Vec::new();
            places.clear();
            for word in rest {
                let (time, part) = pair(*word, "a value of `discrete` is a time and its probability with `:` between them, as 0:0.7")?;
                places.extend([time.0, part.0]);
                values.push((ticks(time)?, probability(part)?));
            }
            Shape::Discrete(values)
        }
        ("empirical", [(at, file)]) => Shape::Empirical(measured(file, *at, open)?),
        _ => return Err(form()),
    };
    shape.check().map_err(|wrong| {
        let place = places.get(wrong.parameter).unwrap_or(at);
        Fault::at(*place, wrong.what, wrong.remedy)
    })?;
    let form = Form::of_points(&shape.curve());
    Ok((Some(shape), form, places, Vec::new()))
}

fn unknown(at: Position, name: &str) -> Fault {
    let names = NAMES.iter().map(|one| one.0);
    let remedy = match crate::words::nearest(name, names) {
        Some(meant) => format!("did you mean `{meant}`?"),
        None => {
            let examples: Vec<String> = NAMES.iter().map(|one| format!("`{}`", one.2)).collect();
            format!("write one of {}", examples.join(", "))
        }
    };
    Fault::at(at, "a distribution is expected", remedy)
}

/// The whole part of a spread is written, so that its mean is half a tick lower.
fn spread_note(list: &str, mean: f64, half: f64) -> Vec<String> {
    let (first, last) = ((mean - half).ceil(), (mean + half).floor());
    if half == 0.0 || half > mean || mean.fract() != 0.0 || half.fract() != 0.0 {
        return Vec::new();
    }
    vec![format!(
        "of a spread the whole part is written: `{list}` has times from {first} to {}, with mean {}; `uniform {first} {last}` has {first} to {last} with mean {mean}",
        last - 1.0,
        mean - 0.5
    )]
}

/// Points of a curve; a u between two 65,536ths is rounded to the nearest, halves up.
fn curve(list: &str, points: &[Word]) -> Result<Read, Fault> {
    let (mut curve, mut places, mut rounded) = (Vec::new(), Vec::new(), Vec::new());
    for point in points {
        let (u, time) = pair(
            *point,
            "a point is u and time with `:` between them, as 0.5:3",
        )?;
        places.extend([u.0, time.0]);
        let given = decimal(u)?;
        let parts = f64::from(shape::U_PARTS);
        let taken = if given <= 1.0 {
            (given * parts).round() / parts
        } else {
            given
        };
        if taken != given {
            rounded.push(format!("{} as {taken}", u.1));
        }
        curve.push((taken, decimal(time)?));
    }
    let notes = match rounded.is_empty() {
        true => Vec::new(),
        false => vec![format!(
            "u counts in 65,536ths: `{list}` takes {}",
            rounded.join(", ")
        )],
    };
    Ok((None, Form::Curve(curve), places, notes))
}

/// The measured times of a file, rising: a number to a line, comments and empty lines between them.
fn measured(file: &str, at: Position, open: &Open) -> Result<Vec<shape::Number>, Fault> {
    let text = open(file).map_err(|why| {
        Fault::at(
            at,
            format!("`{file}` cannot be read: {why}"),
            "behind `empirical` stands a file with measured times, named from the folder of this text",
        )
    })?;
    let inside = |fault: Fault| Fault {
        file: Some(file.to_string()),
        ..fault
    };
    let mut times = Vec::new();
    for (i, source) in text.lines().enumerate() {
        let code = source.split(';').next().unwrap_or_default();
        if code.trim_start().starts_with('*') {
            continue;
        }
        let found = words(code, i + 1, 1);
        let Some(first) = found.first() else {
            continue;
        };
        if let Some(more) = found.get(1) {
            return Err(inside(Fault::at(
                more.0,
                "a line has one measured time",
                "write a time to a line, with `.` before its decimals",
            )));
        }
        let time = parameter(*first).map_err(inside)?;
        if time > shape::LONGEST << shape::PLACES {
            return Err(inside(Fault::at(
                first.0,
                format!(
                    "a time of a distribution is at most {}, and here {}",
                    shape::LONGEST,
                    first.1
                ),
                "count in larger ticks",
            )));
        }
        times.push(time);
    }
    if times.is_empty() {
        return Err(inside(Fault::at(
            Position::at(1, 1),
            "there is no measured time in this file",
            "write a time to a line",
        )));
    }
    times.sort_unstable();
    Ok(times)
}

fn named(name: &str) -> bool {
    name.starts_with(|c: char| c.is_ascii_alphabetic())
        && name.chars().all(|c| c.is_ascii_alphanumeric() || c == '_')
}

/// Words between spaces; a comma is a word of its own. The text begins at a column of its line.
fn words(text: &str, line: usize, column: usize) -> Vec<Word<'_>> {
    let mut words = Vec::new();
    let mut start = None;
    for (k, (at, c)) in text.char_indices().enumerate() {
        let here = Position::at(line, column + k);
        if c.is_whitespace() || c == ',' {
            if let Some((from, begun)) = start.take() {
                words.push((begun, &text[from..at]));
            }
            if c == ',' {
                words.push((here, ","));
            }
        } else if start.is_none() {
            start = Some((at, here));
        }
    }
    if let Some((from, begun)) = start {
        words.push((begun, &text[from..]));
    }
    words
}

/// Digits, perhaps with a point among them.
fn decimal(word: Word) -> Result<f64, Fault> {
    digits(word)?;
    word.1.parse().map_err(|_| no_number(word))
}

fn digits((at, word): Word) -> Result<(), Fault> {
    let plain = |s: &str| {
        s.chars().all(|c| c.is_ascii_digit() || c == '.')
            && s.contains(|c: char| c.is_ascii_digit())
    };
    if plain(word) {
        return Ok(());
    }
    if word.strip_prefix('-').is_some_and(plain) {
        return Err(Fault::at(
            at,
            format!("{word} is below 0, and no number of a distribution is"),
            "write a number of 0 or more",
        ));
    }
    Err(no_number((at, word)))
}

fn no_number((at, word): Word) -> Fault {
    Fault::at(
        at,
        format!("`{word}` is no number"),
        "numbers are written like 7 or 12.5",
    )
}

/// Eighteen digits behind the point, and no more than nine before it.
fn scaled(word: Word) -> Result<i128, Fault> {
    digits(word)?;
    let whole = word.1.split('.').next().unwrap_or_default();
    if whole.trim_start_matches('0').len() > 9 {
        return Err(Fault::at(
            word.0,
            format!(
                "a number of a distribution is at most {}, and here {}",
                shape::LONGEST,
                word.1
            ),
            "count in larger ticks, or write it so much smaller and `, times 1000` behind it",
        ));
    }
    shape::decimal(word.1).ok_or_else(|| no_number(word))
}

/// A parameter of a distribution by name.
fn parameter(word: Word) -> Result<shape::Number, Fault> {
    Ok(shape::number(scaled(word)?))
}

fn probability(word: Word) -> Result<i128, Fault> {
    scaled(word)
}

fn ticks(word: Word) -> Result<i128, Fault> {
    let value = scaled(word)?;
    if value % shape::EIGHTEEN != 0 {
        return Err(Fault::at(
            word.0,
            format!("`{}` is no whole number", word.1),
            WHOLE,
        ));
    }
    Ok(value / shape::EIGHTEEN)
}

/// Two numbers with a colon between them.
fn pair<'a>((at, word): Word<'a>, remedy: &str) -> Result<(Word<'a>, Word<'a>), Fault> {
    let Some((first, second)) = word.split_once(':') else {
        return Err(Fault::at(at, format!("`{word}` has no `:`"), remedy));
    };
    let behind = Position {
        column: at.column + first.chars().count() as u32 + 1,
        ..at
    };
    Ok(((at, first), (behind, second)))
}
