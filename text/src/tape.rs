//! Tapes: a line for each list, its name, a colon and its times; `20*5` stands for twenty times of 5.

use std::fmt::Write;

use crate::names::Named;
use crate::scan::{self, Token, Word};
use crate::{number, words, Fault, Position};

/// The most times of a list.
pub const MOST_TIMES: usize = 65_535;

/// A list of a tape: its name, where it stands, its times and where each stands.
#[derive(Clone, Debug, PartialEq, Eq)]
pub struct List {
    pub name: String,
    pub at: Position,
    pub times: Vec<u64>,
    pub places: Vec<Position>,
}

/// A tape's text as it was read. Of a list that is too long no more is kept than shows that it is.
#[derive(Debug, Default)]
pub struct Tape {
    pub lists: Vec<List>,
    pub faults: Vec<Fault>,
    /// The last line of the text.
    pub last: Position,
}

impl Tape {
    /// The bytes of the lists in the order of the text.
    pub fn bytes(&self) -> Vec<u8> {
        let mut out = Vec::new();
        for list in &self.lists {
            number::write(list.times.len() as u64, &mut out);
            for &time in &list.times {
                number::write(time, &mut out);
            }
        }
        out
    }

    /// Where each number of these bytes comes from.
    pub fn numbers(&self) -> Vec<Position> {
        let lists = self.lists.iter();
        lists
            .flat_map(|list| std::iter::once(count_place(list)).chain(list.places.iter().copied()))
            .collect()
    }
}

/// What shows a list's count: its first time too many, else its name.
fn count_place(list: &List) -> Position {
    list.places.get(MOST_TIMES).copied().unwrap_or(list.at)
}

/// Reads a tape's text. A line that begins with no name goes on with the list before it.
pub fn read(text: &str) -> Tape {
    let mut tape = Tape::default();
    for (i, source) in text.lines().enumerate() {
        let done = scan::line(source, i + 1).and_then(|tokens| line(&tokens, &mut tape.lists));
        if let Err(fault) = done {
            tape.faults.push(fault);
        }
    }
    tape.last = Position::at(text.lines().count().max(1), 1);
    tape
}

fn line(tokens: &[Token], lists: &mut Vec<List>) -> Result<(), Fault> {
    let mut at = 0;
    if let Some(Token {
        at: place,
        word: Word::Name(name),
        ..
    }) = tokens.first()
    {
        lists.push(List {
            name: name.clone(),
            at: *place,
            times: Vec::new(),
            places: Vec::new(),
        });
        if !matches!(tokens.get(1).map(|t| &t.word), Some(Word::Sign(":"))) {
            return Err(Fault::at(
                *place,
                "`:` is expected behind the name of a list",
                format!("write `{name}: times`"),
            ));
        }
        at = 2;
    }
    while let Some(token) = tokens.get(at) {
        let Some(list) = lists.last_mut() else {
            return Err(Fault::at(
                token.at,
                "a time stands behind the name of its list",
                "write `name: times`, a line for each list of the model",
            ));
        };
        let (count, time, used) = times(tokens, at)?;
        let room = (MOST_TIMES + 1).saturating_sub(list.times.len());
        let count = usize::try_from(count).unwrap_or(room).min(room);
        list.times.extend(std::iter::repeat_n(time, count));
        let place = tokens[at + used - 1].at;
        list.places.extend(std::iter::repeat_n(place, count));
        at += used;
    }
    Ok(())
}

/// At a word of a list: how often its time stands there, the time, and how many words that took.
fn times(tokens: &[Token], at: usize) -> Result<(u64, u64, usize), Fault> {
    let word = |k: usize| tokens.get(at + k).map(|t| &t.word);
    match (word(0), word(1), word(2)) {
        (Some(Word::Number(n)), Some(Word::Sign("*")), Some(Word::Number(time))) => {
            Ok((*n, *time, 3))
        }
        (Some(Word::Number(_)), Some(Word::Sign("*")), _) => Err(Fault::at(
            tokens[at + 1].at,
            "behind `*` stands a time",
            "20*5 stands for twenty times of 5",
        )),
        (Some(Word::Number(n)), _, _) => Ok((1, *n, 1)),
        (Some(Word::Sign(",")), _, _) => Err(Fault::at(
            tokens[at].at,
            "times stand without commas between them",
            "take the commas away",
        )),
        (Some(Word::Sign("-")), _, _) => Err(Fault::at(
            tokens[at].at,
            "a time is not below 0",
            "times are whole numbers of ticks, 0 or more",
        )),
        _ => Err(Fault::at(
            tokens[at].at,
            "a time is a number",
            "write whole numbers of ticks; a list begins on a line of its own",
        )),
    }
}

/// How the lists of a tape differ from those of a model.
#[derive(Clone, Debug, PartialEq, Eq)]
pub enum Mismatch {
    /// The model has no such list.
    Extra(Fault),
    Twice(Fault),
    Missing(Fault),
    Order(Fault),
}

impl Mismatch {
    pub fn fault(&self) -> &Fault {
        match self {
            Mismatch::Extra(f) | Mismatch::Twice(f) | Mismatch::Missing(f) | Mismatch::Order(f) => {
                f
            }
        }
    }
}

/// Holds the names of a tape's lists to those of the model: each once, in the model's order.
pub fn against(tape: &Tape, lists: &[Named]) -> Vec<Mismatch> {
    let given: Vec<(&str, Position)> = tape.lists.iter().map(|l| (&l.name[..], l.at)).collect();
    let add = |name: &str| format!("`{name}: times` (`{name}:` alone is an empty list)");
    names_against(&given, tape.last, lists, add)
}

/// The same for names, where they stand and where the text ends; `add` is the line of a list that is missing.
pub fn names_against(
    given: &[(&str, Position)],
    last: Position,
    lists: &[Named],
    add: impl Fn(&str) -> String,
) -> Vec<Mismatch> {
    let same = |a: &str, b: &str| a.eq_ignore_ascii_case(b);
    let names = || lists.iter().map(|named| named.name.as_str());
    let wanted = names().collect::<Vec<_>>().join(", ");
    let mut found = Vec::new();
    let mut known = Vec::new();
    for (i, &(name, at)) in given.iter().enumerate() {
        if given[..i].iter().any(|(before, _)| same(before, name)) {
            found.push(Mismatch::Twice(Fault::at(
                at,
                format!("the list `{name}` stands twice on the tape"),
                "a list goes on in a line without a name; take the second name away or give it its own",
            )));
        } else if !names().any(|n| same(n, name)) {
            let near = words::nearest(name, names());
            let remedy = match near {
                Some(meant) => format!("did you mean `{meant}`?"),
                None if lists.is_empty() => "take the line away: the model has no LIST".to_string(),
                None => {
                    format!("take the line away, or declare LIST {name}; the model has {wanted}")
                }
            };
            let what = format!("the model has no list `{name}`");
            found.push(Mismatch::Extra(Fault::at(at, what, remedy)));
        } else {
            known.push((name, at));
        }
    }
    let mut missing = false;
    for named in lists {
        let name = &named.name;
        if !known.iter().any(|(one, _)| same(one, name)) {
            missing = true;
            let what = format!("the list `{name}` is missing on the tape");
            let remedy = format!(
                "add a line {}; the model has {wanted}, in this order",
                add(name)
            );
            found.push(Mismatch::Missing(Fault::at(last, what, remedy)));
        }
    }
    let mut pairs = known.into_iter().zip(names());
    let out_of_order = pairs.find(|((one, _), name)| !same(one, name));
    if let (false, Some(((one, at), name))) = (missing, out_of_order) {
        let what = format!("the list `{one}` stands where the model has `{name}`");
        let remedy = format!("write the lists in the model's order: {wanted}");
        found.push(Mismatch::Order(Fault::at(at, what, remedy)));
    }
    found.sort_by_key(|mismatch| mismatch.fault().at);
    found
}

/// The bytes of a tape's text, which stands on its own.
pub fn bytes(text: &str) -> Result<Vec<u8>, Vec<Fault>> {
    let mut tape = read(text);
    for list in &tape.lists {
        if list.times.len() > MOST_TIMES {
            tape.faults.push(Fault::at(
                list.places[MOST_TIMES],
                format!("a list has at most {MOST_TIMES} times"),
                "leave out what follows, or share it among several lists",
            ));
        }
    }
    if tape.faults.is_empty() {
        Ok(tape.bytes())
    } else {
        Err(tape.faults)
    }
}

/// A text for a tape's bytes; it gives the same bytes again.
pub fn text(bytes: &[u8]) -> Result<String, String> {
    text_with(bytes, &[])
}

/// The same with names for its lists; those behind the last name are called by their numbers.
pub fn text_with(bytes: &[u8], names: &[String]) -> Result<String, String> {
    let numbers = number::read_all(bytes)?;
    let mut out = String::new();
    let mut at = 0;
    let mut list = 1;
    while at < numbers.len() {
        let count = numbers[at] as usize;
        at += 1;
        let times = at
            .checked_add(count)
            .and_then(|end| numbers.get(at..end))
            .ok_or_else(|| format!("list {list} ends early"))?;
        at += count;
        let _ = match names.get(list - 1) {
            Some(name) => write!(out, "{name}:"),
            None => write!(out, "l{list}:"),
        };
        for time in times {
            let _ = write!(out, " {time}");
        }
        out.push('\n');
        list += 1;
    }
    Ok(out)
}
