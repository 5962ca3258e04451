//! Tapes drawn from distributions: the stream of each list, its times, and what is to be said of them.

use crate::explain;
use crate::failure::{Done, Failure};
use crate::limits;
use crate::shown;
use engine::Refusal;
use modeltext::distribution::{self, Drawn, Form, APART, LAST_STREAM};
use modeltext::{number, Fault};
use std::path::Path;

/// The lists of a text, and the files that it names beside it.
pub fn read(path: &Path, text: &str) -> Result<Vec<Drawn>, Failure> {
    let beside = |name: &str| {
        let file = path.with_file_name(name);
        let text = crate::files::read_text(&file).map_err(|failure| failure.message)?;
        Ok(text)
    };
    let told = |faults: Vec<Fault>| Failure::new(told(path, &faults).join("\n"));
    distribution::read(text, &beside).map_err(told)
}

/// Faults with the file that they stand in.
pub fn told(path: &Path, faults: &[Fault]) -> Vec<String> {
    let file = |fault: &Fault| match &fault.file {
        Some(name) => path.with_file_name(name),
        None => path.to_path_buf(),
    };
    faults
        .iter()
        .map(|fault| format!("{}:{fault}", shown::path(&file(fault))))
        .collect()
}

/// A list as the engine takes it.
pub fn list(given: &Drawn) -> engine::List {
    engine::List {
        distribution: given.form.clone().into(),
        count: given.count,
    }
}

/// How far tapes of one text lie apart in streams: one more than the largest that a list names.
fn step(lists: &[Drawn]) -> u64 {
    let named = lists.iter().filter_map(|list| list.stream).max();
    1 + u64::from(named.unwrap_or(0))
}

/// The stream of each list in tape N of a text: its own, or the tape's, moved on by N steps.
pub fn streams(path: &Path, lists: &[Drawn], tape: u64) -> Done<Vec<u32>> {
    let last = u64::from(LAST_STREAM);
    let step = step(lists);
    let from = tape.saturating_mul(step);
    let of = |list: &Drawn| from.saturating_add(u64::from(list.stream.unwrap_or(0)));
    let Some(above) = lists.iter().find(|list| of(list) > last) else {
        return Ok(lists.iter().map(|list| of(list) as u32).collect());
    };
    if step == 1 {
        return Err(refused(path, Refusal::NoStream, &[]));
    }
    let own = above.stream.unwrap_or(0);
    let fault = Fault::at(
        above.stream.map_or(above.at, |_| above.stream_at),
        format!("stream {own} of `{}` is stream {own} + {tape} x {step} of tape {tape}, and the last stream is {last}; refused 41", above.name),
        format!("--stream goes from 0 to {} here", (last + 1 - step) / step),
    );
    Err(Failure::new(told(path, &[fault]).join("\n")))
}

/// A refusal of the tape maker, told at each number that is outside the rules.
pub fn refused(path: &Path, refusal: Refusal, lists: &[&Drawn]) -> Failure {
    let number = refusal.number();
    let faults: Vec<Fault> = match refusal {
        Refusal::NotDistribution => {
            let wrong = lists.iter().filter_map(|list| explain::distribution(list));
            wrong.collect()
        }
        _ => Vec::new(),
    };
    let mut lines = told(path, &faults);
    match lines.first_mut() {
        Some(first) => *first = first.replacen('\n', &format!("; refused {number}\n"), 1),
        None => lines.push(format!(
            "{}: refused {number}: {refusal}",
            shown::path(path)
        )),
    }
    Failure::new(lines.join("\n"))
}

/// The times of each list. Lists without a stream of their own draw one after the other from the tape's, each other with a call of its own.
pub fn draw(path: &Path, lists: &[Drawn], streams: &[u32]) -> Done<Vec<Vec<u64>>> {
    let all: Vec<&Drawn> = lists.iter().collect();
    if lists.len() as u64 > limits::LISTS {
        return Err(refused(path, Refusal::NotDistribution, &all));
    }
    let mut times = vec![Vec::new(); lists.len()];
    let together: Vec<usize> = (0..lists.len())
        .filter(|i| lists[*i].stream.is_none())
        .collect();
    let alone = (0..lists.len()).filter(|i| lists[*i].stream.is_some());
    for group in std::iter::once(together).chain(alone.map(|i| vec![i])) {
        let Some(&first) = group.first() else {
            continue;
        };
        let given: Vec<engine::List> = group.iter().map(|i| list(&lists[*i])).collect();
        let tape = engine::make_tape(streams[first], &given);
        let tape = tape.map_err(|refusal| refused(path, refusal, &all))?;
        for (i, drawn) in group.into_iter().zip(times_of(&tape)?) {
            times[i] = drawn.iter().map(|time| time * lists[i].factor).collect();
        }
    }
    Ok(times)
}

/// The lists of a tape that the engine wrote.
pub fn times_of(tape: &[u8]) -> Done<Vec<Vec<u64>>> {
    let numbers = number::read_all(tape).map_err(Failure::new)?;
    let mut lists = Vec::new();
    let mut rest = &numbers[..];
    while let Some((count, behind)) = rest.split_first() {
        let (times, after) = behind.split_at(*count as usize);
        lists.push(times.to_vec());
        rest = after;
    }
    Ok(lists)
}

/// The bytes of a tape with these lists.
pub fn bytes(lists: &[Vec<u64>]) -> Vec<u8> {
    let mut out = Vec::new();
    for times in lists {
        number::write(times.len() as u64, &mut out);
        for time in times {
            number::write(*time, &mut out);
        }
    }
    out
}

/// What could mislead, though nothing is wrong: u that were rounded, a stream that runs into the next, the first draw of stream 0.
pub fn notes(lists: &[Drawn], streams: &[u32], times: &[Vec<u64>]) -> Vec<String> {
    let mut notes: Vec<String> = lists.iter().flat_map(|list| list.notes.clone()).collect();
    let draws = |list: &Drawn| !matches!(list.form, Form::Fixed(_)) && list.count > 0;
    let together = || (0..lists.len()).filter(|i| lists[*i].stream.is_none() && draws(&lists[*i]));
    let Some(first) = together().next() else {
        return notes;
    };
    let stream = streams[first];
    let drawn: u64 = together().map(|i| u64::from(lists[i].count)).sum();
    let last = u64::from(stream) + (drawn.max(1) - 1) / APART;
    let into: Vec<u64> = (u64::from(stream) + 1..=last.min(u64::from(LAST_STREAM))).collect();
    if let (Some(from), Some(to)) = (into.first(), into.last()) {
        let which = match from == to {
            true => format!("stream {from}"),
            false => format!("streams {from} to {to}"),
        };
        let taken = lists
            .iter()
            .zip(streams)
            .filter(|(list, s)| list.stream.is_some() && into.contains(&u64::from(**s)));
        let names: Vec<String> = taken
            .map(|(list, s)| format!("; `{}` draws the same numbers from stream {s}", list.name))
            .collect();
        notes.push(format!(
            "stream {stream} draws {drawn} numbers, and streams begin {APART} apart: what follows is {which} once more{}; give lists streams of their own (`, stream 1`)",
            names.concat()
        ));
    }
    if stream == 0 {
        notes.push(format!(
            "the first draw of stream 0 is u = 0: `{}` begins with {}; other streams (--stream 1) begin anywhere",
            lists[first].name,
            times[first].first().copied().unwrap_or(0)
        ));
    }
    notes
}
