//! The end of a run in words, with the transaction and the block that it came from.

use crate::execute::Lent;
use crate::limits::TURNS;
use crate::study::Study;
use crate::walk::{facility, Walk};
use crate::words;
use engine::{Place, Run};
use modeltext::words::{RELEASE, RETURN};

/// The end in a line, and a remedy in another where one is needed.
pub fn told(study: &Study, run: &Run, walk: &Walk, lent: Lent) -> Vec<String> {
    let clock = run.outcome.clock;
    let living = run.report.living.len();
    let end = run.end.number();
    if let Some(stop) = words::stop_of(end) {
        return vec![
            stopped(study, run, walk, stop),
            format!("    {}", stop.remedy),
        ];
    }
    let line = match end {
        1 if living == 0 => format!("dry at clock {clock}: all transactions have ended"),
        1 => format!(
            "dry at clock {clock}: {} still living, and nothing will move {}",
            transactions(living),
            if living == 1 { "it" } else { "them" }
        ),
        2 => {
            let last = walk.last.as_ref();
            let who = last.map_or(String::new(), |record| {
                let (number, block) = (record.transaction, record.block);
                format!(": {}", at(study, number, &[block], clock))
            });
            format!("the counter fell to 0{who}")
        }
        3 => format!(
            "budget used: {} turns are done at clock {clock}, {} living; --budget asks for more",
            lent.budget,
            transactions(living)
        ),
        4 => {
            let why = if lent.short {
                "memory allows no more; end the run earlier, or ask for more with --trace-bytes"
            } else {
                "--trace-bytes asks for more"
            };
            format!(
                "trace full: fewer than 12 of its {} bytes are left at clock {clock}, {} living; {why}",
                lent.room,
                transactions(living)
            )
        }
        26 if run.outcome.turns >= TURNS => format!(
            "{TURNS} turns are done, the most of a run, at clock {clock}, {} living",
            transactions(living)
        ),
        _ => format!("{} at clock {clock}", run.end),
    };
    let mut lines = vec![format!("{end}: {line}")];
    if end == 26 {
        lines.push(
            "    look at the entries of the blocks: does a loop of GOTO or IF pass no ADVANCE?"
                .to_string(),
        );
    }
    lines
}

fn transactions(n: usize) -> String {
    match n {
        0 => "no transaction".to_string(),
        1 => "1 transaction".to_string(),
        n => format!("{n} transactions"),
    }
}

/// A transaction at a block, or at one of two.
fn at(study: &Study, transaction: u64, blocks: &[u64], clock: u64) -> String {
    let places: Vec<String> = blocks
        .iter()
        .map(|block| format!("block {block}, {}", study.statement(*block)))
        .collect();
    let places = if places.is_empty() {
        "an unknown block".to_string()
    } else {
        places.join(", or ")
    };
    format!("transaction {transaction} at {places}, clock {clock}")
}

/// The end of the one that is moving: its block follows from its last record and the program.
fn stopped(study: &Study, run: &Run, walk: &Walk, stop: &words::Stop) -> String {
    let mut living = run.report.living.iter();
    let moving = living.find(|one| one.place == Place::Moving);
    let number = moving.map_or(0, |one| one.transaction);
    let blocks = candidates(study, walk, number, stop);
    let mut why: Vec<&str> = Vec::new();
    for block in blocks.iter().filter_map(|block| study.block(*block)) {
        let own = facility(block).is_some_and(|f| walk.holders.of.get(&f) == Some(&number));
        let words = match stop.end {
            27 if own => Some(words::other_way(block.kind)),
            _ => stop.why(block.kind),
        };
        why.extend(words.filter(|words| !why.contains(words)));
    }
    format!(
        "{}: {}: {}{}",
        stop.end,
        at(study, number, &blocks, run.outcome.clock),
        why.join(", or "),
        holding(study, walk, number, &blocks, stop)
    )
}

/// Who holds what the blocks name, or what the transaction holds, where that is the reason.
fn holding(study: &Study, walk: &Walk, number: u64, blocks: &[u64], stop: &words::Stop) -> String {
    let mut names: Vec<String> = match stop.end {
        27 => {
            let named = blocks.iter().filter_map(|b| facility(study.block(*b)?));
            let holders = named.filter_map(|f| walk.holders.of.get(&f));
            let others = holders.filter(|n| **n != number);
            others.map(|n| format!("transaction {n}")).collect()
        }
        28 => {
            let own = walk.holders.of.iter().filter(|(_, n)| **n == number);
            let names = own.map(|(f, _)| study.names.facilities.get(*f as usize - 1));
            names.flatten().cloned().collect()
        }
        _ => Vec::new(),
    };
    names.dedup();
    match names.is_empty() {
        true => String::new(),
        false => format!(" ({})", names.join(", ")),
    }
}

/// The blocks that it may have been about to enter and that can end so: by their kind, and a RELEASE or RETURN by who holds its facility.
pub fn candidates(study: &Study, walk: &Walk, number: u64, stop: &words::Stop) -> Vec<u64> {
    let life = walk.living.get(&number).copied().unwrap_or_default();
    let mut blocks = life.next(study);
    blocks.retain(|block| {
        let Some(block) = study.block(*block) else {
            return false;
        };
        let f = facility(block).unwrap_or(0);
        let in_use = walk.holders.of.contains_key(&f);
        let may = walk.holders.may_give(block.kind, f, number);
        let held = match (block.kind, stop.end) {
            (RELEASE | RETURN, 24) => !in_use,
            (RELEASE | RETURN, 27) => in_use && !may,
            (RETURN, 22) => may && walk.holders.interrupted.contains_key(&f),
            _ => true,
        };
        held && stop.why(block.kind).is_some()
    });
    blocks.sort_unstable();
    blocks
}
