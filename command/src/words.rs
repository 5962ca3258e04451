//! What the engine's numbers mean to a person. A new end or place is a line here (kinds and status codes: `modeltext::words`).

use modeltext::words::{ADVANCE, ASSEMBLE, GENERATE, RELEASE, RETURN, SPLIT, TERMINATE};

/// An end that a question inside a turn gives: the kinds of block that it comes from, each with the reason in words.
pub struct Stop {
    pub end: u64,
    pub from: &'static [(u32, &'static str)],
    pub remedy: &'static str,
}

const fn stop(end: u64, from: &'static [(u32, &'static str)], remedy: &'static str) -> Stop {
    Stop { end, from, remedy }
}

const LEAVE: u32 = 7;
const DEPART: u32 = 16;

const NO_PLACE: &str = "no living place is free for a new transaction";
const CLOCK: &str = "the move time would pass the limit of the clock";
const CLOCK_AGAIN: &str =
    "the move time of the one that gets it back would pass the limit of the clock";
const HOLDS: &str = "it still holds a facility";
const NOT_IN_USE: &str = "not in use";
const ANOTHER: &str = "another holds it";

pub const STOPS: &[Stop] = &[
    stop(
        21,
        &[(GENERATE, NO_PLACE), (SPLIT, NO_PLACE)],
        "1024 live at most: let transactions end sooner, or let fewer come",
    ),
    stop(
        22,
        &[
            (GENERATE, CLOCK),
            (ADVANCE, CLOCK),
            (RETURN, CLOCK_AGAIN),
        ],
        "count in larger ticks, or end the run earlier with the counter",
    ),
    stop(
        23,
        &[(ADVANCE, "its list has no time left")],
        "add times to that list of the tape, or end the run earlier with the counter",
    ),
    stop(
        24,
        &[
            (RELEASE, NOT_IN_USE),
            (RETURN, NOT_IN_USE),
            (LEAVE, "fewer units in use than it frees"),
        ],
        "let every way to this block pass a SEIZE, PREEMPT or ENTER of the same server",
    ),
    stop(
        25,
        &[(DEPART, "the queue has no content")],
        "let every way to this block pass an ARRIVE of the same queue",
    ),
    stop(
        27,
        &[(RELEASE, ANOTHER), (RETURN, ANOTHER)],
        "only the one that seized it releases it, and the one that preempted it returns it; a copy holds nothing of its original",
    ),
    stop(
        28,
        &[(TERMINATE, HOLDS), (ASSEMBLE, HOLDS)],
        "let every way to this block release what was seized, and return what was preempted",
    ),
];

/// Where a living transaction stands.
pub const PLACES: &[(u64, &str)] = &[
    (1, "waits for a server (QL)"),
    (2, "waits on a status (WEL)"),
    (3, "waits on a comparison (WSL)"),
    (4, "moves later (FEL)"),
    (5, "ready (REL)"),
    (6, "moving"),
    (7, "waits for its family (ASSEMBLE)"),
    (8, "interrupted (PREEMPT)"),
];

/// Why a holder may not give back with a block of this kind what it holds: end 27.
pub fn other_way(kind: u32) -> &'static str {
    match kind {
        RETURN => "it holds it by SEIZE",
        _ => "it holds it by PREEMPT",
    }
}

pub fn stop_of(end: u64) -> Option<&'static Stop> {
    STOPS.iter().find(|stop| stop.end == end)
}

impl Stop {
    /// Why a block of this kind ends the run so, if it can.
    pub fn why(&self, kind: u32) -> Option<&'static str> {
        let mut from = self.from.iter();
        from.find(|(k, _)| *k == kind).map(|(_, why)| *why)
    }
}

pub fn place_of(place: engine::Place) -> &'static str {
    match PLACES.iter().find(|(number, _)| *number == place.number()) {
        Some((_, words)) => words,
        None => place.words(),
    }
}

pub fn outcome_of(outcome: u64) -> &'static str {
    match outcome {
        0 => "entered",
        _ => "began to wait",
    }
}

/// An outcome, and how long a wait took that began at this clock.
pub fn outcome_after(record: &engine::Record, began: Option<u64>) -> String {
    let words = outcome_of(record.outcome);
    match began {
        None => words.to_string(),
        Some(began) => format!("{words} after {}", ticks(record.clock - began)),
    }
}

pub fn ticks(count: u64) -> String {
    match count {
        1 => "1 tick".to_string(),
        _ => format!("{count} ticks"),
    }
}
