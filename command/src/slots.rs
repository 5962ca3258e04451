//! Draws of studies: list j (from 0) of run r (from 1) has slot (r - 1) × lists + j. A slot is a stream; where no list has more than
//! 10,000 times, ten slots share one, 10,000 draws each. No two slots share a draw.

use crate::drawing;
use crate::failure::{Done, Failure};
use crate::shown;
use engine::{Distribution, List, STREAMS};
use modeltext::distribution::{Drawn, APART};
use std::fmt;
use std::path::Path;

/// The draws of a slot where slots share streams.
const SHARE: u64 = 10_000;

/// The most times of a list that the tape maker takes.
const MOST_TIMES: u64 = crate::limits::DRAWN_TIMES;

/// Where a list's draws begin: a stream, and how many of its draws come before.
#[derive(Clone, Copy, Debug, PartialEq, Eq)]
pub struct Slot {
    pub stream: u32,
    pub before: u64,
}

impl fmt::Display for Slot {
    fn fmt(&self, to: &mut fmt::Formatter) -> fmt::Result {
        match self.before {
            0 => write!(to, "{}", self.stream),
            before => write!(to, "{} + {before}", self.stream),
        }
    }
}

/// How slots are given out: how many lists a run has, and how many slots share a stream.
#[derive(Clone, Copy, Debug, PartialEq, Eq)]
pub struct Slots {
    lists: u64,
    shared: u64,
}

impl Slots {
    pub fn of(lists: &[Drawn]) -> Slots {
        let few = lists.iter().all(|list| u64::from(list.count) <= SHARE);
        Slots {
            lists: lists.len() as u64,
            shared: if few { APART / SHARE } else { 1 },
        }
    }

    /// How many runs have slots.
    pub fn runs(&self) -> u64 {
        u64::from(STREAMS) * self.shared / self.lists.max(1)
    }

    /// A refusal where this run has none.
    pub fn refuse(&self, path: &Path, run: u64) -> Done<()> {
        let (most, lists) = (self.runs(), self.lists);
        if run <= most {
            return Ok(());
        }
        let shared = Slots {
            shared: APART / SHARE,
            ..*self
        };
        let more = match self.shared {
            1 => format!(
                "; with at most {SHARE} times in each list there are {}",
                shared.runs()
            ),
            _ => String::new(),
        };
        Err(Failure::new(format!(
            "{}: there is no run {run}: with {lists} lists the streams are used up behind run {most}\n    \
             ask for runs up to {most}{more}",
            shown::path(path)
        )))
    }

    /// The slots of a run, from 1.
    pub fn of_run(&self, run: u64) -> Vec<Slot> {
        let first = (run - 1) * self.lists;
        let slot = |slot: u64| Slot {
            stream: (slot / self.shared) as u32,
            before: slot % self.shared * SHARE,
        };
        (first..first + self.lists).map(slot).collect()
    }
}

/// The times of each list, drawn from its slot behind times that are thrown away.
pub fn draw(path: &Path, lists: &[Drawn], slots: &[Slot]) -> Done<Vec<Vec<u64>>> {
    let all: Vec<&Drawn> = lists.iter().collect();
    if lists.len() as u64 > crate::limits::LISTS {
        return Err(drawing::refused(
            path,
            engine::Refusal::NotDistribution,
            &all,
        ));
    }
    let mut times = Vec::new();
    for (list, slot) in lists.iter().zip(slots) {
        let mut given = Vec::new();
        let mut before = slot.before;
        while before > 0 {
            let count = before.min(MOST_TIMES);
            given.push(List {
                distribution: Distribution::Spread {
                    mean: 0.0,
                    half: 0.0,
                },
                count: count as u32,
            });
            before -= count;
        }
        given.push(drawing::list(list));
        let tape = engine::make_tape(slot.stream, &given);
        let tape = tape.map_err(|refusal| drawing::refused(path, refusal, &all))?;
        let drawn = drawing::times_of(&tape)?.pop().unwrap_or_default();
        times.push(drawn.iter().map(|time| time * list.factor).collect());
    }
    Ok(times)
}
