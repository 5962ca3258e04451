//! What ASSEMBLE comes to in random cases (02, item 8).

use crate::blocks::Done;
use crate::machine::{Machine, Transaction};
use crate::model::{Block, Model};
use std::collections::{BTreeMap, BTreeSet};

/// Ways through ASSEMBLE that short runs meet.
pub const WAYS: [&str; 17] = [
    "first waits, holding a facility",
    "first waits beside another family",
    "first waits, its family at two blocks",
    "first waits, one of 1,024 living",
    "first again where it gathered before",
    "later one, not the n-th",
    "later one of 1,024 living",
    "n-th of 2",
    "n-th of more",
    "n-th a second time",
    "n-th, a copy of a copy",
    "n-th, older than the first",
    "n-th, others gather before its first",
    "first goes on behind others of REL",
    "first goes on before others of REL",
    "28 at the n-th",
    "28 before the n-th",
];

/// What only long runs meet.
pub const LONG: &str = "n-th of 255";

/// A turn at an ASSEMBLE: what it met, by what it comes to.
#[derive(Default)]
struct Turn {
    waits: Vec<&'static str>,
    enters: Vec<&'static str>,
    stops: Vec<&'static str>,
    /// Block and family whose gathering this turn completes.
    whole: Option<(u32, u64)>,
    /// Block and number of one who waits as the first.
    first: Option<(u32, u64)>,
}

/// How often each was met.
#[derive(Default)]
pub struct Families {
    counts: BTreeMap<&'static str, u64>,
    turn: Option<Turn>,
    /// Made by a SPLIT that is entered in this turn, and their generation.
    split: Option<(u64, u64, u32)>,
    generations: BTreeMap<u64, u32>,
    whole: BTreeSet<(u32, u64)>,
    firsts: BTreeSet<(u32, u64)>,
}

impl Families {
    pub fn met(&self, cell: &str) -> u64 {
        *self.counts.get(cell).unwrap_or(&0)
    }

    pub fn start(&mut self) {
        let counts = std::mem::take(&mut self.counts);
        *self = Families {
            counts,
            ..Families::default()
        };
    }

    fn generation(&self, number: u64) -> u32 {
        *self.generations.get(&number).unwrap_or(&0)
    }

    pub fn before_block(&mut self, machine: &Machine, taken: &Transaction) {
        self.turn = None;
        self.split = None;
        match *machine.model.block(taken.next_block) {
            Block::Split { copies, .. } => {
                let next = self.generation(taken.number) + 1;
                self.split = Some((machine.made + 1, u64::from(copies), next));
            }
            Block::Assemble { count } => self.turn = Some(self.at_assemble(machine, taken, count)),
            _ => {}
        }
    }

    fn at_assemble(&self, machine: &Machine, taken: &Transaction, count: u32) -> Turn {
        let block = taken.next_block;
        let full = machine.living() == Model::MAX_LIVING;
        let list = machine.gatherers.get(&block).map_or(&[][..], |list| list);
        let same = |family: u64| family == taken.family;
        let Some(place) = list.iter().position(|one| same(one.transaction.family)) else {
            let mut others = machine.gatherers.values().flatten();
            return Turn {
                waits: chosen(&[
                    (machine.holds_some(taken), WAYS[0]),
                    (!list.is_empty(), WAYS[1]),
                    (others.any(|one| same(one.transaction.family)), WAYS[2]),
                    (full, WAYS[3]),
                    (self.firsts.contains(&(block, taken.number)), WAYS[4]),
                ]),
                first: Some((block, taken.number)),
                ..Turn::default()
            };
        };
        let first = &list[place].transaction;
        let last = list[place].come + 1 == count;
        let ahead = |other: &Transaction| other.priority >= first.priority;
        Turn {
            enters: chosen(&[
                (!last, WAYS[5]),
                (full, WAYS[6]),
                (last && count == Model::MIN_ASSEMBLED, WAYS[7]),
                (last && count > Model::MIN_ASSEMBLED, WAYS[8]),
                (last && count == Model::MAX_ASSEMBLED, LONG),
                (last && self.whole.contains(&(block, taken.family)), WAYS[9]),
                (last && self.generation(taken.number) > 1, WAYS[10]),
                (last && taken.number < first.number, WAYS[11]),
                (last && place > 0, WAYS[12]),
                (last && machine.rel.iter().any(ahead), WAYS[13]),
                (last && !machine.rel.iter().all(ahead), WAYS[14]),
            ]),
            stops: chosen(&[(last, WAYS[15]), (!last, WAYS[16])]),
            whole: last.then_some((block, taken.family)),
            ..Turn::default()
        }
    }

    pub fn after_turn(&mut self, done: Done) {
        if let (Done::Entered, Some((from, copies, generation))) = (done, self.split.take()) {
            for number in from..from + copies {
                self.generations.insert(number, generation);
            }
        }
        let Some(turn) = self.turn.take() else {
            return;
        };
        let met = match done {
            Done::Entered => {
                self.whole.extend(turn.whole);
                turn.enters
            }
            Done::BeganToWait => {
                self.firsts.extend(turn.first);
                turn.waits
            }
            _ => turn.stops,
        };
        for cell in met {
            *self.counts.entry(cell).or_insert(0) += 1;
        }
    }
}

fn chosen(cells: &[(bool, &'static str)]) -> Vec<&'static str> {
    let met = cells.iter().filter(|(met, _)| *met);
    met.map(|(_, cell)| *cell).collect()
}

impl std::fmt::Display for Families {
    fn fmt(&self, f: &mut std::fmt::Formatter) -> std::fmt::Result {
        for cell in WAYS.into_iter().chain([LONG]) {
            writeln!(f, "{cell:<38}{}", self.met(cell))?;
        }
        Ok(())
    }
}
