//! What joined waits come to in random cases (02, item 7).

use crate::blocks::Done;
use crate::decode::well_shaped;
use crate::machine::{Machine, Transaction};
use crate::model::{Block, Model};
use std::collections::{BTreeMap, BTreeSet};

/// What a joined wait can come to, for each size of its group.
const DONE: [Done; 3] = [Done::Entered, Done::BeganToWait, Done::WentBack];

/// Ways through groups.
const WAYS: [&str; 10] = [
    "back with somebody to wake",
    "back with nobody to wake",
    "back without a wait at the joined one",
    "back, then a wait at the first",
    "back, then past the first",
    "entered after a wait of 0 ticks",
    "returner in the middle of a group",
    "two groups on one WEL",
    "kinds 8 and 17 on one WEL",
    "target at the first of a group",
];

/// What alone can be wrong with a group.
const FAULTS: [&str; 6] = [
    "refused: too few before it",
    "refused: another kind inside",
    "refused: kind 17 inside",
    "refused: IF into it",
    "refused: GOTO into it",
    "refused: SPLIT into it",
];

fn size_cell(back: u32, done: Done) -> String {
    format!("group of {back} {done:?}")
}

/// A turn at a joined wait.
struct Turn {
    back: u32,
    somebody: bool,
    returning: bool,
}

/// How often each cell was met.
#[derive(Default)]
pub struct Groups {
    counts: BTreeMap<String, u64>,
    turn: Option<Turn>,
    went_back: bool,
}

impl Groups {
    /// All there is to meet.
    pub fn cells() -> Vec<String> {
        let sizes = (1..=Model::MAX_BACK).flat_map(|back| DONE.map(|done| size_cell(back, done)));
        let others = WAYS.into_iter().chain(FAULTS).map(str::to_string);
        sizes.chain(others).collect()
    }

    pub fn met(&self, cell: &str) -> u64 {
        *self.counts.get(cell).unwrap_or(&0)
    }

    fn add(&mut self, met: bool, cell: &str) {
        if met {
            *self.counts.entry(cell.to_string()).or_insert(0) += 1;
        }
    }

    pub fn start(&mut self) {
        self.turn = None;
        self.went_back = false;
    }

    pub fn before_block(&mut self, machine: &Machine, taken: &Transaction) {
        let model = &machine.model;
        let number = taken.next_block;
        self.turn = None;
        match *model.block(number) {
            Block::WaitIfStatus { .. } if taken.returning => {
                self.add(inside_group(model, number), WAYS[6]);
            }
            Block::WaitJoined { code, server, back } => {
                let wel = &machine.status_server(code, server).wel[code as usize - 1];
                let other = |waiter: &Transaction| {
                    waiter.next_block != number && model.group(waiter.next_block).is_some()
                };
                let plain = |waiter: &Transaction| model.group(waiter.next_block).is_none();
                self.add(wel.iter().any(other), WAYS[7]);
                self.add(wel.iter().any(plain), WAYS[8]);
                self.turn = Some(Turn {
                    back,
                    somebody: !wel.is_empty(),
                    returning: taken.returning,
                });
            }
            _ => {}
        }
    }

    pub fn after_turn(&mut self, done: Done) {
        if self.went_back {
            self.add(done == Done::BeganToWait, WAYS[3]);
            self.add(done == Done::Entered, WAYS[4]);
        }
        self.went_back = done == Done::WentBack;
        let Some(turn) = self.turn.take() else {
            return;
        };
        self.add(true, &size_cell(turn.back, done));
        self.add(self.went_back && turn.somebody, WAYS[0]);
        self.add(self.went_back && !turn.somebody, WAYS[1]);
        self.add(self.went_back && !turn.returning, WAYS[2]);
        // It went into the group at this clock, or it would have gone back.
        self.add(done == Done::Entered && turn.returning, WAYS[5]);
    }

    /// An accepted model.
    pub fn accepted(&mut self, model: &Model) {
        let targets: BTreeSet<u32> = model.blocks.iter().filter_map(Block::target).collect();
        let at_first = targets.iter().any(|target| model.begins_group(*target));
        self.add(at_first, WAYS[9]);
    }

    /// A model that question 7 refused: counts if one thing alone is wrong with it.
    pub fn refused(&mut self, model: &Model) {
        let faults = faults(model);
        let mut without = model.clone();
        for block in &mut without.blocks {
            if let Block::WaitJoined { code, server, .. } = *block {
                *block = Block::WaitIfStatus { code, server };
            }
        }
        if faults.len() == 1 && well_shaped(&without) {
            faults.iter().for_each(|fault| self.add(true, fault));
        }
    }
}

/// Is this block in a group, but not its first?
fn inside_group(model: &Model, number: u32) -> bool {
    let last = model.blocks.len() as u32;
    (number + 1..=last.min(number + Model::MAX_BACK))
        .filter_map(|joined| model.group(joined))
        .any(|group| group.start < number && group.contains(&number))
}

/// What is wrong with the groups of a model.
fn faults(model: &Model) -> BTreeSet<&'static str> {
    let mut faults = BTreeSet::new();
    for (index, block) in model.blocks.iter().enumerate() {
        let number = index as u32 + 1;
        if !matches!(block, Block::WaitJoined { .. }) {
            continue;
        }
        let Some(group) = model.group(number) else {
            faults.insert(FAULTS[0]);
            continue;
        };
        for inside in group.clone() {
            match model.block(inside) {
                Block::WaitIfStatus { .. } => {}
                Block::WaitJoined { .. } => {
                    faults.insert(FAULTS[2]);
                }
                _ => {
                    faults.insert(FAULTS[1]);
                }
            }
        }
        for other in &model.blocks {
            let fault = match other {
                Block::If { .. } => FAULTS[3],
                Block::Goto { .. } => FAULTS[4],
                _ => FAULTS[5],
            };
            if other
                .target()
                .is_some_and(|t| group.start < t && t <= number)
            {
                faults.insert(fault);
            }
        }
    }
    faults
}

impl std::fmt::Display for Groups {
    fn fmt(&self, f: &mut std::fmt::Formatter) -> std::fmt::Result {
        for done in DONE {
            let sizes: Vec<u64> = (1..=Model::MAX_BACK)
                .map(|back| self.met(&size_cell(back, done)))
                .collect();
            writeln!(f, "groups of 1..7 {done:?} {sizes:?}")?;
        }
        for cell in WAYS.into_iter().chain(FAULTS) {
            writeln!(f, "{cell:<38}{}", self.met(cell))?;
        }
        Ok(())
    }
}
