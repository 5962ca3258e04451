//! What the 1996 rules come to in random cases (02, item 12): where waiters are
//! placed, whom a LEAVE wakes. Told from a list before and after the turn.

use crate::blocks::{units_wanted, Done};
use crate::machine::{List, Machine, Transaction};
use crate::model::Block;
use std::collections::BTreeMap;

/// Where a waiter is put, on a QL or a WEL.
const PLACES: [&str; 6] = [
    "returner before a higher priority",
    "returner before a lower serial",
    "returner before another returner",
    "newcomer behind a lower priority",
    "newcomer behind the last of its priority",
    "newcomer before all",
];

/// Whom a LEAVE wakes, and who stays.
const WAKINGS: [&str; 12] = [
    "LEAVE a, some stay",
    "LEAVE b(i), the first of all",
    "LEAVE b(i), past larger ones",
    "LEAVE b(i), nobody",
    "LEAVE b(ii), equal at once",
    "LEAVE b(ii), equal after some",
    "LEAVE b(ii), past larger ones",
    "LEAVE b(ii), more than all of them",
    "LEAVE b(ii), past one too large by then",
    "LEAVE b(ii), nobody",
    "LEAVE, one able to go stays",
    "clock move, one able to go waits",
];

fn place_cell(list: &str, place: &str) -> String {
    format!("{list}: {place}")
}

/// A turn at a block that may alter a list of waiters.
struct Turn {
    before: List,
    block: Block,
    who: Transaction,
}

/// How often each cell was met.
#[derive(Default)]
pub struct Second {
    counts: BTreeMap<String, u64>,
    turn: Option<Turn>,
    done: Option<Done>,
}

impl Second {
    /// All there is to meet.
    pub fn cells() -> Vec<String> {
        let on = |list: &'static str| PLACES.map(|place| place_cell(list, place));
        let wakings = WAKINGS.map(str::to_string);
        [on("QL").as_slice(), &on("WEL"), &wakings].concat()
    }

    pub fn met(&self, cell: &str) -> u64 {
        *self.counts.get(cell).unwrap_or(&0)
    }

    /// The cells that were met.
    pub fn names(self) -> impl Iterator<Item = String> {
        self.counts.into_keys()
    }

    fn add(&mut self, met: bool, cell: &str) {
        if met {
            *self.counts.entry(cell.to_string()).or_insert(0) += 1;
        }
    }

    pub fn start(&mut self) {
        self.turn = None;
    }

    pub fn before_block(&mut self, machine: &Machine, taken: &Transaction) {
        let block = machine.model.block(taken.next_block);
        let list = waiting_at(machine, block).filter(|_| machine.model.edition == 2);
        self.turn = list.map(|list| Turn {
            before: list.clone(),
            block: block.clone(),
            who: taken.clone(),
        });
    }

    pub fn after_turn(&mut self, done: Done) {
        self.done = Some(done);
    }

    /// The state that the turn left.
    pub fn before_turn(&mut self, machine: &Machine) {
        let moves = machine.moving.is_none() && machine.rel.is_empty() && !machine.fel.is_empty();
        if machine.model.edition == 2 && moves {
            let stays = |storage| able_to_go(machine, storage);
            let some = (0..machine.storages.len()).any(stays);
            self.add(some, WAKINGS[11]);
        }
        let Some(turn) = self.turn.take() else {
            return;
        };
        let after = waiting_at(machine, &turn.block).expect("as before");
        match (&turn.block, self.done) {
            (_, Some(Done::BeganToWait | Done::PutBack)) => self.placed(&turn, after),
            (&Block::Leave { storage, units }, Some(Done::Entered)) => {
                self.woken(machine, &turn, after, units);
                self.add(able_to_go(machine, storage as usize - 1), WAKINGS[10]);
            }
            _ => {}
        }
    }

    fn placed(&mut self, turn: &Turn, after: &List) {
        let who = &turn.who;
        let is_who = |waiter: &Transaction| waiter.number == who.number;
        let place = after.iter().position(is_who).expect("it waits");
        let (ahead, behind) = (&after[..place], &after[place + 1..]);
        let returned = |waiter: &Transaction| waiter.returning;
        let met = if who.returning {
            [
                behind.iter().any(|w| w.priority > who.priority),
                behind
                    .iter()
                    .any(|w| w.priority == who.priority && w.serial < who.serial),
                behind.iter().any(returned),
                false,
                false,
                false,
            ]
        } else {
            let equal = |w: &Transaction| w.priority == who.priority;
            [
                false,
                false,
                false,
                ahead.iter().any(|w| w.priority < who.priority),
                ahead.iter().any(equal) && !ahead.last().is_some_and(equal),
                ahead.is_empty() && !behind.is_empty(),
            ]
        };
        let list = match turn.block {
            Block::WaitIfStatus { .. } | Block::WaitJoined { .. } => "WEL",
            _ => "QL",
        };
        for (met, place) in met.into_iter().zip(PLACES) {
            self.add(met, &place_cell(list, place));
        }
    }

    fn woken(&mut self, machine: &Machine, turn: &Turn, after: &List, units: u32) {
        let stays = |waiter: &Transaction| after.iter().any(|w| w.number == waiter.number);
        let wanted = |waiter: &Transaction| units_wanted(&machine.model, waiter);
        let before = &turn.before;
        let gone: Vec<usize> = (0..before.len())
            .filter(|at| !stays(&before[*at]))
            .collect();
        let passed = gone.last().is_some_and(|last| last + 1 > gone.len());
        if !machine.model.moves_several_units() {
            self.add(!gone.is_empty() && !after.is_empty(), WAKINGS[0]);
        } else if units == 1 {
            self.add(gone == [0], WAKINGS[1]);
            self.add(passed, WAKINGS[2]);
            self.add(gone.is_empty() && !before.is_empty(), WAKINGS[3]);
        } else {
            let sum: u32 = gone.iter().map(|at| wanted(&before[*at])).sum();
            let stopped = gone.last().is_some_and(|last| last + 1 < before.len());
            self.add(sum == units && gone.len() == 1 && stopped, WAKINGS[4]);
            self.add(sum == units && gone.len() > 1 && stopped, WAKINGS[5]);
            self.add(passed, WAKINGS[6]);
            self.add(
                !gone.is_empty() && sum < units && after.is_empty(),
                WAKINGS[7],
            );
            let by_then = (0..gone.last().map_or(0, |last| *last))
                .any(|at| !gone.contains(&at) && wanted(&before[at]) <= units);
            self.add(by_then, WAKINGS[8]);
            self.add(gone.is_empty() && !before.is_empty(), WAKINGS[9]);
        }
    }
}

/// The list on which somebody waits at this block, or that a LEAVE looks through.
fn waiting_at<'a>(machine: &'a Machine, block: &Block) -> Option<&'a List> {
    match *block {
        Block::Seize { facility } | Block::Preempt { facility } => {
            Some(&machine.facilities[facility as usize - 1].ql)
        }
        Block::Enter { storage, .. } | Block::Leave { storage, .. } => {
            Some(&machine.storages[storage as usize - 1].ql)
        }
        Block::WaitIfStatus { code, server } | Block::WaitJoined { code, server, .. } => {
            Some(&machine.status_server(code, server).wel[code as usize - 1])
        }
        _ => None,
    }
}

/// Does somebody wait at this storage whose units fit the free ones?
fn able_to_go(machine: &Machine, storage: usize) -> bool {
    let server = &machine.storages[storage];
    let fits = |waiter: &Transaction| units_wanted(&machine.model, waiter) <= server.free();
    server.ql.iter().any(fits)
}

impl std::fmt::Display for Second {
    fn fmt(&self, f: &mut std::fmt::Formatter) -> std::fmt::Result {
        for cell in Second::cells() {
            writeln!(f, "{cell:<48}{}", self.met(&cell))?;
        }
        Ok(())
    }
}
