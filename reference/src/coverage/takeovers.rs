//! What PREEMPT and RETURN come to in random cases (02, item 11).

use crate::blocks::Done;
use crate::machine::{Event, Interrupted, Machine, Transaction};
use crate::model::Block;
use crate::report::{places, PLACE_GATHERING, PLACE_INTERRUPTED, PLACE_MOVING};
use crate::report::{PLACE_QL, PLACE_REL, PLACE_WEL, PLACE_WSL};
use crate::rules::Rules;
use std::collections::{BTreeMap, BTreeSet};

/// A PREEMPT that enters.
const ENTERS: [&str; 12] = [
    "PREEMPT of an idle one",
    "PREEMPT with 0 ticks left",
    "PREEMPT past others of the QL",
    "PREEMPT that was woken interrupts",
    "PREEMPT of one given back before",
    "PREEMPT of one who holds another",
    "PREEMPT of one who preempted another",
    "PREEMPT by one who holds another",
    "PREEMPT of one whose priority fell",
    "PREEMPT of a second one elsewhere",
    "PREEMPT of one amid the FEL",
    "PREEMPT of the FEL's only one",
];

/// A PREEMPT that waits, by what keeps the holder; then by where a lower one stands.
const WAITS: [&str; 4] = [
    "waits: holder of equal priority",
    "waits: holder of higher priority",
    "waits: the holder's priority rose",
    "waits: preempted by a lower one",
];
const STANDS: [(u64, &str); 7] = [
    (PLACE_QL, "waits: lower holder on a QL"),
    (PLACE_WEL, "waits: lower holder on a WEL"),
    (PLACE_WSL, "waits: lower holder on the WSL"),
    (PLACE_REL, "waits: lower holder on REL"),
    (PLACE_MOVING, "waits: the holder itself"),
    (PLACE_GATHERING, "waits: lower holder gathers"),
    (PLACE_INTERRUPTED, "waits: lower holder interrupted"),
];

/// A RETURN that enters.
const RETURNS: [&str; 8] = [
    "RETURN with 0 ticks left",
    "RETURN past the QL",
    "RETURN wakes one who waits for NU",
    "RETURN at the clock of the PREEMPT",
    "RETURN to the last clock",
    "RETURN with others interrupted",
    "RETURN to nobody, one waits",
    "RETURN to nobody, none waits",
];

/// Questions with "no".
const STOPS: [&str; 9] = [
    "22 RETURN",
    "27 RELEASE of a preempted one",
    "27 RELEASE of another's preempted one",
    "27 RETURN of a seized one",
    "27 RETURN of another's seized one",
    "27 RETURN of another's preempted one",
    "27 RETURN, 22 not asked",
    "28 TERMINATE with a preempted one",
    "28 ASSEMBLE with a preempted one",
];

/// How often each was met, and what the run did so far.
#[derive(Default)]
pub struct Takeovers {
    counts: BTreeMap<&'static str, u64>,
    /// What this turn meets if it enters, waits or is stopped.
    enters: Vec<&'static str>,
    waits: Vec<&'static str>,
    stops: Vec<(u32, &'static str)>,
    /// The block, who takes it, its priority, the clock.
    block: Option<(Block, u64, u32, u64)>,
    /// Facility and holder: its priority at the SEIZE.
    seized: BTreeMap<(u32, u64), u32>,
    /// The clock at which each facility was preempted.
    since: BTreeMap<u32, u64>,
    given_back: BTreeSet<(u32, u64)>,
    /// Who gets its facility back if this turn enters.
    back: Option<(u32, u64)>,
}

impl Takeovers {
    /// All there is to meet under the rules.
    pub fn cells(rules: Rules) -> Vec<&'static str> {
        let stands = STANDS.map(|(_, cell)| cell);
        let all = [&ENTERS[..], &WAITS, &stands, &RETURNS, &STOPS].concat();
        let can = |cell: &&str| {
            let gathers = cell.contains("gathers") || cell.contains("ASSEMBLE");
            let late = cell.contains("22") || cell.contains("last clock");
            (rules.assemble || !gathers)
                && (rules.holders || !cell.starts_with("28"))
                && (rules.wide_clocks || !late)
        };
        all.into_iter().filter(can).collect()
    }

    pub fn met(&self, cell: &str) -> u64 {
        *self.counts.get(cell).unwrap_or(&0)
    }

    /// The cells that were met.
    pub fn names(self) -> impl Iterator<Item = String> {
        self.counts.into_keys().map(str::to_string)
    }

    pub fn start(&mut self) {
        let counts = std::mem::take(&mut self.counts);
        *self = Takeovers {
            counts,
            ..Takeovers::default()
        };
    }

    pub fn before_block(&mut self, machine: &Machine, taken: &Transaction) {
        let block = machine.model.block(taken.next_block).clone();
        (self.enters, self.waits, self.stops) = Default::default();
        self.back = None;
        match block {
            Block::Preempt { facility } => self.at_preempt(machine, taken, facility),
            Block::Return { facility } => self.at_return(machine, taken, facility),
            Block::Release { facility } => {
                let server = &machine.facilities[facility as usize - 1];
                let own = server.holder == Some(taken.number);
                if server.preempted {
                    self.stops = vec![(27, if own { STOPS[1] } else { STOPS[2] })];
                }
            }
            Block::Terminate { .. } if preempts(machine, taken.number) => {
                self.stops = vec![(28, STOPS[7])];
            }
            Block::Assemble { .. } if preempts(machine, taken.number) => {
                self.stops = vec![(28, STOPS[8])];
            }
            _ => {}
        }
        self.block = Some((block, taken.number, taken.priority, machine.clock));
    }

    fn at_preempt(&mut self, machine: &Machine, taken: &Transaction, facility: u32) {
        let server = &machine.facilities[facility as usize - 1];
        let Some(holder) = server.holder else {
            self.enters = vec![ENTERS[0]];
            return;
        };
        let is_holder = |event: &Event| event.transaction.number == holder;
        let Some(at) = machine.fel.iter().position(is_holder) else {
            if !server.preempted {
                self.waits = elsewhere(machine, taken, holder);
            }
            return;
        };
        let event = &machine.fel[at];
        let now = event.transaction.priority;
        if server.preempted {
            self.waits = chosen(&[(now < taken.priority, WAITS[3])]);
            return;
        }
        let before = self.seized.get(&(facility, holder)).copied();
        self.waits = chosen(&[
            (now == taken.priority, WAITS[0]),
            (now > taken.priority, WAITS[1]),
            (before.is_some_and(|p| p < taken.priority), WAITS[2]),
        ]);
        let many = machine.fel.len();
        let servers = machine.facilities.iter();
        let held = servers.filter(|f| f.holder == Some(holder));
        self.enters = chosen(&[
            (event.move_time == machine.clock, ENTERS[1]),
            (!server.ql.is_empty(), ENTERS[2]),
            (taken.returning, ENTERS[3]),
            (self.given_back.contains(&(facility, holder)), ENTERS[4]),
            (held.count() > 1, ENTERS[5]),
            (preempts(machine, holder), ENTERS[6]),
            (machine.holds_some(taken), ENTERS[7]),
            (before.is_some_and(|p| p >= taken.priority), ENTERS[8]),
            (!machine.interrupted.is_empty(), ENTERS[9]),
            (at > 0 && at + 1 < many, ENTERS[10]),
            (many == 1, ENTERS[11]),
        ]);
    }

    fn at_return(&mut self, machine: &Machine, taken: &Transaction, facility: u32) {
        let server = &machine.facilities[facility as usize - 1];
        let own = server.holder == Some(taken.number);
        let all = &machine.interrupted;
        let one: Option<&Interrupted> = all.iter().find(|one| one.facility == facility);
        let last = machine.rules.max_clock();
        let due = one.map(|one| machine.clock + one.remaining);
        let late = due.is_some_and(|due| due > last);
        self.stops = match (server.preempted, own) {
            (true, true) => vec![(22, STOPS[0])],
            (true, false) => vec![(27, if late { STOPS[6] } else { STOPS[5] })],
            (false, true) => vec![(27, STOPS[3])],
            (false, false) => vec![(27, STOPS[4])],
        };
        let since = self.since.get(&facility).copied();
        self.enters = match one {
            Some(one) => chosen(&[
                (one.remaining == 0, RETURNS[0]),
                (!server.ql.is_empty(), RETURNS[1]),
                (!server.wel[1].is_empty(), RETURNS[2]),
                (since == Some(machine.clock), RETURNS[3]),
                (due == Some(last), RETURNS[4]),
                (all.len() > 1, RETURNS[5]),
            ]),
            None if server.ql.is_empty() => vec![RETURNS[7]],
            None => vec![RETURNS[6]],
        };
        self.back = one.map(|one| (facility, one.transaction.number));
    }

    pub fn after_turn(&mut self, done: Done) {
        let Some((block, number, priority, clock)) = self.block.take() else {
            return;
        };
        let met: Vec<&'static str> = match done {
            Done::Entered | Done::Finished => {
                match block {
                    Block::Seize { facility } => {
                        self.seized.insert((facility, number), priority);
                    }
                    Block::Preempt { facility } => {
                        self.since.insert(facility, clock);
                    }
                    _ => {}
                }
                self.given_back.extend(self.back.take());
                std::mem::take(&mut self.enters)
            }
            Done::BeganToWait | Done::PutBack => std::mem::take(&mut self.waits),
            Done::WentBack => Vec::new(),
            Done::Stopped(end) => {
                let cells = self.stops.iter().filter(|(number, _)| *number == end);
                cells.map(|(_, cell)| *cell).collect()
            }
        };
        for cell in met {
            *self.counts.entry(cell).or_insert(0) += 1;
        }
    }
}

fn chosen(cells: &[(bool, &'static str)]) -> Vec<&'static str> {
    let met = cells.iter().filter(|(met, _)| *met);
    met.map(|(_, cell)| *cell).collect()
}

/// Does this one hold a facility by PREEMPT?
fn preempts(machine: &Machine, number: u64) -> bool {
    let mut servers = machine.facilities.iter();
    servers.any(|f| f.holder == Some(number) && f.preempted)
}

/// Where a holder of lower priority stands that is not on the FEL, or that it is
/// the one who comes.
fn elsewhere(machine: &Machine, taken: &Transaction, holder: u64) -> Vec<&'static str> {
    let servers = machine.facilities.iter().chain(&machine.storages);
    let waiting = servers.flat_map(|s| s.ql.iter().chain(s.wel.iter().flatten()));
    let ready = machine.wsl.iter().chain(&machine.rel);
    let gatherers = machine.gatherers.values().flatten().map(|g| &g.transaction);
    let interrupted = machine.interrupted.iter().map(|i| &i.transaction);
    let mut all = waiting.chain(ready).chain(gatherers).chain(interrupted);
    let lower = |other: &&Transaction| other.number == holder && other.priority < taken.priority;
    let place = match all.find(lower) {
        _ if holder == taken.number => Some(PLACE_MOVING),
        Some(_) => places(machine)
            .into_iter()
            .find(|p| p.0 == holder)
            .map(|p| p.1),
        None => None,
    };
    let cells = STANDS.iter().filter(|(at, _)| Some(*at) == place);
    cells.map(|(_, cell)| *cell).collect()
}

impl std::fmt::Display for Takeovers {
    fn fmt(&self, f: &mut std::fmt::Formatter) -> std::fmt::Result {
        for cell in Takeovers::cells(Rules::ALL) {
            writeln!(f, "{cell:<40}{}", self.met(cell))?;
        }
        Ok(())
    }
}
