//! Counts what random cases cover.

pub mod families;
mod groups;
mod second;
mod takeovers;

use crate::blocks::Done;
use crate::decode::{decode_model_with, read_model};
use crate::generate::fields::{model_fields, Role};
use crate::generate::random::Random;
use crate::generate::{case_with, Case, Size};
use crate::machine::{Machine, Transaction};
use crate::model::Block;
use crate::rules::{Rules, LAST_KIND};
use crate::run::{run_watched, Outcome, Watcher};
use families::Families;
use groups::Groups;
pub use second::Second;
use std::collections::BTreeMap;
pub use takeovers::Takeovers;

/// What the runs of some cases met.
#[derive(Default)]
pub struct Coverage {
    pub rules: Rules,
    pub cases: u64,
    pub refusals: BTreeMap<u64, u64>,
    pub ends: BTreeMap<u64, u64>,
    /// The turns of each accepted case.
    pub turns: Vec<u64>,
    pub most_blocks: usize,
    pub most_living: u64,
    pub most_interrupted: usize,
    pub last_clock: u64,
    pub clock_moves: u64,
    pub zero_moves: u64,
    /// Turns, and of them those whose block reads the clock, by the span of the clock.
    pub turns_at: [u64; SPANS],
    pub clock_terms_at: [u64; SPANS],
    /// Ends 27 and 28 by how they came.
    pub stopped_holding: [u64; STOPS.len()],
    pub groups: Groups,
    pub second: Second,
    pub families: Families,
    pub takeovers: Takeovers,
    /// Accepted models of each edition.
    pub editions: [u64; 2],
    /// Term tags, status codes and relations in accepted models.
    pub tags: [u64; 12],
    pub codes: [u64; 6],
    pub relations: [u64; 6],
    /// Executions by kind and column.
    counts: BTreeMap<(u32, u32), u64>,
    before: Option<(u64, bool)>,
}

/// Spans of the clock: to the limit of document 01; below 2^31, where the clock
/// term turns negative; below 2^32, where it has gone round; on; the last clock.
const SPANS: usize = 5;

fn span_of(rules: Rules, clock: u64) -> usize {
    match clock {
        _ if clock == rules.max_clock() => 4,
        0..=2_000_000_000 => 0,
        2_000_000_001..=2_147_483_647 => 1,
        2_147_483_648..=4_294_967_295 => 2,
        _ => 3,
    }
}

/// How ends 27 and 28 come.
const STOPS: [&str; 5] = [
    "27 by a copy of the holder",
    "27 by another",
    "28 before end 2",
    "28 far from end 2",
    "28 holding several",
];

/// What the execution of a block can come to, as the columns of the table.
const COLUMNS: [(&str, Done); 11] = [
    ("entered", Done::Entered),
    ("waits", Done::BeganToWait),
    ("put back", Done::PutBack),
    ("goes back", Done::WentBack),
    ("21", Done::Stopped(21)),
    ("22", Done::Stopped(22)),
    ("23", Done::Stopped(23)),
    ("24", Done::Stopped(24)),
    ("25", Done::Stopped(25)),
    ("27", Done::Stopped(27)),
    ("28", Done::Stopped(28)),
];

fn column(done: Done) -> u32 {
    let done = match done {
        Done::Finished => Done::Entered,
        other => other,
    };
    let at = COLUMNS.iter().position(|(_, column)| *column == done);
    at.expect("a column") as u32
}

/// The ends that short runs meet.
pub fn ends(rules: Rules) -> Vec<u64> {
    let mut ends = vec![1, 2, 3, 4, 21, 22, 23, 24, 25];
    if rules.holders || rules.preempt {
        ends.push(27);
    }
    if rules.holders {
        ends.push(28);
    }
    ends
}

/// Can a block of this kind come to this under these rules?
pub fn possible(rules: Rules, kind: u32, done: Done) -> bool {
    if !rules.has_kind(kind) {
        return false;
    }
    match done {
        Done::Entered | Done::Finished => true,
        Done::BeganToWait => [4, 6, 8, 9, 17, 18, 19].contains(&kind),
        Done::PutBack => [4, 6, 8, 9, 17, 19].contains(&kind),
        Done::WentBack => kind == 17,
        Done::Stopped(21) => [1, 14].contains(&kind),
        Done::Stopped(22) => [1, 2, 20].contains(&kind),
        Done::Stopped(23) => kind == 2,
        Done::Stopped(24) => [5, 7, 20].contains(&kind),
        Done::Stopped(25) => kind == 16,
        Done::Stopped(27) => kind == 20 || (kind == 5 && (rules.holders || rules.preempt)),
        Done::Stopped(28) => rules.holders && [3, 18].contains(&kind),
        Done::Stopped(_) => false,
    }
}

impl Watcher for Coverage {
    fn before_turn(&mut self, machine: &Machine, _trace: &[u8]) {
        self.most_living = self.most_living.max(machine.living());
        self.most_interrupted = self.most_interrupted.max(machine.interrupted.len());
        self.last_clock = self.last_clock.max(machine.clock);
        if let Some((clock, true)) = self.before {
            self.clock_moves += 1;
            self.zero_moves += u64::from(clock == machine.clock);
        }
        let moves = machine.moving.is_none() && machine.rel.is_empty() && !machine.fel.is_empty();
        self.before = Some((machine.clock, moves));
        self.second.before_turn(machine);
    }

    fn before_block(&mut self, machine: &Machine, taken: &Transaction) {
        let span = span_of(machine.rules, machine.clock);
        self.turns_at[span] += 1;
        self.clock_terms_at[span] += u64::from(machine.model.reads_clock(taken.next_block));
        self.groups.before_block(machine, taken);
        self.second.before_block(machine, taken);
        self.families.before_block(machine, taken);
        self.takeovers.before_block(machine, taken);
    }

    fn after_turn(&mut self, kind: u32, done: Done) {
        *self.counts.entry((kind, column(done))).or_insert(0) += 1;
        self.groups.after_turn(done);
        self.second.after_turn(done);
        self.families.after_turn(done);
        self.takeovers.after_turn(done);
    }

    fn at_end(&mut self, machine: &Machine, end: u32, _trace: &[u8]) {
        let Some(moving) = &machine.moving else {
            return;
        };
        match (end, machine.model.block(moving.next_block)) {
            (27, Block::Release { facility }) => {
                let server = &machine.facilities[*facility as usize - 1];
                let copy = server.holder == Some(moving.family);
                self.stopped_holding[usize::from(!copy)] += u64::from(!server.preempted);
            }
            (28, Block::Terminate { amount }) => {
                let last = machine.counter <= i64::from(*amount);
                let holder = Some(moving.number);
                let held = machine.facilities.iter().filter(|f| f.holder == holder);
                self.stopped_holding[if last { 2 } else { 3 }] += 1;
                self.stopped_holding[4] += u64::from(held.count() > 1);
            }
            _ => {}
        }
    }
}

impl Coverage {
    /// Runs this many cases under these rules.
    pub fn of(rules: Rules, random: &mut Random, size: Size, count: u64) -> Coverage {
        let mut coverage = Coverage {
            rules,
            ..Coverage::default()
        };
        for _ in 0..count {
            let case = case_with(rules, random, size);
            let mut trace = vec![0; case.trace_len];
            let mut report = vec![0; case.report_len];
            coverage.run(&case, &mut trace, &mut report);
        }
        coverage
    }

    /// Runs a case and counts what it meets.
    pub fn run(&mut self, case: &Case, trace: &mut [u8], report: &mut [u8]) -> Outcome {
        self.before = None;
        self.groups.start();
        self.second.start();
        self.families.start();
        self.takeovers.start();
        let outcome = run_watched(
            self.rules,
            &case.model,
            &case.tape,
            case.budget,
            case.work_len,
            trace,
            report,
            self,
        );
        self.cases += 1;
        *self.refusals.entry(outcome.refusal).or_insert(0) += 1;
        if outcome.refusal == 0 {
            *self.ends.entry(outcome.end).or_insert(0) += 1;
            self.turns.push(outcome.turns);
            self.count_names(&case.model);
        }
        if let (7, Ok(model)) = (outcome.refusal, read_model(self.rules, &case.model)) {
            self.groups.refused(&model);
        }
        outcome
    }

    /// Counts tags, codes and relations of an accepted model.
    fn count_names(&mut self, bytes: &[u8]) {
        let model = decode_model_with(self.rules, bytes).expect("accepted");
        self.most_blocks = self.most_blocks.max(model.blocks.len());
        self.editions[model.edition as usize - 1] += 1;
        self.groups.accepted(&model);
        for field in model_fields(self.rules, &model) {
            let value = field.value as usize;
            match field.role {
                Role::Tag => self.tags[value] += 1,
                Role::Relation => self.relations[value - 1] += 1,
                Role::Code => self.codes[value - 1] += 1,
                Role::Other => {}
            }
        }
    }

    /// What can be met under the rules and was not: kinds with what they come
    /// to, refusals, ends (but 26), tags, codes, relations, spans of the clock,
    /// ways to ends 27 and 28, ways through groups of joined waits, through ASSEMBLE and through PREEMPT and RETURN,
    /// what edition 2 comes to.
    pub fn empty_cells(&self) -> Vec<String> {
        let mut empty = Vec::new();
        for kind in 1..=LAST_KIND {
            for (_, done) in COLUMNS {
                if possible(self.rules, kind, done) && self.met(kind, done) == 0 {
                    empty.push(format!("kind {kind} {done:?}"));
                }
            }
        }
        for refusal in (0..=10).filter(|n| !self.refusals.contains_key(n)) {
            empty.push(format!("refusal {refusal}"));
        }
        for end in ends(self.rules) {
            if !self.ends.contains_key(&end) {
                empty.push(format!("end {end}"));
            }
        }
        let editions = self.rules.highest_edition as usize;
        for (name, counts) in [
            ("edition", &self.editions[..editions]),
            ("tag", &self.tags[..]),
            ("code", &self.codes[..]),
            ("relation", &self.relations[..]),
        ] {
            for at in (0..counts.len()).filter(|at| counts[*at] == 0) {
                empty.push(format!("{name} at {at}"));
            }
        }
        let spans = if self.rules.wide_clocks { SPANS } else { 0 };
        for span in 0..spans {
            if self.turns_at[span] == 0 {
                empty.push(format!("turn in span {span}"));
            }
            if self.clock_terms_at[span] == 0 {
                empty.push(format!("clock term in span {span}"));
            }
        }
        let stops = if self.rules.holders { STOPS.len() } else { 0 };
        for at in (0..stops).filter(|at| self.stopped_holding[*at] == 0) {
            empty.push(STOPS[at].to_string());
        }
        if self.rules.joined {
            empty.extend(
                Groups::cells()
                    .into_iter()
                    .filter(|c| self.groups.met(c) == 0),
            );
        }
        if self.rules.highest_edition > 1 {
            empty.extend(
                Second::cells()
                    .into_iter()
                    .filter(|c| self.second.met(c) == 0),
            );
        }
        if self.rules.assemble {
            let can = |way: &&str| self.rules.holders || !way.starts_with("28");
            let ways = families::WAYS.into_iter().filter(can);
            empty.extend(
                ways.filter(|way| self.families.met(way) == 0)
                    .map(str::to_string),
            );
        }
        if self.rules.preempt {
            let cells = Takeovers::cells(self.rules).into_iter();
            empty.extend(
                cells
                    .filter(|cell| self.takeovers.met(cell) == 0)
                    .map(str::to_string),
            );
        }
        empty
    }

    /// How often a block of this kind came to this.
    pub fn met(&self, kind: u32, done: Done) -> u64 {
        *self.counts.get(&(kind, column(done))).unwrap_or(&0)
    }
}

impl std::fmt::Display for Coverage {
    fn fmt(&self, f: &mut std::fmt::Formatter) -> std::fmt::Result {
        let counts = |map: &BTreeMap<u64, u64>| -> String {
            let words: Vec<String> = map.iter().map(|(k, n)| format!("{k}: {n}")).collect();
            words.join(", ")
        };
        let mut turns = self.turns.clone();
        turns.sort();
        let part = |percent: usize| {
            let at = turns.len() * percent / 100;
            turns.get(at).copied().unwrap_or(0)
        };
        writeln!(f, "cases     {}", self.cases)?;
        writeln!(f, "refusals  {}", counts(&self.refusals))?;
        writeln!(f, "ends      {}", counts(&self.ends))?;
        writeln!(
            f,
            "turns     a tenth {}, a quarter {}, half {}, three quarters {}, nine tenths {}, most {}",
            part(10),
            part(25),
            part(50),
            part(75),
            part(90),
            turns.last().unwrap_or(&0)
        )?;
        writeln!(
            f,
            "most blocks {}, most living {}, last clock {}, clock moves {}, of them by 0 ticks {}",
            self.most_blocks, self.most_living, self.last_clock, self.clock_moves, self.zero_moves
        )?;
        writeln!(
            f,
            "clocks to 2,000,000,000, below 2^31, below 2^32, on, the last: turns {:?}, clock terms {:?}",
            self.turns_at, self.clock_terms_at
        )?;
        for (name, count) in STOPS.iter().zip(self.stopped_holding) {
            writeln!(f, "{name:<28}{count}")?;
        }
        write!(f, "{}{}", self.groups, self.second)?;
        write!(f, "{}{}", self.families, self.takeovers)?;
        writeln!(f, "editions 1, 2   {:?}", self.editions)?;
        writeln!(f, "tags 0..11      {:?}", self.tags)?;
        writeln!(f, "codes 1..6      {:?}", self.codes)?;
        writeln!(f, "relations 1..6  {:?}", self.relations)?;
        write!(f, "kind")?;
        for (name, _) in COLUMNS {
            write!(f, "{name:>10}")?;
        }
        for kind in 1..=LAST_KIND {
            write!(f, "\n{kind:>4}")?;
            for column in 0..COLUMNS.len() as u32 {
                let count = self.counts.get(&(kind, column)).unwrap_or(&0);
                write!(f, "{count:>10}")?;
            }
        }
        writeln!(f)
    }
}
