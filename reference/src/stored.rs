//! The stored cases of crate `test_vectors` and what must come out of them: the
//! first example, the limits of 02, item 1, the holders of item 6, the joined waits
//! of item 7, the families of item 8, the facilities taken over of item 11, the 1996 rules
//! of item 12, what tells near misreadings apart, and random cases: each refusal, each end that a short run can meet, each kind
//! and outcome, each list in use, 1,024 living, late clocks, facilities held, groups of each
//! size, what edition 2 comes to and what PREEMPT and RETURN come to.

mod gathered;
mod given_back;
mod groups;
mod held;
mod joined;
mod late;
mod misread;
mod preempted;
mod second;

pub use gathered::cases as gathered_cases;
pub use held::cases as held_cases;
pub use joined::cases as joined_cases;
pub use late::cases as late_cases;
pub use misread::cases as misread_cases;
pub use preempted::cases as preempted_cases;
pub use second::cases as second_cases;

use crate::blocks::Done;
use crate::coverage::{Second, Takeovers};
use crate::generate::random::Random;
use crate::generate::{case, Case, Size};
use crate::line::line;
use crate::machine::{Machine, Transaction};
use crate::model::{Block, Model};
use crate::number::number_bytes;
use crate::rules::Rules;
use crate::run::{run, run_watched, Watcher};
use std::collections::{BTreeMap, BTreeSet};

/// The buffers of the program.
pub const WORK_NUMBERS: usize = 16_500;
pub const TRACE_BYTES: usize = 131_072;
pub const REPORT_BYTES: usize = 10_400;

/// How many cases are stored, and how many at least have each feature.
const CASES: usize = 720;
const EACH: u32 = 5;

/// The first example of document 01.
pub fn first_example() -> Case {
    Case {
        model: vec![1, 1, 0, 0, 0, 2, 2, 5, 1, 1, 0, 4, 1, 2, 2, 5, 1, 3, 1],
        tape: vec![2, 3, 2, 2, 5, 4],
        budget: 1_000_000,
        work_len: 16_384,
        trace_len: 65_536,
        report_len: 10_240,
    }
}

/// What a case shows.
#[derive(Default)]
struct Features {
    names: BTreeSet<String>,
    second: Second,
    takeovers: Takeovers,
}

impl Features {
    fn add(&mut self, met: bool, name: &str) {
        if met {
            self.names.insert(name.to_string());
        }
    }
}

impl Watcher for Features {
    fn before_turn(&mut self, machine: &Machine, _trace: &[u8]) {
        let servers = || machine.facilities.iter().chain(&machine.storages);
        self.add(
            machine.facilities.iter().any(|f| !f.ql.is_empty()),
            "facility QL",
        );
        self.add(
            machine.storages.iter().any(|s| !s.ql.is_empty()),
            "storage QL",
        );
        for code in 1..=6 {
            let waits = servers().any(|server| !server.wel[code - 1].is_empty());
            self.add(waits, &format!("WEL {code}"));
        }
        self.add(!machine.wsl.is_empty(), "WSL");
        let gathers = machine.gatherers.values().any(|list| !list.is_empty());
        self.add(gathers, "gatherers");
        self.add(!machine.interrupted.is_empty(), "interrupted");
        let mut holders: Vec<u64> = machine.facilities.iter().filter_map(|f| f.holder).collect();
        let held = holders.len();
        holders.sort_unstable();
        holders.dedup();
        self.add(held > holders.len(), "holder of several");
        self.add(holders.len() > 1, "several holders");
        self.add(!machine.rel.is_empty(), "REL");
        self.add(!machine.fel.is_empty(), "FEL");
        self.add(machine.model.edition == 2, "edition 2");
        self.add(machine.living() == Model::MAX_LIVING, "1,024 living");
        self.add(
            machine.clock + 1_000_000 > machine.rules.max_clock(),
            "late clock",
        );
        self.add(machine.clock == machine.rules.max_clock(), "last clock");
        self.second.before_turn(machine);
    }

    fn before_block(&mut self, machine: &Machine, taken: &Transaction) {
        self.second.before_block(machine, taken);
        self.takeovers.before_block(machine, taken);
        if machine.model.reads_clock(taken.next_block) {
            self.add(machine.clock > i32::MAX as u64, "clock term past 2^31");
            self.add(machine.clock > u64::from(u32::MAX), "clock term past 2^32");
        }
        if let Block::WaitJoined { back, .. } = machine.model.block(taken.next_block) {
            self.names.insert(format!("group of {back}"));
        }
    }

    fn after_turn(&mut self, kind: u32, done: Done) {
        self.second.after_turn(done);
        self.takeovers.after_turn(done);
        self.names.insert(format!("kind {kind} {done:?}"));
    }

    fn at_end(&mut self, _machine: &Machine, end: u32, _trace: &[u8]) {
        self.names.insert(format!("end {end}"));
    }
}

fn features(case: &Case) -> BTreeSet<String> {
    let mut features = Features::default();
    let mut trace = vec![0; case.trace_len];
    let mut report = vec![0; case.report_len];
    let outcome = run_watched(
        Rules::LANDED,
        &case.model,
        &case.tape,
        case.budget,
        case.work_len,
        &mut trace,
        &mut report,
        &mut features,
    );
    features.add(true, &format!("refusal {}", outcome.refusal));
    features.names.extend(features.second.names());
    features.names.extend(features.takeovers.names());
    features.names
}

/// The stored cases, always the same, and how often each feature is met.
pub fn cases() -> (Vec<Case>, BTreeMap<String, u32>) {
    let mut random = Random::new(8);
    let mut kept = vec![first_example()];
    kept.extend(late::cases().into_iter().map(|(case, _)| case));
    kept.extend(held::cases().into_iter().map(|(case, _)| case));
    kept.extend(joined::cases().into_iter().map(|(case, _)| case));
    kept.extend(gathered::cases().into_iter().map(|(case, _, _)| case));
    kept.extend(preempted::cases().into_iter().map(|(case, ..)| case));
    kept.extend(second::cases().into_iter().map(|(case, ..)| case));
    kept.extend(misread::cases().into_iter().map(|(case, ..)| case));
    let mut met: BTreeMap<String, u32> = BTreeMap::new();
    let mut spare = Vec::new();
    for _ in 0..12_000 {
        let size = *random.pick(&[Size::Short, Size::Small, Size::Full]);
        let case = case(&mut random, size);
        if !fits(&case) {
            continue;
        }
        let features = features(&case);
        let fewest = features
            .iter()
            .map(|name| *met.get(name).unwrap_or(&0))
            .min();
        let bytes = case.model.len() + case.tape.len();
        let most = if fewest < Some(2) { 9_000 } else { 1_200 };
        if fewest < Some(EACH) && bytes <= most {
            kept.push(case);
            for name in features {
                *met.entry(name).or_insert(0) += 1;
            }
        } else if bytes <= 600 {
            spare.push(case);
        }
    }
    let room = CASES - kept.len();
    kept.extend(spare.into_iter().take(room));
    (kept, met)
}

fn fits(case: &Case) -> bool {
    case.work_len <= WORK_NUMBERS
        && case.trace_len <= TRACE_BYTES
        && case.report_len <= REPORT_BYTES
}

/// The bytes of the cases, as the program reads them.
pub fn encode(cases: &[Case]) -> Vec<u8> {
    let mut bytes = Vec::new();
    for case in cases {
        let numbers = [
            case.model.len() as u64,
            case.tape.len() as u64,
            case.budget,
            case.work_len as u64,
            case.trace_len as u64,
            case.report_len as u64,
        ];
        bytes.extend(numbers.into_iter().flat_map(number_bytes));
        bytes.extend(&case.model);
        bytes.extend(&case.tape);
    }
    bytes
}

/// The head of `box/runs.txt`.
const RUNS_HEAD: &str = "\
# Stored runs: what goes in and what must come out. A line that does not begin with # is one run, sixteen words with a space between:
# 1 model, 2 tape, as bytes in hexadecimal (- for none); 3 budget of turns; lengths of the lent buffers: 4 work in 32-bit numbers,
# 5 trace and 6 report in bytes; the results: 7 refusal, 8 end, 9 clock, 10 turns, 11 made, 12 ended, 13 bytes of trace, 14 bytes of
# report; 15 trace and 16 report, as bytes in hexadecimal (- for none). docs/FORMAT.md has the form of all four kinds of bytes.
";

/// The runs with trace and report, a line each, for programs in any language.
pub fn runs(cases: &[Case]) -> String {
    let mut text = RUNS_HEAD.to_string();
    for case in cases {
        text += &line(Rules::LANDED, case);
        text.push('\n');
    }
    text
}

/// 263 times the sum so far, the byte and 1, modulo 4,294,967,291.
pub fn checksum(bytes: &[u8]) -> u64 {
    bytes.iter().fold(0, |sum, byte| {
        (sum * 263 + u64::from(*byte) + 1) % 4_294_967_291
    })
}

/// What the program must write: the eight results and the checksums of all
/// lent bytes of trace and report, which keep what earlier cases left there.
pub fn expected(cases: &[Case]) -> String {
    let mut trace = vec![0; TRACE_BYTES];
    let mut report = vec![0; REPORT_BYTES];
    let mut text = String::new();
    for case in cases {
        let trace = &mut trace[..case.trace_len];
        let report = &mut report[..case.report_len];
        let outcome = run(
            &case.model,
            &case.tape,
            case.budget,
            case.work_len,
            trace,
            report,
        );
        for number in outcome.numbers() {
            text += &format!("{number} ");
        }
        text += &format!("{} {}\n", checksum(trace), checksum(report));
    }
    text
}
