//! A run from bytes to bytes (01, A turn; Questions at the door).

use crate::blocks::Done;
use crate::decode::decode_model_with;
use crate::machine::{Machine, Transaction};
use crate::report::{write_report, REPORT_BYTES};
use crate::rules::Rules;
use crate::tape::decode_tape_with;
use crate::trace::{write_record_with, MAX_RECORD_BYTES};

/// Question 1 asks for this many 32-bit numbers.
pub const WORK_NUMBERS: usize = 16_384;

/// End 26: "Last serial given above 99,997,952, or 100,000,000 turns done".
pub const LAST_SERIAL_LIMIT: u64 = 99_997_952;
pub const TURN_LIMIT: u64 = 100_000_000;

/// "A run returns refusal (0 for none), end, clock, turns, made, ended, bytes
/// of trace and of report."
#[derive(Clone, Copy, Debug, Default, PartialEq, Eq)]
pub struct Outcome {
    pub refusal: u64,
    pub end: u64,
    pub clock: u64,
    pub turns: u64,
    pub made: u64,
    pub ended: u64,
    pub trace_bytes: u64,
    pub report_bytes: u64,
}

impl Outcome {
    pub fn numbers(&self) -> [u64; 8] {
        [
            self.refusal,
            self.end,
            self.clock,
            self.turns,
            self.made,
            self.ended,
            self.trace_bytes,
            self.report_bytes,
        ]
    }
}

/// Looks at a run as it goes; changes nothing.
pub trait Watcher {
    /// Before the questions before each turn, the first and the last included.
    fn before_turn(&mut self, _machine: &Machine, _trace: &[u8]) {}
    /// In a turn, after the taking: who executes its next block.
    fn before_block(&mut self, _machine: &Machine, _taken: &Transaction) {}
    /// After a turn: the kind of the block it met and what that came to.
    fn after_turn(&mut self, _kind: u32, _done: Done) {}
    /// After the last turn.
    fn at_end(&mut self, _machine: &Machine, _end: u32, _trace: &[u8]) {}
}

/// Watches nothing.
pub struct Nobody;

impl Watcher for Nobody {}

/// A run under the rules of the engine.
pub fn run(
    model: &[u8],
    tape: &[u8],
    budget: u64,
    work_len: usize,
    trace: &mut [u8],
    report: &mut [u8],
) -> Outcome {
    let rules = Rules::LANDED;
    run_with(rules, model, tape, budget, work_len, trace, report)
}

/// A run under any rules. `work_len` is the length of the lent work buffer in
/// 32-bit numbers; this implementation does not need the buffer itself.
pub fn run_with(
    rules: Rules,
    model: &[u8],
    tape: &[u8],
    budget: u64,
    work_len: usize,
    trace: &mut [u8],
    report: &mut [u8],
) -> Outcome {
    run_watched(
        rules,
        model,
        tape,
        budget,
        work_len,
        trace,
        report,
        &mut Nobody,
    )
}

/// The same, watched.
#[allow(clippy::too_many_arguments)]
pub fn run_watched(
    rules: Rules,
    model: &[u8],
    tape: &[u8],
    budget: u64,
    work_len: usize,
    trace: &mut [u8],
    report: &mut [u8],
    watcher: &mut dyn Watcher,
) -> Outcome {
    match door(rules, model, tape, work_len, report.len()) {
        Ok(machine) => run_from(machine, budget, trace, report, watcher),
        Err(refusal) => Outcome {
            refusal: u64::from(refusal),
            ..Outcome::default()
        },
    }
}

/// The questions at the door, "In this order; the number is for "no"."
pub fn door(
    rules: Rules,
    model: &[u8],
    tape: &[u8],
    work_len: usize,
    report_len: usize,
) -> Result<Machine, u32> {
    if work_len < WORK_NUMBERS {
        return Err(1);
    }
    if report_len < REPORT_BYTES {
        return Err(2);
    }
    let model = decode_model_with(rules, model)?;
    let tape = decode_tape_with(rules, tape, model.lists)?;
    Ok(Machine::start(rules, model, tape))
}

/// Runs on from a given state, with an empty trace, until an end.
pub fn run_from(
    mut machine: Machine,
    budget: u64,
    trace: &mut [u8],
    report: &mut [u8],
    watcher: &mut dyn Watcher,
) -> Outcome {
    let mut used = 0;
    let end = loop {
        watcher.before_turn(&machine, &trace[..used]);
        if let Some(end) = end_before_turn(&machine, budget, trace.len() - used) {
            break end;
        }
        let (kind, done, written) = turn(&mut machine, &mut trace[used..], watcher);
        used += written;
        watcher.after_turn(kind, done);
        match done {
            Done::Finished => break 2,
            Done::Stopped(end) => break end,
            _ => machine.ws_scheme(),
        }
    };
    watcher.at_end(&machine, end, &trace[..used]);
    let report_bytes = write_report(&machine, report);
    Outcome {
        refusal: 0,
        end: u64::from(end),
        clock: machine.clock,
        turns: machine.turns,
        made: machine.made,
        ended: machine.ended,
        trace_bytes: used as u64,
        report_bytes: report_bytes as u64,
    }
}

/// "Before each turn, in this order": ends 1, 26, 3, 4.
fn end_before_turn(machine: &Machine, budget: u64, trace_left: usize) -> Option<u32> {
    if machine.moving.is_none() && machine.rel.is_empty() && machine.fel.is_empty() {
        return Some(1);
    }
    if machine.last_serial > LAST_SERIAL_LIMIT || machine.turns >= TURN_LIMIT {
        return Some(26);
    }
    if machine.turns >= budget {
        return Some(3);
    }
    if trace_left < MAX_RECORD_BYTES {
        return Some(4);
    }
    None
}

/// One turn: the taking, one block, its record. Gives the kind of the block,
/// what it came to and the bytes written.
fn turn(machine: &mut Machine, rest: &mut [u8], watcher: &mut dyn Watcher) -> (u32, Done, usize) {
    let transaction = machine.take().expect("asked by end 1");
    machine.turns += 1;
    let number = transaction.number;
    let block = transaction.next_block;
    let kind = machine.model.block(block).kind();
    watcher.before_block(machine, &transaction);
    let done = machine.execute(transaction);
    let outcome = match done {
        Done::Entered | Done::Finished => 0,
        Done::BeganToWait => 1,
        Done::PutBack | Done::WentBack | Done::Stopped(_) => return (kind, done, 0),
    };
    let record = [machine.clock, number, u64::from(block), outcome];
    let written = write_record_with(machine.rules, rest, record).expect("asked by end 4");
    (kind, done, written)
}
