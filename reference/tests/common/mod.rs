//! Short names for building and running models in tests.
#![allow(dead_code)]

use reference::blocks::Done;
use reference::generate::fields::{encode_model, encode_tape};
use reference::generate::Case;
use reference::machine::{Machine, Transaction};
use reference::model::{Block, Comparison, Model, Part, Sum, Term};
use reference::report::{read_report, REPORT_BYTES};
use reference::run::{run_from, run_with, Nobody, Outcome, WORK_NUMBERS};
use reference::tape::Tape;
use reference::trace::TraceReader;
use reference::Rules;

/// A model of one facility, one storage of 2, one queue and three lists.
pub fn model(blocks: Vec<Block>) -> Model {
    Model {
        edition: 1,
        facilities: 1,
        capacities: vec![2],
        queues: 1,
        values: Vec::new(),
        lists: 3,
        counter: 100,
        blocks,
    }
}

pub fn generate(list: u32) -> Block {
    Block::Generate { list, priority: 0 }
}

pub fn generate_at(list: u32, priority: u32) -> Block {
    Block::Generate { list, priority }
}

pub fn advance(list: u32) -> Block {
    Block::Advance { list }
}

pub fn terminate(amount: u32) -> Block {
    Block::Terminate { amount }
}

pub const SEIZE: Block = Block::Seize { facility: 1 };
pub const RELEASE: Block = Block::Release { facility: 1 };
pub const ARRIVE: Block = Block::Arrive { queue: 1 };
pub const DEPART: Block = Block::Depart { queue: 1 };

pub fn enter(units: u32) -> Block {
    Block::Enter { storage: 1, units }
}

pub fn leave(units: u32) -> Block {
    Block::Leave { storage: 1, units }
}

pub fn wait_status(code: u32) -> Block {
    Block::WaitIfStatus { code, server: 1 }
}

pub fn compare(left: Term, relation: u32, right: Term) -> Comparison {
    Comparison {
        left,
        relation,
        right,
    }
}

pub fn wait_while(left: Term, relation: u32, right: Term) -> Block {
    Block::WaitIfComparison {
        comparison: compare(left, relation, right),
    }
}

pub fn goto(target: u32) -> Block {
    Block::Goto { target }
}

pub fn split(copies: u32, target: u32) -> Block {
    Block::Split { copies, target }
}

pub fn priority(priority: u32) -> Block {
    Block::Priority { priority }
}

pub fn let_parameter(parameter: u32, term: Term) -> Block {
    Block::Let { parameter, term }
}

pub fn plus(term: Term) -> Part {
    Part { minus: false, term }
}

pub fn minus(term: Term) -> Part {
    Part { minus: true, term }
}

pub fn sum(parts: Vec<Part>) -> Sum {
    Sum { parts }
}

/// What a run left.
pub struct Ran {
    pub outcome: Outcome,
    /// Clock, transaction, block, outcome.
    pub records: Vec<[u64; 4]>,
    pub report: Vec<u64>,
}

impl Ran {
    /// Transaction, block and outcome of each record.
    pub fn steps(&self) -> Vec<(u64, u64, u64)> {
        self.records.iter().map(|r| (r[1], r[2], r[3])).collect()
    }

    /// The places of the living, from the report of the model of `model`.
    pub fn living(&self) -> Vec<(u64, u64)> {
        let from = 3 + 5 + 5 + 3;
        let count = self.report[from] as usize;
        let pairs = &self.report[from + 1..];
        assert_eq!(pairs.len(), count * 2);
        pairs.chunks(2).map(|p| (p[0], p[1])).collect()
    }

    pub fn facility(&self) -> &[u64] {
        &self.report[3..8]
    }

    pub fn storage(&self) -> &[u64] {
        &self.report[8..13]
    }

    pub fn queue(&self) -> &[u64] {
        &self.report[13..16]
    }
}

fn ran(rules: Rules, outcome: Outcome, trace: &[u8], report: &[u8]) -> Ran {
    let mut reader = TraceReader::with(rules, &trace[..outcome.trace_bytes as usize]);
    let mut records = Vec::new();
    while let Ok(r) = reader.next_record() {
        records.push([r.clock, r.transaction, r.block, r.outcome]);
    }
    assert_eq!(reader.position, outcome.trace_bytes as usize);
    let report = read_report(&report[..outcome.report_bytes as usize]).unwrap();
    Ran {
        outcome,
        records,
        report,
    }
}

pub fn run_limited(model: &Model, tape: &Tape, budget: u64, trace_len: usize) -> Ran {
    run_under(Rules::BASE, model, tape, budget, trace_len)
}

/// The same under other rules than those of document 01.
pub fn run_under(rules: Rules, model: &Model, tape: &Tape, budget: u64, trace_len: usize) -> Ran {
    let mut trace = vec![0; trace_len];
    let mut report = vec![0; REPORT_BYTES];
    let outcome = run_with(
        rules,
        &encode_model(model),
        &encode_tape(tape),
        budget,
        WORK_NUMBERS,
        &mut trace,
        &mut report,
    );
    assert_eq!(outcome.refusal, 0, "refused");
    ran(rules, outcome, &trace, &report)
}

pub fn run_model(model: &Model, tape: &Tape) -> Ran {
    run_limited(model, tape, 1_000_000, 65_536)
}

/// Runs on from a state made by hand.
pub fn run_state(machine: Machine, budget: u64) -> Ran {
    let mut trace = vec![0; 65_536];
    let mut report = vec![0; REPORT_BYTES];
    let rules = machine.rules;
    let outcome = run_from(machine, budget, &mut trace, &mut report, &mut Nobody);
    ran(rules, outcome, &trace, &report)
}

pub fn transaction(number: u64, next_block: u32, serial: u64) -> Transaction {
    Transaction {
        number,
        priority: 0,
        parameters: [0; 4],
        next_block,
        serial,
        returning: false,
        groups: Default::default(),
        family: number,
    }
}

/// The refusal of a model and tape in good buffers.
pub fn refusal(model: &[u8], tape: &[u8]) -> u64 {
    refusal_under(Rules::BASE, model, tape)
}

pub fn refusal_under(rules: Rules, model: &[u8], tape: &[u8]) -> u64 {
    let mut trace = vec![7; 100];
    let mut report = vec![7; REPORT_BYTES];
    let outcome = run_with(
        rules,
        model,
        tape,
        10,
        WORK_NUMBERS,
        &mut trace,
        &mut report,
    );
    if outcome.refusal != 0 {
        assert_eq!(outcome.numbers()[1..], [0; 7]);
        assert!(trace.iter().chain(&report).all(|byte| *byte == 7));
    }
    outcome.refusal
}

/// A machine of `model` with empty lists.
pub fn machine(blocks: Vec<Block>) -> Machine {
    Machine::start(Rules::BASE, model(blocks), vec![vec![], vec![], vec![]])
}

/// Executes block 1 for transaction 1, just taken.
pub fn execute(machine: &mut Machine) -> Done {
    machine.made = machine.made.max(1);
    machine.execute(transaction(1, 1, 1))
}

pub fn numbers(list: &[Transaction]) -> Vec<u64> {
    list.iter().map(|t| t.number).collect()
}

/// A waiter of this number, which is also its serial, at this block.
pub fn waiter(number: u64, block: u32, priority: u32) -> Transaction {
    let mut waiter = transaction(number, block, number);
    waiter.priority = priority;
    waiter
}

/// The eight results, trace and report of a case.
pub fn everything(rules: Rules, case: &Case) -> (Outcome, Vec<u8>, Vec<u8>) {
    let mut trace = vec![0; case.trace_len];
    let mut report = vec![0; case.report_len];
    let outcome = run_with(
        rules,
        &case.model,
        &case.tape,
        case.budget,
        case.work_len,
        &mut trace,
        &mut report,
    );
    (outcome, trace, report)
}
