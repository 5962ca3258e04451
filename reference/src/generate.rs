//! Random cases: models, tapes, budgets and buffer lengths, good and damaged.
//! The same seed always gives the same cases.

pub mod contention;
pub mod crowds;
pub mod damage;
pub mod distributions;
pub mod editions;
pub mod families;
pub mod fields;
pub mod holders;
pub mod interruptions;
pub mod joined;
pub mod nasty;
pub mod pairs;
pub mod pieces;
pub mod preempt;
pub mod random;
pub mod scenes;
pub mod structured;
pub mod sums;
pub mod tapes;
pub mod targets;
pub mod traces;
pub mod waits;
pub mod wide;

use crate::model::Model;
use crate::report::REPORT_BYTES;
use crate::rules::Rules;
use crate::run::{run_with, WORK_NUMBERS};
use crate::tape::Tape;
use fields::{encode_model, encode_tape};
use random::Random;

/// Everything that a run is given.
#[derive(Clone, Debug, PartialEq, Eq)]
pub struct Case {
    pub model: Vec<u8>,
    pub tape: Vec<u8>,
    pub budget: u64,
    pub work_len: usize,
    pub trace_len: usize,
    pub report_len: usize,
}

/// How large the cases may be.
#[derive(Clone, Copy, Debug, PartialEq, Eq)]
pub enum Size {
    /// At most 18 blocks and 200 turns, without exception.
    Short,
    /// The same, with a rare run to the last clock (under document 01 some 2,200 turns).
    Small,
    /// Up to the limits of the model.
    Full,
}

impl Size {
    pub fn is_small(self) -> bool {
        self != Size::Full
    }
}

/// The same under the rules of the engine.
pub fn case(random: &mut Random, size: Size) -> Case {
    case_with(Rules::LANDED, random, size)
}

/// The next random case. What a request brings is drawn only where it is in
/// force, so that the cases of older rules stay as they are.
pub fn case_with(rules: Rules, random: &mut Random, size: Size) -> Case {
    if rules.wide_clocks && random.one_in(10) {
        return wide::case(rules, random, size);
    }
    if rules.holders && random.one_in(10) {
        return holders::case(rules, random, size);
    }
    if rules.joined && random.one_in(10) {
        return joined::case(rules, random, size);
    }
    if rules.assemble && random.one_in(10) {
        return families::case(rules, random, size);
    }
    if rules.highest_edition > 1 && random.one_in(8) {
        return editions::case(rules, random, size);
    }
    if rules.preempt && random.one_in(7) {
        return preempt::case(rules, random, size);
    }
    match random.below(100) {
        0..=52 => {
            let (model, tape) = structured::model_and_tape(rules, random, size);
            good_case(rules, random, size, &model, &tape)
        }
        53..=69 => nasty::case(rules, random, size),
        70..=96 => {
            let (model, tape) = structured::model_and_tape(rules, random, size);
            damage::damaged_case(rules, random, size, model, tape)
        }
        _ => {
            let (model, tape) = structured::model_and_tape(rules, random, size);
            let case = good_case(rules, random, size, &model, &tape);
            short_buffers(random, case)
        }
    }
}

/// A case of this model and tape with random budget and lengths.
pub fn good_case(
    rules: Rules,
    random: &mut Random,
    size: Size,
    model: &Model,
    tape: &Tape,
) -> Case {
    let mut model = model.clone();
    if model.edition == Model::FIRST_EDITION {
        model.edition = edition(rules, random);
    }
    let mut case = Case {
        model: encode_model(&model),
        tape: encode_tape(tape),
        budget: budget(random, size),
        work_len: WORK_NUMBERS + if random.one_in(20) { 1 } else { 0 },
        trace_len: trace_len(random, size),
        report_len: REPORT_BYTES + if random.one_in(20) { 3 } else { 0 },
    };
    if random.one_in(10) {
        aim_limits(rules, random, &mut case);
    }
    case
}

/// The edition of a model: often the second where there is one.
fn edition(rules: Rules, random: &mut Random) -> u32 {
    if rules.highest_edition > 1 && random.one_in(3) {
        return rules.highest_edition;
    }
    Model::FIRST_EDITION
}

/// Sets budget and trace length beside what the run needs, so that several
/// ends meet before the same turn.
fn aim_limits(rules: Rules, random: &mut Random, case: &mut Case) {
    let mut trace = vec![0; case.trace_len];
    let mut report = vec![0; case.report_len];
    let outcome = run_with(
        rules,
        &case.model,
        &case.tape,
        case.budget,
        case.work_len,
        &mut trace,
        &mut report,
    );
    let beside = |random: &mut Random, number: u64, add: u64| {
        (number + random.below(3) + add).saturating_sub(1)
    };
    if random.percent(70) {
        case.budget = beside(random, outcome.turns, 0).min(case.budget);
    }
    if random.percent(70) {
        let add = if random.one_in(2) { 0 } else { 11 };
        let length = beside(random, outcome.trace_bytes, add);
        case.trace_len = length as usize;
    }
}

fn budget(random: &mut Random, size: Size) -> u64 {
    match (random.below(20), size.is_small()) {
        (0, _) => random.below(4),
        (1, _) => random.between(4, 30),
        (2..=4, true) => random.between(30, 150),
        (_, true) => 200,
        (2..=4, false) => random.between(30, 600),
        (5..=16, false) => random.between(600, 4_000),
        (_, false) => *random.pick(&[20_000, 1_000_000, 4_294_967_295]),
    }
}

fn trace_len(random: &mut Random, size: Size) -> usize {
    let length = match (random.below(25), size.is_small()) {
        (0, _) => *random.pick(&[0, 1, 11, 12, 13, 15, 16, 17]),
        (1, _) => random.between(12, 60),
        (2..=3, _) => random.between(60, 500),
        (_, true) => 2_400,
        (4..=20, false) => random.between(3_000, 16_000),
        (_, false) => *random.pick(&[16_000, 32_768, 65_536]),
    };
    length as usize
}

/// Buffers too short, or just long enough (questions 1 and 2).
fn short_buffers(random: &mut Random, mut case: Case) -> Case {
    match random.below(4) {
        0 => case.work_len = *random.pick(&[0, 1, 4_096, 10_240, WORK_NUMBERS - 1]),
        1 => case.report_len = *random.pick(&[0, 1, 100, 5_000, REPORT_BYTES - 1]),
        2 => {
            case.work_len = random.below(WORK_NUMBERS as u64) as usize;
            case.report_len = random.below(REPORT_BYTES as u64) as usize;
        }
        _ => {
            case.work_len = WORK_NUMBERS + random.below(100) as usize;
            case.report_len = REPORT_BYTES + random.below(100) as usize;
        }
    }
    case
}
