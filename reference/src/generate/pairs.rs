//! Random pairs of models for the join (02, item 13), and pairs that run dry.

use super::damage::damaged_case;
use super::fields::{encode_model, encode_tape};
use super::random::Random;
use super::structured::model_and_tape;
use super::{case_with, edition, Case, Size};
use crate::decode::decode_model_with;
use crate::join::join_with;
use crate::model::{Block, Comparison, Model, Sum, Term};
use crate::rules::Rules;
use crate::tape::{decode_tape_with, Tape};

/// Everything that the join is given.
#[derive(Clone, Debug)]
pub struct JoinCall {
    pub first: (Vec<u8>, Vec<u8>),
    pub second: (Vec<u8>, Vec<u8>),
    pub model_room: usize,
    pub tape_room: usize,
}

/// A call with two models, good or damaged, near the limits at times.
pub fn call(rules: Rules, random: &mut Random) -> JoinCall {
    let common = edition(rules, random);
    let mut pair = || {
        let (mut model, mut tape) = model_and_tape(rules, random, Size::Small);
        model.edition = if random.one_in(12) {
            edition(rules, random)
        } else {
            common
        };
        // Most counters are large, and their sum then passes the limit.
        if !random.one_in(10) {
            model.counter = random.number(1, Model::MAX_COUNTER / 2);
        }
        if random.one_in(6) {
            grow(random, &mut model, &mut tape);
        }
        if random.one_in(8) {
            let case = damaged_case(rules, random, Size::Small, model, tape);
            return (case.model, case.tape);
        }
        (encode_model(&model), encode_tape(&tape))
    };
    let (first, second) = (pair(), pair());
    let mut call = JoinCall {
        model_room: first.0.len() + second.0.len() + 600,
        tape_room: first.1.len() + second.1.len() + 3,
        first,
        second,
    };
    let mut model = vec![0; call.model_room];
    let mut tape = vec![0; call.tape_room];
    let first = (&call.first.0[..], &call.first.1[..]);
    let second = (&call.second.0[..], &call.second.1[..]);
    let needed = join_with(rules, first, second, &mut model, &mut tape);
    if let (Ok((model, tape)), true) = (needed, random.one_in(3)) {
        let beside = |random: &mut Random, needed: usize| match random.below(4) {
            0 => needed.saturating_sub(1),
            1 => needed,
            2 => random.below(needed as u64 + 1) as usize,
            _ => needed + 5,
        };
        call.model_room = beside(random, model);
        call.tape_room = beside(random, tape);
    }
    call
}

/// Raises one count, so that the joined one stands at or beside its limit.
fn grow(random: &mut Random, model: &mut Model, tape: &mut Tape) {
    let most = |random: &mut Random, limit: u32| limit - random.number(0, 3).min(limit);
    match random.below(7) {
        0 => model.facilities = model.facilities.max(most(random, Model::MAX_FACILITIES)),
        1 => {
            let count = most(random, Model::MAX_STORAGES) as usize;
            while model.capacities.len() < count {
                model.capacities.push(1);
            }
        }
        2 => model.queues = model.queues.max(most(random, Model::MAX_QUEUES)),
        3 => {
            let count = most(random, Model::MAX_VALUES) as usize;
            while model.values.len() < count {
                model.values.push(super::sums::step(random));
            }
        }
        4 => {
            let count = most(random, Model::MAX_LISTS);
            while model.lists < count {
                model.lists += 1;
                tape.push(vec![]);
            }
        }
        5 => {
            let count = (Model::MAX_BLOCKS - random.number(0, 20)) as usize;
            while model.blocks.len() < count {
                model.blocks.push(Block::Terminate { amount: 1 });
            }
        }
        _ => model.counter = most(random, Model::MAX_COUNTER),
    }
}

/// A model without the clock term, of some sort or other, with its tape.
pub fn clockless(rules: Rules, random: &mut Random) -> (Model, Tape) {
    loop {
        let case: Case = case_with(rules, random, Size::Short);
        let Ok(mut model) = decode_model_with(rules, &case.model) else {
            continue;
        };
        let Ok(tape) = decode_tape_with(rules, &case.tape, model.lists) else {
            continue;
        };
        model.counter = Model::MAX_COUNTER / 2;
        without_clock(&mut model);
        return (model, tape);
    }
}

fn without_clock(model: &mut Model) {
    model.values.iter_mut().for_each(sum_without_clock);
    for block in &mut model.blocks {
        match block {
            Block::WaitIfComparison { comparison } | Block::If { comparison, .. } => {
                comparison_without_clock(comparison);
            }
            Block::Let { term, .. } => term_without_clock(term),
            _ => {}
        }
    }
}

fn sum_without_clock(sum: &mut Sum) {
    let terms = sum.parts.iter_mut().map(|part| &mut part.term);
    terms.for_each(term_without_clock);
}

fn comparison_without_clock(comparison: &mut Comparison) {
    term_without_clock(&mut comparison.left);
    term_without_clock(&mut comparison.right);
}

fn term_without_clock(term: &mut Term) {
    match term {
        Term::Clock => *term = Term::Constant(2),
        Term::Comparison(comparison) => comparison_without_clock(comparison),
        Term::Bracket(sum) => sum_without_clock(sum),
        _ => {}
    }
}
