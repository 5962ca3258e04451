//! Random models that do something: arrivals, servers, waits, loops.

use super::pieces::Parts;
use super::random::Random;
use super::sums::{step, value, Scope};
use super::tapes::{arrivals, delays, span, times};
use super::targets::resolve;
use super::Size;
use crate::model::{Block, Model, Sum, Term};
use crate::rules::Rules;
use crate::tape::Tape;

/// A model that passes questions 3 to 7, and a tape that fits it.
pub fn model_and_tape(rules: Rules, random: &mut Random, size: Size) -> (Model, Tape) {
    let span = span(random);
    let mut model = resources(random, size);
    let limit = block_limit(random, size);
    let values = match random.below(6) {
        0 => 0,
        1..=4 => random.number(1, 3),
        _ => random.number(1, Model::MAX_VALUES),
    };
    let scope = Scope {
        facilities: model.facilities,
        storages: model.capacities.len() as u32,
        queues: model.queues,
        values,
        blocks: limit,
        span: span * 20,
    };
    // The first value, if there is one, often counts a parameter up.
    let first = (values > 0 && random.percent(70)).then(|| step(random));
    let roles = roles(random, model.lists);
    let step_value = first.as_ref().map(|sum| (1, step_parameter(sum)));
    let (mut blocks, segments) = lay_out(rules, random, &model, scope, &roles, step_value, limit);
    resolve(random, &mut blocks, &segments);
    let scope = Scope {
        blocks: blocks.len() as u32,
        ..scope
    };
    for number in 1..=values {
        let lower = Scope {
            values: number - 1,
            ..scope
        };
        let sum = match &first {
            Some(sum) if number == 1 => sum.clone(),
            _ => value(random, &lower),
        };
        model.values.push(sum);
    }
    model.blocks = blocks;
    let tape = roles
        .iter()
        .map(|role| {
            let count = match role {
                Role::Arrivals => arrivals(random, size),
                Role::Delays => delays(random, size),
            };
            times(rules, random, count, span)
        })
        .collect();
    (model, tape)
}

/// What a list is mostly for.
#[derive(Clone, Copy, PartialEq, Eq)]
enum Role {
    Arrivals,
    Delays,
}

fn roles(random: &mut Random, lists: u32) -> Vec<Role> {
    let arrivals = random.number(1, lists);
    (1..=lists)
        .map(|list| {
            if list <= arrivals && (list < lists || lists == 1) {
                Role::Arrivals
            } else {
                Role::Delays
            }
        })
        .collect()
}

fn step_parameter(sum: &Sum) -> u32 {
    match sum.parts.first().map(|part| &part.term) {
        Some(Term::Parameter(number)) => *number,
        _ => 1,
    }
}

fn resources(random: &mut Random, size: Size) -> Model {
    let many = !size.is_small() && random.one_in(15);
    let most = if many { 32 } else { 3 };
    let storages = random.number(0, most);
    let capacities = (0..storages)
        .map(|_| match random.below(12) {
            0 => random.number(1, Model::MAX_CAPACITY),
            1 => Model::MAX_CAPACITY,
            2..=3 => random.number(4, 9),
            _ => random.number(1, 3),
        })
        .collect();
    Model {
        edition: Model::FIRST_EDITION,
        facilities: random.number(0, most),
        capacities,
        queues: random.number(0, most),
        values: Vec::new(),
        lists: match random.below(20) {
            0 => 1,
            1 => random.number(1, Model::MAX_LISTS),
            _ => random.number(2, 4),
        },
        counter: match random.below(12) {
            0 => random.number(1, 3),
            1 => random.number(3, 30),
            2..=4 => random.number(30, 300),
            5 => Model::MAX_COUNTER,
            _ => random.number(300, Model::MAX_COUNTER),
        },
        blocks: Vec::new(),
    }
}

fn block_limit(random: &mut Random, size: Size) -> u32 {
    if size.is_small() {
        return random.number(5, 14);
    }
    match random.below(12) {
        0 => random.number(2, 8),
        1..=8 => random.number(8, 40),
        9..=10 => random.number(40, 100),
        _ => random.number(100, Model::MAX_BLOCKS),
    }
}

/// Segments of blocks, each begun by a GENERATE or reached by a target, each
/// ended by TERMINATE or GOTO.
fn lay_out(
    rules: Rules,
    random: &mut Random,
    model: &Model,
    scope: Scope,
    roles: &[Role],
    step_value: Option<(u32, u32)>,
    limit: u32,
) -> (Vec<Block>, Vec<(u32, u32)>) {
    let lists_of = |role: Role| -> Vec<u32> {
        (1..=roles.len() as u32)
            .filter(|list| roles[*list as usize - 1] == role)
            .collect()
    };
    let arrival_lists = lists_of(Role::Arrivals);
    let mut advance_lists = lists_of(Role::Delays);
    if advance_lists.is_empty() {
        advance_lists = arrival_lists.clone();
    }
    let priorities = match random.below(4) {
        0 => vec![0],
        1 => vec![0, 1],
        2 => vec![1, 5, 127],
        _ => (0..4).map(|_| random.number(0, 127)).collect(),
    };
    let mut blocks: Vec<Block> = Vec::new();
    let mut segments = Vec::new();
    while segments.is_empty() || (blocks.len() as u32) + 4 < limit {
        let first = blocks.len() as u32 + 1;
        let room = limit - blocks.len() as u32;
        let length = random.number(2.min(room), room.min(16)) as usize;
        let mut parts = Parts {
            rules,
            random,
            model,
            scope,
            advance_lists: advance_lists.clone(),
            priorities: priorities.clone(),
            step_value,
        };
        blocks.extend(segment(&mut parts, &arrival_lists, length, first == 1));
        segments.push((first, blocks.len() as u32));
    }
    (blocks, segments)
}

/// One segment of about `length` blocks.
fn segment(parts: &mut Parts, arrival_lists: &[u32], length: usize, first: bool) -> Vec<Block> {
    let mut blocks = Vec::new();
    if first || parts.random.percent(75) {
        let any = parts.random.number(1, parts.model.lists);
        let usual = *parts.random.pick(arrival_lists);
        blocks.push(Block::Generate {
            list: if parts.random.one_in(12) { any } else { usual },
            priority: parts.priority(),
        });
        // Something of its own to carry along.
        if parts.random.percent(35) {
            blocks.push(parts.set_parameter());
        }
    }
    while blocks.len() + 1 < length {
        let piece = parts.piece(2);
        if blocks.len() + piece.len() + 1 > length && blocks.len() > 1 {
            break;
        }
        blocks.extend(piece);
    }
    blocks.truncate(length.max(2) - 1);
    let ends = match parts.random.below(20) {
        0..=2 => Block::Goto { target: 1 },
        3..=4 => Block::Terminate { amount: 0 },
        5 if parts.random.one_in(4) => Block::Terminate {
            amount: parts.random.number(0, Model::MAX_TERMINATE),
        },
        _ => Block::Terminate { amount: 1 },
    };
    blocks.push(ends);
    blocks
}
