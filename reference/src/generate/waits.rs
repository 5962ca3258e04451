//! Cases about waits on comparisons: several wait at a few blocks, on values that name lower ones, entries, the clock and
//! parameters, while others change what these read.

use super::contention::{empty_model, small_times};
use super::random::Random;
use super::sums::{comparison, state_term, value, within_limits, Scope};
use super::{good_case, Case, Size};
use crate::model::{Block, Comparison, Model, Part, Sum, Term};
use crate::rules::Rules;

/// Block numbers in terms go to this, and the models have as many blocks at least.
const BLOCKS: u32 = 18;

pub fn case(rules: Rules, random: &mut Random, size: Size) -> Case {
    let mut model = empty_model();
    model.facilities = random.number(1, 2);
    model.capacities = vec![random.number(1, 3), random.number(1, 2)];
    model.queues = random.number(1, 2);
    model.lists = 3;
    let mut scope = Scope {
        facilities: model.facilities,
        storages: model.capacities.len() as u32,
        queues: model.queues,
        values: 0,
        blocks: BLOCKS,
        span: 30,
    };
    for _ in 0..random.number(2, Model::MAX_VALUES) {
        model.values.push(layered(random, &scope));
        scope.values += 1;
    }
    changers(random, &mut model, &scope);
    waiters(random, &mut model, &scope);
    while (model.blocks.len() as u32) < BLOCKS {
        model.blocks.push(Block::Terminate { amount: 0 });
    }
    let count = if size.is_small() { 4 } else { 12 };
    let delays = if size.is_small() { 80 } else { 800 };
    let span = random.number(0, 4);
    let tape = vec![
        small_times(random, 3, 3),
        small_times(random, count, 6),
        small_times(random, delays, span),
    ];
    good_case(rules, random, size, &model, &tape)
}

/// A value that mostly names a lower one.
fn layered(random: &mut Random, scope: &Scope) -> Sum {
    if random.one_in(3) {
        return value(random, scope);
    }
    let mut terms = Vec::new();
    if scope.values > 0 && !random.one_in(4) {
        terms.push(Term::Value(lower(random, scope)));
    }
    terms.push(match random.below(12) {
        0 => Term::Clock,
        1..=2 => Term::Parameter(random.number(1, 2)),
        _ => state_term(random, scope),
    });
    if random.one_in(3) {
        terms.push(Term::Comparison(Box::new(comparison(random, scope))));
    }
    let parts = terms.into_iter().map(|term| Part {
        minus: random.one_in(4),
        term,
    });
    let sum = Sum {
        parts: parts.collect(),
    };
    if within_limits(&sum) {
        return sum;
    }
    value(random, scope)
}

/// The highest value that may be named, or any.
fn lower(random: &mut Random, scope: &Scope) -> u32 {
    if random.one_in(2) {
        return scope.values;
    }
    random.number(1, scope.values)
}

/// What one waits on: mostly a value.
fn waited(random: &mut Random, scope: &Scope) -> Block {
    let left = Term::Value(lower(random, scope));
    let right = match random.below(10) {
        0..=3 => Term::Constant(random.number(0, 6)),
        4..=6 => Term::Parameter(random.number(1, 2)),
        7 => Term::Value(lower(random, scope)),
        8 => Term::Clock,
        _ => {
            let comparison = comparison(random, scope);
            return Block::WaitIfComparison { comparison };
        }
    };
    let relation = random.number(1, 6);
    let (left, right) = if random.one_in(4) {
        (right, left)
    } else {
        (left, right)
    };
    Block::WaitIfComparison {
        comparison: Comparison {
            left,
            relation,
            right,
        },
    }
}

/// A parameter by which those at one block differ.
fn marked(random: &mut Random, at: u32) -> Block {
    let term = match random.below(4) {
        0 => Term::Clock,
        1 => Term::Constant(random.number(0, 6)),
        _ => Term::Entries(at),
    };
    Block::Let {
        parameter: random.number(1, 2),
        term,
    }
}

/// Those who go round and change servers, queues, entries and the clock.
fn changers(random: &mut Random, model: &mut Model, scope: &Scope) {
    let list = 3;
    let priority = random.number(0, 2);
    model.blocks.push(Block::Generate { list: 1, priority });
    let first = model.blocks.len() as u32 + 1;
    model.blocks.push(Block::Advance { list });
    for _ in 0..random.number(1, 3) {
        let facility = random.number(1, scope.facilities);
        let queue = random.number(1, scope.queues);
        let storage = random.number(1, scope.storages);
        match random.below(7) {
            0..=1 => model.blocks.extend([
                Block::Seize { facility },
                Block::Advance { list },
                Block::Release { facility },
            ]),
            2..=3 => model.blocks.extend([
                Block::Enter { storage, units: 1 },
                Block::Advance { list },
                Block::Leave { storage, units: 1 },
            ]),
            4 => model.blocks.push(Block::Arrive { queue }),
            5 => model.blocks.extend([
                Block::Arrive { queue },
                Block::Advance { list },
                Block::Depart { queue },
            ]),
            _ => model.blocks.push(Block::Priority {
                priority: random.number(0, 2),
            }),
        }
    }
    model.blocks.push(Block::Goto { target: first });
}

/// Those who wait: several at each block, and some go back to it.
fn waiters(random: &mut Random, model: &mut Model, scope: &Scope) {
    let priority = random.number(0, 2);
    model.blocks.push(Block::Generate { list: 2, priority });
    let target = model.blocks.len() as u32 + 2;
    let copies = random.number(1, 5);
    model.blocks.push(Block::Split { copies, target });
    model.blocks.push(marked(random, target));
    let first = model.blocks.len() as u32 + 1;
    model.blocks.push(waited(random, scope));
    for _ in 0..random.number(0, 2) {
        let queue = random.number(1, scope.queues);
        let between = match random.below(4) {
            0 => Block::Arrive { queue },
            1 => marked(random, first),
            2 => Block::Priority {
                priority: random.number(0, 2),
            },
            _ => Block::Advance { list: 3 },
        };
        model.blocks.push(between);
        model.blocks.push(waited(random, scope));
    }
    model.blocks.push(if random.one_in(2) {
        Block::Goto { target: first }
    } else {
        Block::Terminate { amount: 1 }
    });
}
