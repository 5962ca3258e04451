//! Accepted cases at the limits.

use super::contention::{contention, empty_model, gates, pulses, small_times};
use super::fields::{encode_model, encode_tape};
use super::random::Random;
use super::scenes::{carried, last_turn};
use super::structured::model_and_tape;
use super::sums::{long_value, Scope};
use super::{good_case, Case, Size};
use crate::model::{Block, Comparison, Model, Part, Sum, Term};
use crate::report::REPORT_BYTES;
use crate::rules::Rules;
use crate::run::WORK_NUMBERS;

pub fn case(rules: Rules, random: &mut Random, size: Size) -> Case {
    let clock = size == Size::Full || (size == Size::Small && random.one_in(3));
    let (model, tape) = match random.below(30) {
        0..=4 => contention(random, size),
        5..=6 => carried(random, size),
        7..=9 => gates(random, size),
        10..=13 => pulses(random, size),
        14..=16 => last_turn(random),
        17..=19 => return ties(rules, random, size),
        20..=22 => return extremes(rules, random, size),
        23..=25 => return crowd(rules, random, size),
        26 if clock => return last_clock(rules, random, size),
        27 if size == Size::Full => return long_list(rules, random),
        28 if size == Size::Full => return most_of_everything(rules, random, size),
        29 if size == Size::Full && random.one_in(4) => return crowded_last_clock(rules, random),
        _ => pulses(random, size),
    };
    good_case(rules, random, size, &model, &tape)
}

/// Everything at the same time: the order is all.
fn ties(rules: Rules, random: &mut Random, size: Size) -> Case {
    let (mut model, tape) = model_and_tape(rules, random, size);
    for block in &mut model.blocks {
        if let Block::Generate { priority, .. } = block {
            *priority = random.number(0, 2);
        }
    }
    let time = random.between(0, 2);
    let tape = tape
        .iter()
        .map(|list| list.iter().map(|t| time * (t % 2)).collect())
        .collect();
    good_case(rules, random, size, &model, &tape)
}

/// The largest operands, and sums that wrap.
fn extremes(rules: Rules, random: &mut Random, size: Size) -> Case {
    let (mut model, tape) = model_and_tape(rules, random, size);
    let large = |random: &mut Random| {
        if random.one_in(2) {
            Term::Constant(Model::MAX_CONSTANT)
        } else {
            Term::MinusConstant(Model::MAX_CONSTANT)
        }
    };
    if let Some(sum) = model.values.last_mut() {
        let mut terms = vec![Term::Parameter(1), large(random), large(random)];
        terms.push(Term::Constant(random.number(0, 3)));
        let parts = terms.into_iter().map(|term| Part {
            minus: random.one_in(3),
            term,
        });
        *sum = Sum {
            parts: parts.collect(),
        };
    }
    let wrapping = Term::Value(model.values.len() as u32);
    for block in &mut model.blocks {
        match block {
            Block::Let { term, .. } if random.one_in(2) => *term = large(random),
            Block::If { comparison, .. } | Block::WaitIfComparison { comparison }
                if !model.values.is_empty() && random.one_in(2) =>
            {
                comparison.left = wrapping.clone();
            }
            Block::Priority { priority } => *priority = *random.pick(&[0, 127]),
            Block::Terminate { amount } if random.one_in(3) => {
                *amount = *random.pick(&[0, 1, Model::MAX_TERMINATE]);
            }
            _ => {}
        }
    }
    model.counter = *random.pick(&[1, 2, Model::MAX_COUNTER]);
    good_case(rules, random, size, &model, &tape)
}

/// Near 1,024 living: the last place, or one too many.
fn crowd(rules: Rules, random: &mut Random, size: Size) -> Case {
    let mut model = empty_model();
    model.facilities = 1;
    model.capacities = vec![2];
    model.queues = 1;
    model.lists = 2;
    let wait = match random.below(5) {
        0 => Block::Seize { facility: 1 },
        1 => Block::Enter {
            storage: 1,
            units: 2,
        },
        2 => Block::WaitIfStatus { code: 3, server: 1 },
        3 => Block::WaitIfComparison {
            comparison: Comparison {
                left: Term::Content(1),
                relation: 3,
                right: Term::Constant(random.number(1, 40)),
            },
        },
        _ => Block::Arrive { queue: 1 },
    };
    let mut blocks = vec![Block::Generate {
        list: 1,
        priority: 3,
    }];
    let mut splits = vec![255, 255, 255, 255, random.number(1, 4)];
    if random.one_in(2) {
        splits.push(1);
    }
    let target = splits.len() as u32 + 3;
    for copies in splits {
        blocks.push(Block::Split { copies, target });
    }
    blocks.push(Block::Priority { priority: 0 });
    blocks.push(Block::Arrive { queue: 1 });
    blocks.push(wait);
    blocks.push(Block::Arrive { queue: 1 });
    blocks.push(Block::Terminate { amount: 1 });
    // Another comes at the same time: its list has a time left or is spent.
    blocks.push(Block::Generate {
        list: 2,
        priority: 3,
    });
    blocks.push(Block::Terminate { amount: 1 });
    model.blocks = blocks;
    let tape = vec![
        vec![1; random.number(1, 3) as usize],
        vec![1; random.number(0, 2) as usize],
    ];
    let mut case = good_case(rules, random, size, &model, &tape);
    if size == Size::Full {
        case.budget = random.between(5, 3_000);
        case.trace_len = 30_000;
    }
    case
}

/// Up to the last clock and just past it (end 22), by ADVANCE or, in
/// full cases, by GENERATE.
pub fn last_clock(rules: Rules, random: &mut Random, size: Size) -> Case {
    let mut model = empty_model();
    model.lists = 2;
    model.blocks = vec![Block::Generate {
        list: 1,
        priority: 0,
    }];
    // The sum is the last clock or nearly so; then 0, 1 or a large one more.
    let most = rules.max_sample();
    let first = *random.pick(&[1, most / 2, most - 1, most]);
    let rest = most - first;
    let mut times = vec![most; (rules.max_clock() / most) as usize - 1];
    if rules.max_clock() % most > 0 {
        times.push(rules.max_clock() % most);
    }
    times.push(rest - u64::from(rest > 0 && random.one_in(3)));
    times.push(*random.pick(&[0, 1, most]));
    times.push(random.between(0, 1));
    let mut arrivals = vec![first];
    if size == Size::Full && random.one_in(2) {
        arrivals.append(&mut times);
        model.blocks.push(Block::Terminate { amount: 1 });
    } else {
        if random.one_in(2) {
            arrivals.push(random.between(0, most));
        }
        for _ in 0..12 {
            model.blocks.push(Block::Advance { list: 2 });
        }
        model.blocks.push(Block::Goto { target: 2 });
    }
    Case {
        model: encode_model(&model),
        tape: encode_tape(&vec![arrivals, times]),
        budget: 5_000,
        work_len: WORK_NUMBERS,
        trace_len: 65_536,
        report_len: REPORT_BYTES,
    }
}

/// 1,024 living at the last clock: 21 is asked before 22.
pub fn crowded_last_clock(rules: Rules, random: &mut Random) -> Case {
    let mut model = empty_model();
    model.lists = 2;
    let target = 10;
    model.blocks = vec![
        Block::Generate {
            list: 1,
            priority: 1,
        },
        Block::If {
            comparison: Comparison {
                left: Term::Clock,
                relation: if rules.wide_clocks { 2 } else { 3 },
                right: Term::Constant(rules.max_clock() as u32),
            },
            target,
        },
    ];
    for copies in [255, 255, 255, 255, random.number(1, 3)] {
        model.blocks.push(Block::Split { copies, target });
    }
    model.blocks.push(Block::Priority { priority: 0 });
    model.blocks.push(Block::Goto { target });
    model.blocks.push(Block::Terminate { amount: 1 });
    // It comes after the original and before the copies.
    model.blocks.push(Block::Generate {
        list: 2,
        priority: 1,
    });
    model.blocks.push(Block::Terminate { amount: 1 });
    let steps = to_last_clock(rules);
    let mut other = steps.clone();
    other.push(random.between(0, 1));
    Case {
        model: encode_model(&model),
        tape: encode_tape(&vec![steps, other]),
        budget: 20_000,
        work_len: WORK_NUMBERS,
        trace_len: 120_000,
        report_len: REPORT_BYTES,
    }
}

/// Times whose sum is the last clock.
pub fn to_last_clock(rules: Rules) -> Vec<u64> {
    let most = rules.max_sample();
    let mut steps = vec![most; (rules.max_clock() / most) as usize];
    if rules.max_clock() % most > 0 {
        steps.push(rules.max_clock() % most);
    }
    steps
}

/// A list of 65,535 times.
fn long_list(rules: Rules, random: &mut Random) -> Case {
    let (mut model, mut tape) = model_and_tape(rules, random, Size::Full);
    model.counter = Model::MAX_COUNTER;
    let at = random.below(tape.len() as u64) as usize;
    let count = *random.pick(&[5_000, 65_535]);
    tape[at] = small_times(random, count, 3);
    good_case(rules, random, Size::Full, &model, &tape)
}

/// 256 blocks, 32 of each server and queue, 8 long values, 16 lists.
fn most_of_everything(rules: Rules, random: &mut Random, size: Size) -> Case {
    let (mut model, mut tape) = model_and_tape(rules, random, size);
    model.facilities = Model::MAX_FACILITIES;
    while model.capacities.len() < Model::MAX_STORAGES as usize {
        model.capacities.push(random.number(1, 3));
    }
    model.queues = Model::MAX_QUEUES;
    while model.lists < Model::MAX_LISTS {
        model.lists += 1;
        tape.push(small_times(random, 30, 5));
    }
    let own = model.blocks.clone();
    while model.blocks.len() + own.len() <= Model::MAX_BLOCKS as usize {
        model.blocks.extend(own.iter().cloned());
    }
    while model.blocks.len() < Model::MAX_BLOCKS as usize {
        model.blocks.push(Block::Terminate { amount: 1 });
    }
    while model.values.len() < Model::MAX_VALUES as usize {
        let scope = Scope {
            facilities: model.facilities,
            storages: model.capacities.len() as u32,
            queues: model.queues,
            values: model.values.len() as u32,
            blocks: Model::MAX_BLOCKS,
            span: 100,
        };
        let sum = long_value(random, &scope, false);
        model.values.push(sum);
    }
    let server = random.number(1, 32);
    for block in &mut model.blocks {
        match block {
            Block::Seize { facility } | Block::Release { facility } if random.one_in(3) => {
                *facility = server;
            }
            Block::WaitIfComparison { comparison } if random.one_in(2) => {
                comparison.left = Term::Value(Model::MAX_VALUES);
            }
            _ => {}
        }
    }
    good_case(rules, random, size, &model, &tape)
}
