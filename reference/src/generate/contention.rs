//! Models of heavy contention and of many wakings.

use super::random::Random;
use super::Size;
use crate::model::{Block, Comparison, Model, Term};
use crate::tape::Tape;

pub fn empty_model() -> Model {
    Model {
        edition: Model::FIRST_EDITION,
        facilities: 0,
        capacities: Vec::new(),
        queues: 0,
        values: Vec::new(),
        lists: 0,
        counter: Model::MAX_COUNTER,
        blocks: Vec::new(),
    }
}

pub fn small_times(random: &mut Random, count: u64, span: u32) -> Vec<u64> {
    let span = u64::from(span);
    (0..count).map(|_| random.between(0, span)).collect()
}

/// Several copies that take and give back the same servers in a ring.
pub fn contention(random: &mut Random, size: Size) -> (Model, Tape) {
    let mut model = empty_model();
    model.facilities = 1;
    model.capacities = vec![random.number(2, 4)];
    model.lists = 2;
    let capacity = model.capacities[0];
    let copies = random.number(2, 7);
    let mut blocks = vec![
        Block::Generate {
            list: 1,
            priority: random.number(0, 2),
        },
        Block::Split { copies, target: 3 },
    ];
    let rounds = random.number(2, if size.is_small() { 3 } else { 8 });
    for _ in 0..rounds {
        if random.one_in(3) {
            blocks.push(Block::Priority {
                priority: random.number(0, 2),
            });
        }
        let advance = Block::Advance { list: 2 };
        let (take, give) = if random.one_in(2) {
            let facility = 1;
            (Block::Seize { facility }, Block::Release { facility })
        } else {
            let units = random.number(1, capacity);
            let storage = 1;
            (
                Block::Enter { storage, units },
                Block::Leave { storage, units },
            )
        };
        blocks.push(take);
        if !random.one_in(6) {
            blocks.push(advance.clone());
        }
        blocks.push(give);
    }
    if size.is_small() {
        blocks.truncate(13);
    }
    let target = random.number(3, blocks.len() as u32);
    blocks.push(if random.one_in(3) {
        Block::Terminate { amount: 1 }
    } else {
        Block::Goto { target }
    });
    model.blocks = blocks;
    let delays = if size.is_small() { 80 } else { 800 };
    let span = random.number(0, 4);
    let tape = vec![small_times(random, 6, 8), small_times(random, delays, span)];
    (model, tape)
}

/// Waits on statuses and comparisons over one storage and one facility.
pub fn gates(random: &mut Random, size: Size) -> (Model, Tape) {
    let mut model = empty_model();
    model.facilities = 1;
    model.capacities = vec![random.number(1, 3)];
    model.queues = 1;
    model.lists = 3;
    let capacity = model.capacities[0];
    let units = random.number(1, capacity);
    let mut blocks = vec![
        Block::Generate {
            list: 1,
            priority: random.number(0, 1),
        },
        Block::Enter { storage: 1, units },
        Block::Seize { facility: 1 },
        Block::Advance { list: 3 },
        Block::Release { facility: 1 },
        Block::Leave { storage: 1, units },
        Block::Terminate { amount: 0 },
    ];
    let first = blocks.len() as u32 + 1;
    blocks.push(Block::Generate {
        list: 2,
        priority: random.number(0, 2),
    });
    for _ in 0..random.number(1, if size.is_small() { 4 } else { 9 }) {
        let code = random.number(1, 6);
        blocks.push(match random.below(8) {
            0..=3 => Block::WaitIfStatus { code, server: 1 },
            4 => Block::Arrive { queue: 1 },
            5 => Block::WaitIfComparison {
                comparison: Comparison {
                    left: Term::Content(1),
                    relation: random.number(1, 6),
                    right: Term::Constant(random.number(0, 3)),
                },
            },
            6 => Block::WaitIfComparison {
                comparison: Comparison {
                    left: Term::UnitsFree(1),
                    relation: random.number(1, 6),
                    right: Term::Constant(random.number(0, 2)),
                },
            },
            _ => Block::Split {
                copies: random.number(1, 3),
                target: blocks.len() as u32 + 2,
            },
        });
    }
    blocks.push(if random.one_in(3) {
        Block::Goto {
            target: random.number(first + 1, blocks.len() as u32 + 1),
        }
    } else {
        Block::Terminate { amount: 1 }
    });
    model.blocks = blocks;
    let count = if size.is_small() { 12 } else { 60 };
    let span = random.number(1, 6);
    let tape = vec![
        small_times(random, count, span),
        small_times(random, count, span),
        small_times(random, count * 3, span),
    ];
    (model, tape)
}

/// A storage and a facility taken and given back many times within one tick,
/// and several waiters on their statuses.
pub fn pulses(random: &mut Random, size: Size) -> (Model, Tape) {
    let mut model = empty_model();
    model.facilities = 1;
    model.capacities = vec![random.number(2, 3)];
    model.lists = 3;
    let capacity = model.capacities[0];
    let mut blocks = vec![Block::Generate {
        list: 1,
        priority: random.number(0, 3),
    }];
    let mut units = 0;
    let mut seized = false;
    for _ in 0..random.number(2, if size.is_small() { 4 } else { 12 }) {
        let storage = 1;
        blocks.push(match random.below(8) {
            0..=2 if units < capacity => {
                let more = random.number(1, capacity - units);
                units += more;
                let units = more;
                Block::Enter { storage, units }
            }
            3..=4 if units > 0 => {
                let less = random.number(1, units);
                units -= less;
                let units = less;
                Block::Leave { storage, units }
            }
            5 if seized => {
                seized = false;
                Block::Release { facility: 1 }
            }
            5 => {
                seized = true;
                Block::Seize { facility: 1 }
            }
            6 => Block::Advance { list: 3 },
            _ => Block::Priority {
                priority: random.number(0, 3),
            },
        });
    }
    if units > 0 && !random.one_in(4) {
        blocks.push(Block::Leave { storage: 1, units });
    }
    if seized && !random.one_in(4) {
        blocks.push(Block::Release { facility: 1 });
    }
    blocks.push(Block::Terminate { amount: 0 });
    blocks.push(Block::Generate {
        list: 2,
        priority: random.number(0, 3),
    });
    blocks.push(Block::Split {
        copies: random.number(1, 5),
        target: blocks.len() as u32 + 2,
    });
    let first = blocks.len() as u32 + 1;
    let only = random.number(1, 6);
    for _ in 0..random.number(1, if size.is_small() { 2 } else { 4 }) {
        let code = if random.one_in(2) {
            only
        } else {
            random.number(1, 6)
        };
        blocks.push(Block::WaitIfStatus { code, server: 1 });
    }
    if random.one_in(2) {
        blocks.push(Block::Advance { list: 3 });
    }
    blocks.push(if random.one_in(3) {
        Block::Terminate { amount: 1 }
    } else {
        Block::Goto { target: first }
    });
    model.blocks = blocks;
    let count = if size.is_small() { 12 } else { 60 };
    let span = random.number(0, 3);
    let tape = vec![
        small_times(random, count, span + 1),
        small_times(random, 4, span),
        small_times(random, count * 4, span),
    ];
    (model, tape)
}
