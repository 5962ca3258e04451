//! Cases that the two editions run differently (02, item 12).

use super::contention::{empty_model, small_times};
use super::random::Random;
use super::{good_case, Case, Size};
use crate::model::{Block, Model};
use crate::rules::Rules;
use crate::tape::Tape;

/// Mostly of edition 2.
pub fn case(rules: Rules, random: &mut Random, size: Size) -> Case {
    let (mut model, tape) = match random.below(5) {
        0 => returners(random, size),
        1..=2 => broken_order(random, size),
        _ => parcels(random, size),
    };
    if !random.one_in(4) {
        model.edition = rules.highest_edition;
    }
    good_case(rules, random, size, &model, &tape)
}

/// A facility, a storage or a status given back several times within one tick,
/// so that several are woken and find it taken again.
fn returners(random: &mut Random, size: Size) -> (Model, Tape) {
    let mut model = empty_model();
    model.facilities = 1;
    model.capacities = vec![random.number(1, 2)];
    model.lists = 3;
    let facility = 1;
    let storage = 1;
    let units = model.capacities[0];
    let (take, give) = match random.below(3) {
        0 => (
            Block::Enter { storage, units },
            Block::Leave { storage, units },
        ),
        _ => (Block::Seize { facility }, Block::Release { facility }),
    };
    let mut blocks = vec![
        Block::Generate {
            list: 1,
            priority: random.number(1, 3),
        },
        take.clone(),
        Block::Advance { list: 3 },
    ];
    for _ in 0..random.number(1, if size.is_small() { 2 } else { 4 }) {
        blocks.extend([give.clone(), take.clone()]);
    }
    blocks.push(Block::Advance { list: 3 });
    blocks.push(give.clone());
    blocks.push(Block::Terminate { amount: 1 });
    blocks.push(Block::Generate {
        list: 2,
        priority: random.number(0, 3),
    });
    blocks.push(Block::Split {
        copies: random.number(1, 4),
        target: blocks.len() as u32 + 2,
    });
    // Copies of different priorities now and then.
    if random.one_in(2) {
        blocks.push(Block::Priority {
            priority: random.number(0, 3),
        });
    }
    blocks.push(match random.below(4) {
        0 => Block::WaitIfStatus {
            code: random.number(1, 6),
            server: 1,
        },
        _ => take,
    });
    if matches!(
        blocks.last(),
        Some(Block::Seize { .. } | Block::Enter { .. })
    ) {
        blocks.push(Block::Advance { list: 3 });
        blocks.push(give);
    }
    blocks.push(Block::Terminate { amount: 1 });
    model.blocks = blocks;
    let count = if size.is_small() { 6 } else { 40 };
    let span = random.number(0, 4);
    let tape = vec![
        small_times(random, count, span + 2),
        small_times(random, count, span),
        small_times(random, count * 8, span),
    ];
    (model, tape)
}

/// A facility given back several times within one tick, and waiters of several
/// priorities for it or for its status: who is put back breaks the order, and
/// others come behind.
fn broken_order(random: &mut Random, size: Size) -> (Model, Tape) {
    let mut model = empty_model();
    model.facilities = 1;
    model.lists = 5;
    let facility = 1;
    let advance = Block::Advance { list: 5 };
    let pulses = random.number(1, if size.is_small() { 2 } else { 4 });
    let mut blocks = vec![
        Block::Generate {
            list: 1,
            priority: 3,
        },
        Block::Seize { facility },
        advance.clone(),
    ];
    for _ in 0..pulses {
        blocks.extend([Block::Release { facility }, Block::Seize { facility }]);
    }
    blocks.extend([
        advance.clone(),
        Block::Release { facility },
        Block::Terminate { amount: 1 },
    ]);
    let sorts = if size.is_small() && pulses > 1 { 2 } else { 3 };
    let line = blocks.len() as u32 + 2 * sorts;
    for sort in 0..sorts {
        blocks.push(Block::Generate {
            list: 2 + sort,
            priority: random.number(0, 2),
        });
        if sort + 1 < sorts {
            blocks.push(Block::Goto { target: line });
        }
    }
    if random.one_in(2) {
        blocks.extend([
            Block::Seize { facility },
            advance,
            Block::Release { facility },
        ]);
    } else {
        let code = random.number(1, 2);
        blocks.push(Block::WaitIfStatus { code, server: 1 });
    }
    blocks.push(Block::Terminate { amount: 1 });
    model.blocks = blocks;
    let count = if size.is_small() { 8 } else { 40 };
    let span = random.number(0, 3);
    let mut tape = vec![small_times(random, count / 2, span + 2)];
    for _ in 0..3 {
        tape.push(small_times(random, count, span));
    }
    tape.push(small_times(random, count * 8, span));
    (model, tape)
}

/// One storage; parcels of several sizes come and go, in parts at times.
fn parcels(random: &mut Random, size: Size) -> (Model, Tape) {
    let mut model = empty_model();
    let capacity = random.number(2, 6);
    model.capacities = vec![capacity];
    model.lists = 3;
    let storage = 1;
    // All of one unit: case a of the 1996 rules.
    let most = if random.one_in(4) { 1 } else { capacity };
    // Taken one by one and left two at a time: case b, and no ENTER tells it.
    let together = most == 1 && random.one_in(2);
    // The first sort takes all and the others little: a LEAVE wakes several.
    let unequal = random.one_in(3);
    let mut blocks = Vec::new();
    let sorts = random.number(2, if size.is_small() { 3 } else { 4 });
    for sort in 0..sorts {
        let units = match sort {
            0 if unequal => most,
            _ if unequal => random.number(1, most.min(2)),
            _ => random.number(1, most),
        };
        blocks.push(Block::Generate {
            list: random.number(1, 2),
            priority: random.number(0, 2),
        });
        blocks.push(Block::Enter { storage, units });
        if together {
            blocks.push(Block::Enter { storage, units });
        }
        blocks.push(Block::Advance { list: 3 });
        let in_parts = sorts < 3 || !size.is_small();
        let part = if in_parts {
            random.number(0, units - 1)
        } else {
            0
        };
        if part > 0 {
            blocks.push(Block::Leave {
                storage,
                units: part,
            });
            if random.one_in(2) {
                blocks.push(Block::Advance { list: 3 });
            }
        }
        blocks.push(Block::Leave {
            storage,
            units: units - part + u32::from(together),
        });
        blocks.push(Block::Terminate { amount: 1 });
    }
    model.blocks = blocks;
    let count = if size.is_small() { 12 } else { 60 };
    let span = random.number(0, 4);
    let tape = vec![
        small_times(random, count, span),
        small_times(random, count, span),
        small_times(random, count * 6, span + 2),
    ];
    (model, tape)
}
