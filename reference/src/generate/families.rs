//! Cases about families that gather (02, item 8).

use super::contention::{empty_model, small_times};
use super::random::Random;
use super::{good_case, Case, Size};
use crate::model::{Block, Comparison, Model, Term};
use crate::rules::Rules;
use crate::tape::Tape;

pub fn case(rules: Rules, random: &mut Random, size: Size) -> Case {
    if random.one_in(8) {
        return crowd(rules, random, size);
    }
    let (mut model, tape) = match random.below(6) {
        0 => late_holder(random, size),
        1 => one_behind_the_other(random, size),
        _ => packing(random, size),
    };
    if random.one_in(30) {
        outside(random, &mut model);
    }
    good_case(rules, random, size, &model, &tape)
}

/// One ASSEMBLE whose n lies just outside its range.
fn outside(random: &mut Random, model: &mut Model) {
    let mut blocks = model.blocks.iter_mut();
    if let Some(Block::Assemble { count }) = blocks.find(|block| block.kind() == 18) {
        *count = *random.pick(&[0, 1, 1, 256]);
    }
}

/// Parcels split, go ways of their own and gather, once or at several blocks.
fn packing(random: &mut Random, size: Size) -> (Model, Tape) {
    let mut model = empty_model();
    model.facilities = 1;
    model.queues = 1;
    model.lists = 2;
    model.counter = *random.pick(&[3, 20, Model::MAX_COUNTER]);
    let count = *random.pick(&[2, 2, 2, 3, 3, 4, 5]);
    // Exactly n come, too few, twice n, or about that.
    let copies = match random.below(5) {
        0 => count - 1,
        1 => 2 * count - 1,
        2 => count,
        3 => random.number(1, 3 * count),
        _ => (count - 1).max(2) - 1,
    };
    let mut blocks = vec![Block::Generate {
        list: 1,
        priority: random.number(0, 2),
    }];
    let again = blocks.len() as u32 + 1;
    blocks.push(Block::Split {
        copies: copies.max(1),
        target: again + 1,
    });
    if random.one_in(4) {
        // Copies of copies.
        blocks.push(Block::Split {
            copies: random.number(1, 2),
            target: again + 2,
        });
    }
    if random.one_in(2) {
        blocks.push(Block::Advance { list: 2 });
    }
    if random.one_in(3) {
        blocks.push(Block::Priority {
            priority: random.number(0, 3),
        });
    }
    // Holders among those who come; mostly they have given back before.
    let seizes = random.one_in(3);
    let keeps = random.one_in(3);
    if seizes {
        blocks.push(Block::Seize { facility: 1 });
        if random.one_in(2) {
            blocks.push(Block::Advance { list: 2 });
        }
        if !keeps {
            blocks.push(Block::Release { facility: 1 });
        }
    }
    let gather = blocks.len() as u32 + 1;
    blocks.push(Block::Assemble { count });
    if seizes && keeps {
        blocks.push(Block::Release { facility: 1 });
    }
    if random.one_in(2) {
        // A second block gathers what is left of the family.
        if random.one_in(2) {
            blocks.push(Block::Split {
                copies: random.number(1, 3),
                target: blocks.len() as u32 + 2,
            });
        }
        blocks.push(Block::Arrive { queue: 1 });
        blocks.push(Block::Assemble {
            count: random.number(2, 3),
        });
    }
    if random.one_in(3) {
        // Round again, by the entries of the SPLIT or of the ASSEMBLE.
        let rounds = random.number(1, 6);
        let counted = if rounds % 2 == 0 { again } else { gather };
        blocks.push(Block::If {
            comparison: Comparison {
                left: Term::Entries(counted),
                relation: 3,
                right: Term::Constant(rounds),
            },
            target: again,
        });
    }
    blocks.push(Block::Terminate { amount: 1 });
    model.blocks = blocks;
    let count = if size.is_small() { 5 } else { 40 };
    let span = random.number(0, 4);
    let tape = vec![
        small_times(random, count, span + 1),
        small_times(random, count * 10, span),
    ];
    (model, tape)
}

/// The original holds a facility and comes after its copies, or just before.
fn late_holder(random: &mut Random, size: Size) -> (Model, Tape) {
    let mut model = empty_model();
    model.facilities = 2;
    model.lists = 2;
    let copies = random.number(1, 3);
    let count = *random.pick(&[2, copies + 1, copies + 1, copies + 2]);
    let mut blocks = vec![
        Block::Generate {
            list: 1,
            priority: random.number(0, 2),
        },
        Block::Seize { facility: 1 },
        Block::Split {
            copies,
            target: 5 + u32::from(random.one_in(3)),
        },
        Block::Advance { list: 2 },
    ];
    // Some give back on the way, some after the gathering.
    blocks.push(match random.below(3) {
        0 => Block::Release { facility: 1 },
        1 => Block::Advance { list: 2 },
        _ => Block::Seize { facility: 2 },
    });
    blocks.push(Block::Assemble { count });
    for facility in 1..=2 {
        if random.one_in(2) {
            blocks.push(Block::Release { facility });
        }
    }
    blocks.push(Block::Terminate { amount: 1 });
    model.blocks = blocks;
    let count = if size.is_small() { 6 } else { 40 };
    let span = random.number(0, 3);
    let tape = vec![
        small_times(random, count, 4),
        small_times(random, count * 5, span),
    ];
    (model, tape)
}

/// Many ASSEMBLEs, up to the last place for one. Each passes on what it gathered;
/// copies join in at the first of them or further down.
fn one_behind_the_other(random: &mut Random, size: Size) -> (Model, Tape) {
    let mut model = empty_model();
    model.lists = 2;
    let most = if size.is_small() {
        10
    } else {
        *random.pick(&[10, 40, 251])
    };
    let row = random.number(2, most);
    let copies = if size.is_small() { 20 } else { 255 };
    let mut blocks = vec![
        Block::Generate {
            list: 1,
            priority: random.number(0, 2),
        },
        Block::Split {
            copies: random.number(1, copies),
            target: random.number(3, 2 + row),
        },
    ];
    for _ in 0..row {
        let count = *random.pick(&[2, 2, 2, 3, 4]);
        blocks.push(if random.one_in(9) {
            Block::Advance { list: 2 }
        } else {
            Block::Assemble { count }
        });
    }
    blocks.push(Block::Terminate { amount: 1 });
    model.blocks = blocks;
    let times = if size.is_small() { 3 } else { 6 };
    let span = random.number(0, 3);
    let tape = vec![
        small_times(random, times, span),
        small_times(random, times * 40, span),
    ];
    (model, tape)
}

/// 1,024 living, many of one family; some gather, and then there is room again.
fn crowd(rules: Rules, random: &mut Random, size: Size) -> Case {
    let mut model = empty_model();
    model.queues = 1;
    model.lists = 1;
    let count = *random.pick(&[2, 3, 255]);
    let mut splits = vec![255, 255, 255, 255, random.number(1, 4)];
    if random.one_in(2) {
        splits.push(random.number(1, 255));
    }
    let target = splits.len() as u32 + 3;
    let mut blocks = vec![Block::Generate {
        list: 1,
        priority: 3,
    }];
    for copies in splits {
        blocks.push(Block::Split { copies, target });
    }
    blocks.push(Block::Priority { priority: 0 });
    blocks.push(Block::Assemble { count });
    blocks.push(Block::Split {
        copies: random.number(1, 3),
        target: target + 1,
    });
    blocks.push(Block::Terminate { amount: 1 });
    model.blocks = blocks;
    let tape = vec![vec![1; random.number(1, 3) as usize]];
    let mut case = good_case(rules, random, size, &model, &tape);
    if size == Size::Full {
        case.budget = random.between(5, 4_000);
        case.trace_len = 30_000;
    }
    case
}
