//! Cases about who holds a facility (02, item 6).

use super::contention::{empty_model, small_times};
use super::random::Random;
use super::{good_case, Case, Size};
use crate::model::{Block, Comparison, Model, Term};
use crate::rules::Rules;
use crate::tape::Tape;

pub fn case(rules: Rules, random: &mut Random, size: Size) -> Case {
    let (model, tape) = match random.below(3) {
        0 => copies(random, size),
        1 => enders(random, size),
        _ => handed_round(random, size),
    };
    good_case(rules, random, size, &model, &tape)
}

fn generate(random: &mut Random, list: u32) -> Block {
    Block::Generate {
        list,
        priority: random.number(0, 2),
    }
}

fn tape(random: &mut Random, size: Size) -> Tape {
    let count = if size.is_small() { 8 } else { 60 };
    let span = random.number(0, 5);
    vec![
        small_times(random, count, span + 1),
        small_times(random, count * 4, span),
    ]
}

/// Copies, and copies of copies, that give back what the original holds, or try to.
fn copies(random: &mut Random, size: Size) -> (Model, Tape) {
    let mut model = empty_model();
    model.facilities = 2;
    model.lists = 2;
    let facility = 1;
    let other = random.number(1, 2);
    let mut own = vec![Block::Advance { list: 2 }, Block::Release { facility }];
    if random.one_in(3) {
        own.pop(); // the copy is to do it
    }
    if random.one_in(4) {
        own.reverse();
    }
    let mut blocks = vec![generate(random, 1), Block::Seize { facility }];
    let split = blocks.len();
    blocks.push(Block::Split {
        copies: random.number(1, 3),
        target: 1,
    });
    blocks.extend(own);
    blocks.push(Block::Terminate { amount: 1 });
    let first = blocks.len() as u32 + 1;
    blocks.push(match random.below(4) {
        0 => Block::Split {
            copies: 1,
            target: first + 1,
        },
        1 => Block::Seize { facility: other },
        2 => Block::Priority {
            priority: random.number(0, 3),
        },
        _ => Block::Advance { list: 2 },
    });
    if random.one_in(2) {
        blocks.push(Block::WaitIfStatus {
            code: random.number(1, 2),
            server: facility,
        });
    }
    blocks.push(Block::Release {
        facility: if random.one_in(3) { other } else { facility },
    });
    blocks.push(Block::Terminate { amount: 1 });
    blocks[split] = Block::Split {
        copies: random.number(1, 3),
        target: first,
    };
    model.blocks = blocks;
    (model, tape(random, size))
}

/// Some end while they hold, at times where the counter would end the run.
fn enders(random: &mut Random, size: Size) -> (Model, Tape) {
    let mut model = empty_model();
    model.facilities = random.number(1, 3);
    model.lists = 2;
    model.counter = random.number(1, 6);
    let any = |random: &mut Random| random.number(1, 3).min(random.number(1, 3));
    let mut blocks = vec![generate(random, 1)];
    let mut held = Vec::new();
    for _ in 0..random.number(1, 3) {
        let facility = any(random).min(model.facilities);
        blocks.push(Block::Seize { facility });
        held.push(facility);
        if random.one_in(2) {
            blocks.push(Block::Advance { list: 2 });
        }
    }
    // One in some jumps over the giving back.
    let jump = blocks.len();
    blocks.push(Block::If {
        comparison: Comparison {
            left: Term::Entries(1),
            relation: *random.pick(&[1, 5, 6]),
            right: Term::Constant(random.number(2, 8)),
        },
        target: 1,
    });
    if random.one_in(4) {
        held.pop();
    }
    for facility in held {
        blocks.push(Block::Release { facility });
    }
    let last = blocks.len() as u32 + 1;
    if let Block::If { target, .. } = &mut blocks[jump] {
        *target = last;
    }
    blocks.push(Block::Terminate {
        amount: random.number(0, 2),
    });
    model.blocks = blocks;
    (model, tape(random, size))
}

/// A chain of facilities, each taken before the last is given back; now and
/// then in the wrong order, or by one who does not hold it.
fn handed_round(random: &mut Random, size: Size) -> (Model, Tape) {
    let mut model = empty_model();
    model.facilities = random.number(2, 4);
    model.lists = 2;
    let count = model.facilities;
    let mut blocks = vec![generate(random, 1)];
    let first = blocks.len() as u32 + 1;
    blocks.push(Block::Seize { facility: 1 });
    for facility in 2..=count {
        if random.one_in(2) {
            blocks.push(Block::Advance { list: 2 });
        }
        blocks.push(Block::Seize { facility });
        let odd = random.one_in(12);
        blocks.push(Block::Release {
            facility: if odd {
                random.number(1, count)
            } else {
                facility - 1
            },
        });
    }
    blocks.push(Block::Advance { list: 2 });
    if !random.one_in(8) {
        blocks.push(Block::Release { facility: count });
    }
    blocks.push(if random.one_in(3) {
        Block::Goto { target: first }
    } else {
        Block::Terminate { amount: 1 }
    });
    model.blocks = blocks;
    (model, tape(random, size))
}
