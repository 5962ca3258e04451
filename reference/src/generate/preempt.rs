//! Cases about facilities that are taken over (02, item 11).

use super::contention::{empty_model, small_times};
use super::interruptions::{both_held, gathering, regain, too_late, watchers};
use super::random::Random;
use super::{good_case, Case, Size};
use crate::model::{Block, Comparison, Model, Term};
use crate::rules::Rules;
use crate::tape::Tape;

pub fn case(rules: Rules, random: &mut Random, size: Size) -> Case {
    let (model, tape) = loop {
        let drawn = scene(rules, random, size);
        if !size.is_small() || drawn.0.blocks.len() <= 18 {
            break drawn;
        }
    };
    good_case(rules, random, size, &model, &tape)
}

fn scene(rules: Rules, random: &mut Random, size: Size) -> (Model, Tape) {
    match random.below(18) {
        0..=1 if rules.wide_clocks => too_late(rules, random),
        0..=2 => again(random, size),
        3..=5 => nested(random, size),
        6 => cranes(random, size),
        7..=9 => regain(random, size),
        10 => watchers(random, size),
        11 => both_held(random, size),
        12 if rules.assemble => gathering(random, size),
        _ => ward(rules, random, size),
    }
}

pub fn generate(list: u32, priority: u32) -> Block {
    Block::Generate { list, priority }
}

/// Gives back what was taken; now and then the wrong way.
pub fn give(random: &mut Random, facility: u32, preempted: bool) -> Block {
    if preempted != random.one_in(30) {
        Block::Return { facility }
    } else {
        Block::Release { facility }
    }
}

/// Times of two GENERATEs and of all ADVANCEs.
pub fn tape(random: &mut Random, size: Size) -> Tape {
    let count = if size.is_small() { 8 } else { 50 };
    let span = random.number(0, 5);
    vec![
        small_times(random, count, span + 2),
        small_times(random, count, span + 3),
        small_times(random, count * 6, span),
    ]
}

/// Patients of low priority hold a bed or wait elsewhere; urgent ones take it over.
fn ward(rules: Rules, random: &mut Random, size: Size) -> (Model, Tape) {
    let mut model = empty_model();
    model.facilities = 1;
    model.capacities = vec![1];
    model.lists = 3;
    let facility = 1;
    let advance = Block::Advance { list: 3 };
    let mut blocks = vec![generate(1, random.number(0, 3)), Block::Seize { facility }];
    match random.below(8) {
        0 => {
            // The holder's priority changes while it holds.
            blocks.push(Block::Priority {
                priority: random.number(0, 4),
            });
            blocks.push(advance.clone());
        }
        1 => {
            // It waits for something else meanwhile.
            blocks.push(Block::Enter {
                storage: 1,
                units: 1,
            });
            blocks.push(advance.clone());
            blocks.push(Block::Leave {
                storage: 1,
                units: 1,
            });
        }
        2 => blocks.extend([advance.clone(), advance.clone()]),
        3 => blocks.push(Block::WaitIfStatus {
            code: random.number(3, 6),
            server: 1,
        }),
        4 => blocks.push(Block::WaitIfComparison {
            comparison: Comparison {
                left: Term::Clock,
                relation: 3,
                right: Term::Constant(random.number(0, if size.is_small() { 12 } else { 90 })),
            },
        }),
        5 if rules.assemble => blocks.extend([
            // It waits for a copy, which holds nothing.
            Block::Split {
                copies: 1,
                target: 5,
            },
            Block::Goto { target: 6 },
            advance.clone(),
            Block::Assemble { count: 2 },
        ]),
        _ => blocks.push(advance.clone()),
    }
    if !random.one_in(20) {
        let block = give(random, facility, false);
        blocks.push(block);
    }
    blocks.push(Block::Terminate { amount: 1 });
    if random.one_in(5) {
        // Somebody who holds nothing gives it back.
        let taken_over = random.one_in(2);
        blocks.push(generate(random.number(1, 2), random.number(0, 4)));
        blocks.push(give(random, facility, taken_over));
        blocks.push(Block::Terminate { amount: 1 });
    }
    blocks.push(generate(2, random.number(0, 4)));
    if random.one_in(3) {
        blocks.push(Block::Split {
            copies: random.number(1, 3),
            target: blocks.len() as u32 + 2,
        });
    }
    if random.one_in(4) {
        blocks.push(Block::WaitIfStatus {
            code: random.number(1, 2),
            server: facility,
        });
    }
    if random.one_in(4) {
        blocks.push(Block::Enter {
            storage: 1,
            units: 1,
        });
        blocks.push(advance.clone());
        blocks.push(Block::Leave {
            storage: 1,
            units: 1,
        });
    }
    blocks.push(Block::Preempt { facility });
    if !random.one_in(4) {
        blocks.push(advance);
    }
    if random.one_in(12) {
        // A copy tries to give back.
        blocks.push(Block::Split {
            copies: 1,
            target: blocks.len() as u32 + 2,
        });
    }
    if !random.one_in(20) {
        let block = give(random, facility, true);
        blocks.push(block);
    }
    if random.one_in(20) {
        blocks.push(Block::Return { facility });
    }
    blocks.push(Block::Terminate { amount: 1 });
    model.blocks = blocks;
    (model, tape(random, size))
}

/// Two facilities: who holds one takes or takes over the other, and is
/// interrupted there in its turn.
fn nested(random: &mut Random, size: Size) -> (Model, Tape) {
    let mut model = empty_model();
    model.facilities = 2;
    model.lists = 3;
    let advance = Block::Advance { list: 3 };
    let mut blocks = Vec::new();
    let mut first = 1;
    for list in 1..=2 {
        blocks.push(generate(list, random.number(list - 1, 2 * list)));
        first = random.number(1, 2);
        // The same one twice now and then: it waits for itself.
        let second = if random.one_in(8) { first } else { 3 - first };
        let mut takes = vec![first, second];
        if list == 2 && random.one_in(2) {
            takes.pop();
        }
        let mut held = Vec::new();
        for facility in takes {
            let preempts = random.one_in(2);
            blocks.push(if preempts {
                Block::Preempt { facility }
            } else {
                Block::Seize { facility }
            });
            held.push((facility, preempts));
            if !size.is_small() && random.one_in(2) {
                blocks.push(advance.clone());
            }
        }
        blocks.push(advance.clone());
        if random.one_in(2) {
            held.reverse();
        }
        for (facility, preempts) in held {
            let block = give(random, facility, preempts);
            blocks.push(block);
        }
        blocks.push(Block::Terminate { amount: 1 });
    }
    // A third, urgent one for either.
    let facility = if random.one_in(3) { first } else { 3 - first };
    blocks.push(generate(random.number(1, 2), random.number(2, 5)));
    blocks.push(Block::Preempt { facility });
    if !size.is_small() {
        blocks.push(advance);
    }
    blocks.push(Block::Return { facility });
    blocks.push(Block::Terminate { amount: 1 });
    model.blocks = blocks;
    (model, tape(random, size))
}

/// Somebody takes over several facilities at once.
fn cranes(random: &mut Random, size: Size) -> (Model, Tape) {
    let mut model = empty_model();
    model.facilities = 2;
    model.lists = 3;
    let mut blocks = Vec::new();
    for facility in 1..=2 {
        blocks.push(generate(1, random.number(0, 1)));
        blocks.push(Block::Seize { facility });
        blocks.push(Block::Advance { list: 3 });
        let block = give(random, facility, false);
        blocks.push(block);
        blocks.push(Block::Terminate { amount: 1 });
    }
    let first = random.number(1, 2);
    blocks.push(generate(2, random.number(1, 3)));
    blocks.push(Block::Preempt { facility: first });
    if random.one_in(3) {
        blocks.push(Block::Advance { list: 3 });
    }
    blocks.push(Block::Preempt {
        facility: 3 - first,
    });
    blocks.push(Block::Advance { list: 3 });
    for facility in [first, 3 - first] {
        let block = give(random, facility, true);
        blocks.push(block);
    }
    blocks.push(Block::Terminate { amount: 1 });
    model.blocks = blocks;
    (model, tape(random, size))
}

/// Many urgent ones of several priorities: woken, they find a holder that they
/// may interrupt again, or are put back.
fn again(random: &mut Random, size: Size) -> (Model, Tape) {
    let mut model = empty_model();
    model.facilities = 1;
    model.lists = 3;
    let facility = 1;
    let mut blocks = vec![
        generate(1, random.number(0, 1)),
        Block::Seize { facility },
        Block::Advance { list: 3 },
        Block::Release { facility },
        Block::Terminate { amount: 1 },
        generate(2, random.number(0, 3)),
        Block::Split {
            copies: random.number(1, 3),
            target: 8,
        },
        Block::Preempt { facility },
    ];
    match random.below(3) {
        0 => {}
        1 => {
            // Given back and taken over again within one tick.
            blocks.push(Block::Return { facility });
            blocks.push(Block::Preempt { facility });
        }
        _ => blocks.push(Block::Advance { list: 3 }),
    }
    blocks.push(Block::Return { facility });
    if random.one_in(3) {
        blocks.push(Block::Seize { facility });
        blocks.push(Block::Advance { list: 3 });
        blocks.push(Block::Release { facility });
    }
    blocks.push(Block::Terminate { amount: 1 });
    model.blocks = blocks;
    (model, tape(random, size))
}
