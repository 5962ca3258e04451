//! More cases about facilities that are taken over (02, item 11): what short random models seldom meet.

use super::contention::{empty_model, small_times};
use super::preempt::{generate, give, tape};
use super::random::Random;
use super::Size;
use crate::model::{Block, Model};
use crate::rules::Rules;
use crate::tape::Tape;

const FACILITY: u32 = 1;
const SEIZE: Block = Block::Seize { facility: FACILITY };
const RELEASE: Block = Block::Release { facility: FACILITY };
const PREEMPT: Block = Block::Preempt { facility: FACILITY };
const RETURN: Block = Block::Return { facility: FACILITY };
const ADVANCE: Block = Block::Advance { list: 3 };
const END: Block = Block::Terminate { amount: 1 };

fn one_facility() -> Model {
    let mut model = empty_model();
    model.facilities = 1;
    model.lists = 3;
    model
}

/// The holder's priority falls or rises; it may give back and take again before
/// those whom it woke have moved. A woken PREEMPT then interrupts it, or is put back.
pub fn regain(random: &mut Random, size: Size) -> (Model, Tape) {
    let mut model = one_facility();
    let mut blocks = vec![generate(1, random.number(0, 4)), SEIZE, ADVANCE];
    blocks.push(Block::Priority {
        priority: random.number(0, 4),
    });
    for _ in 0..random.number(0, 2) {
        blocks.extend([RELEASE, SEIZE]);
    }
    blocks.extend([ADVANCE, RELEASE, END]);
    blocks.push(generate(2, random.number(1, 4)));
    blocks.push(Block::Split {
        copies: random.number(1, 3),
        target: blocks.len() as u32 + 2,
    });
    blocks.push(PREEMPT);
    if random.one_in(2) {
        blocks.push(ADVANCE);
    }
    blocks.extend([RETURN, END]);
    model.blocks = blocks;
    (model, tape(random, size))
}

/// One holds two facilities, and others want to take over either: who is interrupted
/// at one keeps the other meanwhile.
pub fn both_held(random: &mut Random, size: Size) -> (Model, Tape) {
    let mut model = one_facility();
    model.facilities = 2;
    let second = Block::Seize { facility: 2 };
    let mut blocks = vec![generate(1, random.number(0, 1)), SEIZE, second, ADVANCE];
    blocks.extend([Block::Release { facility: 2 }, RELEASE, END]);
    for facility in [1, 2] {
        blocks.push(generate(2, random.number(1, 3)));
        blocks.push(Block::Preempt { facility });
        if facility == 1 || random.one_in(2) {
            blocks.push(ADVANCE);
        }
        blocks.extend([Block::Return { facility }, END]);
    }
    model.blocks = blocks;
    (model, tape(random, size))
}

/// Many wait until the facility is in use, and so does one who then takes it over
/// within the tick; others wait until it is idle.
pub fn watchers(random: &mut Random, size: Size) -> (Model, Tape) {
    let mut model = one_facility();
    let wait = |code: u32| Block::WaitIfStatus {
        code,
        server: FACILITY,
    };
    let mut blocks = vec![
        generate(1, random.number(0, 1)),
        Block::Split {
            copies: random.number(2, 5),
            target: 3,
        },
        wait(if random.one_in(4) { 1 } else { 2 }),
        END,
    ];
    blocks.extend([generate(2, random.number(1, 4)), wait(2), PREEMPT]);
    if random.one_in(3) {
        blocks.push(ADVANCE);
    }
    blocks.extend([RETURN, END]);
    blocks.extend([generate(random.number(1, 2), random.number(0, 3)), SEIZE]);
    blocks.extend([ADVANCE, RELEASE, END]);
    model.blocks = blocks;
    (model, tape(random, size))
}

/// Who preempted comes to an ASSEMBLE, as the first or later: end 28 unless it
/// gave back, or is the first.
pub fn gathering(random: &mut Random, size: Size) -> (Model, Tape) {
    let mut model = one_facility();
    let mut blocks = vec![generate(1, 0), SEIZE, ADVANCE, RELEASE, END];
    blocks.push(generate(2, random.number(0, 2)));
    blocks.push(PREEMPT);
    let keeps = random.one_in(2);
    let rest = blocks.len() as u32 + 3 + u32::from(!keeps);
    blocks.push(Block::Split {
        copies: random.number(1, 2),
        target: rest,
    });
    blocks.push(ADVANCE);
    if !keeps {
        blocks.push(RETURN);
    }
    blocks.push(Block::Assemble {
        count: random.number(2, 3),
    });
    if keeps {
        blocks.push(RETURN);
    }
    blocks.push(END);
    model.blocks = blocks;
    (model, tape(random, size))
}

/// What was left to the interrupted one passes the last clock, or just reaches it;
/// who gives it back is now and then a copy.
pub fn too_late(rules: Rules, random: &mut Random) -> (Model, Tape) {
    let mut model = one_facility();
    let hold = Block::Advance { list: 2 };
    let mut blocks = vec![generate(1, 0), SEIZE, hold, RELEASE, END];
    blocks.extend([generate(1, 1), PREEMPT, ADVANCE, ADVANCE, ADVANCE]);
    if random.one_in(3) {
        blocks.extend([
            Block::Split {
                copies: 1,
                target: 13,
            },
            ADVANCE,
        ]);
    }
    blocks.push(give(random, FACILITY, true));
    blocks.push(END);
    model.blocks = blocks;
    let most = rules.max_sample();
    let begins = random.between(0, 20);
    let later = begins + random.between(0, 20);
    let held = most - random.between(0, 20);
    // At clock `later` there are `held - (later - begins)` ticks left.
    let left = held - (later - begins);
    let last = rules.max_clock() - left - later;
    let stays = last + random.between(0, 2) - 1;
    let mut times = vec![most, most, stays - 2 * most];
    times.extend(small_times(random, 1, 2));
    (model, vec![vec![begins, later], vec![held], times])
}
