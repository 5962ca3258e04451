//! Cases about joined waits (02, item 7): some take and give back servers, others
//! wait until several of them allow it at the same clock.

use super::contention::{empty_model, small_times};
use super::random::Random;
use super::{good_case, Case, Size};
use crate::model::{Block, Comparison, Model, Term};
use crate::rules::Rules;
use crate::tape::Tape;

/// The blocks of a small model, at most.
const SMALL: usize = 18;

pub fn case(rules: Rules, random: &mut Random, size: Size) -> Case {
    let (mut model, tape) = scene(random, size);
    if random.one_in(5) {
        break_group(random, &mut model);
    }
    good_case(rules, random, size, &model, &tape)
}

fn scene(random: &mut Random, size: Size) -> (Model, Tape) {
    let mut model = empty_model();
    model.facilities = 2;
    model.capacities = vec![random.number(1, 3)];
    model.lists = 4;
    let most = if size.is_small() { SMALL } else { 60 };
    let mut blocks = if size.is_small() || random.one_in(3) {
        one_after_the_other(random, model.capacities[0])
    } else {
        two_takers(random, model.capacities[0])
    };
    blocks.push(Block::Generate {
        list: 4,
        priority: random.number(0, 2),
    });
    let groups = groups(random, most - blocks.len() - 1);
    if blocks.len() + groups.len() + 2 <= most && random.one_in(2) {
        blocks.push(Block::Split {
            copies: random.number(1, 4),
            target: blocks.len() as u32 + 2,
        });
    }
    let again = blocks.len() as u32 + 1;
    blocks.extend(groups);
    go_on(random, &mut blocks, again, most);
    model.blocks = blocks;
    (model, tape(random, size))
}

/// What follows the groups, which begin with block `again`.
fn go_on(random: &mut Random, blocks: &mut Vec<Block>, again: u32, most: usize) {
    let joined = |block: &Block| matches!(block, Block::WaitJoined { .. });
    let last = blocks.iter().rposition(joined).expect("a group") as u32 + 1;
    // Round again until the joined wait has so many entries.
    if blocks.len() + 2 <= most && random.one_in(3) {
        blocks.push(Block::If {
            comparison: Comparison {
                left: Term::Entries(last),
                relation: 3,
                right: Term::Constant(random.number(2, 9)),
            },
            target: again,
        });
    }
    // The ship that takes the tug for which it waited.
    if blocks.len() + 4 <= most && random.one_in(2) {
        blocks.push(Block::Seize { facility: 2 });
        blocks.push(Block::Advance { list: 3 });
        blocks.push(Block::Release { facility: 2 });
    }
    blocks.push(if random.one_in(3) {
        Block::Goto { target: again }
    } else {
        Block::Terminate { amount: 1 }
    });
}

fn tape(random: &mut Random, size: Size) -> Tape {
    let count = if size.is_small() { 12 } else { 60 };
    // Often 0: clock moves by 0 ticks.
    let span = random.number(0, 4);
    vec![
        small_times(random, count, span + 1),
        small_times(random, count, span + 1),
        small_times(random, count * 3, span),
        small_times(random, count / 2, span),
    ]
}

/// Takes and gives back facility 1, or facility 2 or the storage.
fn hold(random: &mut Random, facility: u32, capacity: u32) -> (Block, Block) {
    if facility == 1 || random.one_in(2) {
        return (Block::Seize { facility }, Block::Release { facility });
    }
    let (storage, units) = (1, random.number(1, capacity));
    (
        Block::Enter { storage, units },
        Block::Leave { storage, units },
    )
}

/// Two that take and give back, at different times.
fn two_takers(random: &mut Random, capacity: u32) -> Vec<Block> {
    let mut blocks = Vec::new();
    for facility in 1..=2 {
        let (take, give) = hold(random, facility, capacity);
        blocks.extend([
            Block::Generate {
                list: facility,
                priority: random.number(0, 2),
            },
            take,
            Block::Advance { list: 3 },
            give,
            Block::Terminate { amount: 0 },
        ]);
    }
    blocks
}

/// Each takes both, the second before or after it gives back the first.
fn one_after_the_other(random: &mut Random, capacity: u32) -> Vec<Block> {
    let (take, give) = hold(random, 1, capacity);
    let (then_take, then_give) = hold(random, 2, capacity);
    let advance = Block::Advance { list: 3 };
    let mut blocks = vec![
        Block::Generate {
            list: 1,
            priority: random.number(0, 2),
        },
        take,
        advance.clone(),
        give,
        then_take,
        advance,
        then_give,
        Block::Terminate { amount: 0 },
    ];
    if random.one_in(2) {
        blocks.swap(3, 4);
    }
    blocks
}

/// Groups of at most so many blocks, on the same servers or others.
fn groups(random: &mut Random, room: usize) -> Vec<Block> {
    let mut blocks = Vec::new();
    let mut last = wait(random, &CALM);
    for _ in 0..random.number(1, 3) {
        let left = (room - blocks.len()).saturating_sub(1) as u32;
        if left == 0 {
            break;
        }
        let most = Model::MAX_BACK.min(left);
        let usual = if random.one_in(2) { most } else { most.min(2) };
        let back = random.number(1, usual);
        // Often the last of one group waits for what the last of another does.
        if random.one_in(2) {
            last = wait(random, &ANY);
        }
        blocks.extend(group(random, back, last));
        if blocks.len() + 3 > room {
            break;
        }
        match random.below(6) {
            0 => blocks.push(Block::Advance { list: 3 }),
            1 => blocks.push(Block::Priority {
                priority: random.number(0, 2),
            }),
            _ => {}
        }
    }
    blocks
}

/// A group whose joined wait has this code and server.
fn group(random: &mut Random, back: u32, (code, server): (u32, u32)) -> Vec<Block> {
    let codes: &[u32] = if random.one_in(2) { &CALM } else { &ANY };
    let mut blocks = waits(random, back, codes);
    blocks.push(Block::WaitJoined { code, server, back });
    blocks
}

fn waits(random: &mut Random, count: u32, codes: &[u32]) -> Vec<Block> {
    (0..count)
        .map(|_| wait(random, codes))
        .map(|(code, server)| Block::WaitIfStatus { code, server })
        .collect()
}

/// Codes that are all not true where nothing is taken, and all there are.
const CALM: [u32; 4] = [1, 1, 4, 5];
const ANY: [u32; 6] = [1, 2, 3, 4, 5, 6];

/// One of these codes and a server.
fn wait(random: &mut Random, codes: &[u32]) -> (u32, u32) {
    let code = *random.pick(codes);
    let server = if code <= 2 { random.number(1, 2) } else { 1 };
    (code, server)
}

/// Question 7: one group, with something wrong or nearly so.
pub fn break_group(random: &mut Random, model: &mut Model) {
    model.facilities = model.facilities.max(2);
    if model.capacities.is_empty() {
        model.capacities.push(2);
    }
    model.values.clear();
    let back = random.number(1, Model::MAX_BACK);
    let (code, server) = wait(random, &ANY);
    let mut blocks = vec![Block::Generate {
        list: 1,
        priority: 0,
    }];
    blocks.extend(group(random, back, (code, server)));
    match random.below(6) {
        0 => {
            // Fewer blocks than it counts back, or just as many.
            let before = random.number(0, back);
            blocks = waits(random, before, &ANY);
            blocks.push(Block::WaitJoined { code, server, back });
        }
        1 => {
            let at = random.number(1, back) as usize;
            blocks[at] = other_kind(random);
        }
        2 => {
            // A second that reaches into the first, or just not.
            let between = random.number(0, Model::MAX_BACK - 1);
            let back = random.number(between.max(1), Model::MAX_BACK);
            blocks.extend(waits(random, between, &ANY));
            blocks.push(Block::WaitJoined { code, server, back });
        }
        _ => {
            // A target in it, or at its first block.
            let target = random.number(2, 2 + back);
            blocks.push(aim(random, target));
        }
    }
    blocks.push(Block::Terminate { amount: 0 });
    model.blocks = blocks;
}

/// What may not stand in a group.
fn other_kind(random: &mut Random) -> Block {
    let comparison = Comparison {
        left: Term::Clock,
        relation: 1,
        right: Term::Constant(0),
    };
    match random.below(4) {
        0 => Block::WaitIfComparison { comparison },
        1 => Block::Seize { facility: 1 },
        2 => Block::Priority { priority: 1 },
        _ => Block::Release { facility: 1 },
    }
}

fn aim(random: &mut Random, target: u32) -> Block {
    match random.below(3) {
        0 => Block::If {
            comparison: Comparison {
                left: Term::Clock,
                relation: 3,
                right: Term::Constant(5),
            },
            target,
        },
        1 => Block::Goto { target },
        _ => Block::Split { copies: 1, target },
    }
}
