//! Cases about crowds: so many wait for a storage that a LEAVE wakes them all, and all but a few of them wait again. They
//! come in several priorities, to one ENTER or more, of equal or different units.

use super::contention::{empty_model, small_times};
use super::random::Random;
use super::{good_case, Case, Size};
use crate::model::Block;
use crate::rules::Rules;

/// The list of the delays; those before it have a time for each GENERATE.
const DELAYS: u32 = 4;

pub fn case(rules: Rules, random: &mut Random, size: Size) -> Case {
    let mut model = empty_model();
    model.capacities = vec![random.number(1, 12), random.number(1, 4)];
    model.queues = 1;
    model.lists = DELAYS;
    let classes = random.number(1, DELAYS - 1);
    let target = 3 * classes + 1; // behind the blocks of `arrivals`
    for list in 1..=classes {
        model.blocks.extend(arrivals(random, size, list, target));
    }
    for _ in 0..random.number(1, 2) {
        let round = stay(random, &model.capacities);
        model.blocks.extend(round);
    }
    if random.one_in(2) {
        model.blocks.push(Block::Split { copies: 1, target });
    }
    model.blocks.push(if random.one_in(4) {
        Block::Goto { target }
    } else {
        Block::Terminate { amount: 1 }
    });
    let span = random.number(1, 20);
    let tape = vec![
        small_times(random, 1, 3),
        small_times(random, 1, 3),
        small_times(random, 1, 3),
        small_times(random, if size.is_small() { 100 } else { 3_000 }, span),
    ];
    let mut case = good_case(rules, random, size, &model, &tape);
    if !random.one_in(4) {
        case.budget = u64::from(random.number(0, if size.is_small() { 2_000 } else { 40_000 }));
        case.trace_len = 100_000;
    }
    case
}

/// One that comes with many copies of itself.
fn arrivals(random: &mut Random, size: Size, list: u32, target: u32) -> [Block; 3] {
    let copies = random.number(20, if size.is_small() { 80 } else { 255 });
    [
        Block::Generate {
            list,
            priority: random.number(0, 3),
        },
        Block::Split { copies, target },
        Block::Goto { target },
    ]
}

/// A stay in a storage, in a queue and behind a code now and then.
fn stay(random: &mut Random, capacities: &[u32]) -> Vec<Block> {
    let storage = if random.one_in(4) { 2 } else { 1 };
    let capacity = capacities[storage as usize - 1];
    let units = if random.one_in(3) {
        random.number(1, capacity.min(3))
    } else {
        1
    };
    let queued = random.one_in(3);
    let mut blocks = Vec::new();
    if queued {
        blocks.push(Block::Arrive { queue: 1 });
    }
    if random.one_in(6) {
        let code = random.number(3, 6);
        blocks.push(Block::WaitIfStatus {
            code,
            server: storage,
        });
    }
    blocks.push(Block::Enter { storage, units });
    if queued {
        blocks.push(Block::Depart { queue: 1 });
    }
    if random.one_in(4) {
        blocks.push(Block::Priority {
            priority: random.number(0, 3),
        });
    }
    blocks.push(Block::Advance { list: DELAYS });
    blocks.push(Block::Leave { storage, units });
    blocks
}
