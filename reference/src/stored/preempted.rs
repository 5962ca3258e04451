//! Facilities that are taken over (02, item 11), each case with what the papers
//! give: refusal, end, clock and counts, what the report says of facility 1, and
//! where the living stand.

use super::first_example;
use super::gathered::Living;
use super::given_back;
use super::joined::Wanted;
use crate::generate::fields::{encode_model, encode_tape};
use crate::generate::Case;
use crate::model::{Block, Model};

/// Entries, ticks in use, waits begun, ticks waited, longest QL.
pub type Facility = [u64; 5];

pub type Given = (Case, Wanted, Facility, Living);

pub fn cases() -> Vec<Given> {
    let mut cases = one_crane();
    cases.extend(priorities());
    cases.extend(waiting_elsewhere());
    cases.extend(again());
    cases.extend(several());
    cases.extend(woken());
    cases.extend(serials());
    cases.extend(given_back::cases());
    cases
}

fn made(edition: u32, facilities: u32, counter: u32, blocks: Vec<Block>, tape: &[&[u64]]) -> Case {
    let model = Model {
        edition,
        facilities,
        capacities: vec![1],
        queues: 0,
        values: Vec::new(),
        lists: tape.len() as u32,
        counter,
        blocks,
    };
    let tape = tape.iter().map(|times| times.to_vec()).collect();
    Case {
        model: encode_model(&model),
        tape: encode_tape(&tape),
        ..first_example()
    }
}

pub fn of(counter: u32, blocks: Vec<Block>, tape: &[&[u64]]) -> Case {
    made(Model::FIRST_EDITION, 2, counter, blocks, tape)
}

pub fn limited(case: &Case, budget: u64, trace_len: usize) -> Case {
    Case {
        budget,
        trace_len,
        ..case.clone()
    }
}

pub fn generate(list: u32, priority: u32) -> Block {
    Block::Generate { list, priority }
}

pub fn seize(facility: u32) -> Block {
    Block::Seize { facility }
}

pub fn release(facility: u32) -> Block {
    Block::Release { facility }
}

pub fn preempt(facility: u32) -> Block {
    Block::Preempt { facility }
}

pub fn give_back(facility: u32) -> Block {
    Block::Return { facility }
}

pub fn advance(list: u32) -> Block {
    Block::Advance { list }
}

fn priority(priority: u32) -> Block {
    Block::Priority { priority }
}

pub fn split(copies: u32, target: u32) -> Block {
    Block::Split { copies, target }
}

pub const END: Block = Block::Terminate { amount: 1 };

/// Blocks 1 to 5 seize the crane for a time of list 2, 6 to 10 take it over for one
/// of list 4; arrivals are of lists 1 and 3.
pub fn crane(low: u32, high: u32) -> Vec<Block> {
    let mut blocks = vec![generate(1, low), seize(1), advance(2), release(1), END];
    blocks.extend([generate(3, high), preempt(1), advance(4), give_back(1), END]);
    blocks
}

/// 1 seizes at 0 for 10 ticks; 2 takes over at 4, with 6 of them left, and gives
/// back at 7, so that 1 goes on at 13. Budgets and traces that end in between.
fn one_crane() -> Vec<Given> {
    let case = of(2, crane(0, 1), &[&[0], &[10], &[4], &[3]]);
    let taken = vec![(1, 8), (2, 6)];
    let held = vec![(1, 8), (2, 4)];
    vec![
        (
            case.clone(),
            [0, 2, 13, 10, 10, 2, 2],
            [2, 13, 0, 0, 0],
            vec![],
        ),
        (
            limited(&case, 5, 200),
            [0, 3, 4, 5, 5, 2, 0],
            [2, 4, 0, 0, 0],
            taken.clone(),
        ),
        (
            limited(&case, 6, 200),
            [0, 3, 4, 6, 6, 2, 0],
            [2, 4, 0, 0, 0],
            held.clone(),
        ),
        (
            limited(&case, 7, 200),
            [0, 3, 7, 7, 7, 2, 0],
            [2, 7, 0, 0, 0],
            vec![(1, 4), (2, 6)],
        ),
        (
            limited(&case, 99, 31),
            [0, 4, 4, 5, 5, 2, 0],
            [2, 4, 0, 0, 0],
            taken,
        ),
        (
            limited(&case, 99, 32),
            [0, 4, 4, 6, 6, 2, 0],
            [2, 4, 0, 0, 0],
            held,
        ),
    ]
}

/// Lower is strict, and the priorities are those of now: the holder's may fall or
/// rise while it holds. Else 2 waits from 4 to 10.
fn priorities() -> Vec<Given> {
    let tape: [&[u64]; 4] = [&[0], &[10], &[4], &[3]];
    let over = [2, 13, 0, 0, 0];
    let waits = [2, 13, 1, 6, 1];
    let mut cases = Vec::new();
    for (low, high, enters) in [
        (126, 127, true),
        (0, 0, false),
        (127, 127, false),
        (2, 1, false),
    ] {
        let turns = if enters { 10 } else { 11 };
        let wanted = [0, 2, 13, turns, turns, 2, 2];
        let facility = if enters { over } else { waits };
        cases.push((of(2, crane(low, high), &tape), wanted, facility, vec![]));
    }
    for (first, then, enters) in [(5, 0, true), (0, 5, false)] {
        let mut blocks = crane(first, 1);
        blocks.insert(2, priority(then));
        let turns = if enters { 11 } else { 12 };
        let wanted = [0, 2, 13, turns, turns, 2, 2];
        let facility = if enters { over } else { waits };
        cases.push((of(2, blocks, &tape), wanted, facility, vec![]));
    }
    cases
}

/// The holder waits for facility 2, so nobody takes facility 1 over; nor is the
/// waiter woken when the holder comes to the FEL at 6.
fn waiting_elsewhere() -> Vec<Given> {
    let mut blocks = vec![generate(1, 0), seize(1), seize(2), advance(2), release(2)];
    blocks.extend([release(1), END]);
    blocks.extend([generate(3, 0), seize(2), advance(4), release(2), END]);
    blocks.extend([generate(5, 1), preempt(1), advance(6), give_back(1), END]);
    let case = of(3, blocks, &[&[1], &[10], &[0], &[6], &[3], &[2]]);
    vec![
        (
            limited(&case, 12, 200),
            [0, 3, 6, 12, 12, 3, 1],
            [1, 5, 1, 3, 1],
            vec![(1, 4), (3, 1)],
        ),
        (case, [0, 2, 18, 19, 19, 3, 3], [2, 17, 1, 13, 1], vec![]),
    ]
}

/// A preempted facility is not preempted again, by nobody; given back it counts as
/// seized, and is. Giving back wakes nobody on the QL.
fn again() -> Vec<Given> {
    let mut third = crane(0, 1);
    third.extend([generate(5, 2), Block::Goto { target: 7 }]);
    let mut queue = crane(0, 1);
    queue.extend([generate(5, 0), seize(1), release(1), END]);
    let tape: [&[u64]; 5] = [&[0], &[10], &[4], &[3], &[5]];
    vec![
        (
            of(3, third, &[&[0], &[10], &[2], &[5, 1], &[4]]),
            [0, 2, 16, 17, 17, 3, 3],
            [3, 16, 1, 11, 1],
            vec![],
        ),
        (
            of(3, crane(0, 1), &[&[0], &[10], &[2, 5], &[1, 1]]),
            [0, 2, 12, 15, 15, 3, 3],
            [3, 12, 0, 0, 0],
            vec![],
        ),
        (
            of(3, queue, &tape),
            [0, 2, 13, 15, 15, 3, 3],
            [3, 13, 1, 8, 1],
            vec![],
        ),
    ]
}

/// Two facilities and more: one who is interrupted keeps the other, which nobody
/// takes over meanwhile; one who took over is interrupted in its turn; one takes over two, or all 32.
fn several() -> Vec<Given> {
    let mut both = vec![generate(1, 0), seize(1), seize(2), advance(2), release(2)];
    both.extend([release(1), END]);
    both.extend([generate(3, 1), preempt(1), advance(4), give_back(1), END]);
    both.extend([generate(5, 2), preempt(2), give_back(2), END]);
    let mut chain = vec![generate(1, 0), seize(1), advance(2), release(1), END];
    chain.extend([generate(3, 1), preempt(1), seize(2), advance(4), release(2)]);
    chain.extend([give_back(1), END]);
    chain.extend([generate(5, 2), preempt(2), advance(6), give_back(2), END]);
    let chain = of(3, chain, &[&[0], &[10], &[2], &[6], &[4], &[3]]);
    let mut two = Vec::new();
    for facility in [1, 2] {
        two.extend([generate(facility, 0), seize(facility), advance(3)]);
        two.extend([release(facility), END]);
    }
    two.extend([generate(4, 1), preempt(1), preempt(2), advance(5)]);
    two.extend([give_back(1), give_back(2), END]);
    let all = every_facility();
    let mut living: Living = (1..=33).map(|number| (number, 8)).collect();
    living[1] = (2, 4);
    vec![
        (
            of(3, both, &[&[0], &[10], &[2], &[5], &[4]]),
            [0, 2, 15, 17, 17, 3, 3],
            [2, 15, 0, 0, 0],
            vec![],
        ),
        (
            limited(&chain, 10, 200),
            [0, 3, 4, 10, 10, 3, 0],
            [2, 4, 0, 0, 0],
            vec![(1, 8), (2, 8), (3, 4)],
        ),
        (chain, [0, 2, 19, 17, 17, 3, 3], [2, 19, 0, 0, 0], vec![]),
        (
            of(3, two, &[&[0], &[1], &[10, 10], &[4], &[3]]),
            [0, 2, 14, 17, 17, 3, 3],
            [2, 13, 0, 0, 0],
            vec![],
        ),
        (
            limited(&all, 130, 2_000),
            [0, 3, 4, 130, 130, 33, 0],
            [2, 4, 0, 0, 0],
            living,
        ),
        (all, [0, 2, 13, 227, 227, 33, 33], [2, 13, 0, 0, 0], vec![]),
    ]
}

/// 1 and 31 copies seize a facility each at 0 for 10 ticks; 2 takes over all of
/// them from 4 to 7.
fn every_facility() -> Case {
    let mut blocks = vec![generate(1, 0)];
    blocks.extend((2..=32).map(|facility| split(1, 29 + 4 * facility)));
    for facility in 1..=32 {
        blocks.extend([seize(facility), advance(2), release(facility), END]);
    }
    blocks.push(generate(3, 1));
    blocks.extend((1..=32).map(preempt));
    blocks.push(advance(4));
    blocks.extend((1..=32).rev().map(give_back));
    blocks.push(END);
    made(1, 32, 33, blocks, &[&[0], &[10; 32], &[4], &[3]])
}

/// The holder gives back at 10 and takes again. A woken PREEMPT then interrupts it
/// if its priority has fallen, which a SEIZE that waited longer does not; else it
/// is put back, under edition 2 to the very front.
fn woken() -> Vec<Given> {
    let regain = |then: u32| {
        let mut blocks = vec![generate(1, 5), seize(1), advance(2), priority(then)];
        blocks.extend([release(1), seize(1), advance(2), release(1), END]);
        blocks.extend([generate(3, 1), preempt(1), advance(4), give_back(1), END]);
        of(2, blocks, &[&[0], &[10, 10], &[4], &[3]])
    };
    let mut overtakes = vec![generate(1, 1), seize(1), advance(2), priority(0)];
    overtakes.extend([release(1), seize(1), release(1), seize(1), advance(2)]);
    overtakes.extend([release(1), END, generate(3, 1), seize(1), release(1), END]);
    overtakes.extend([generate(4, 1), preempt(1), give_back(1), END]);
    let mut cases = vec![
        (
            regain(0),
            [0, 2, 23, 15, 15, 2, 2],
            [3, 23, 1, 6, 1],
            vec![],
        ),
        (
            regain(5),
            [0, 2, 23, 16, 15, 2, 2],
            [3, 23, 1, 16, 1],
            vec![],
        ),
        (
            of(3, overtakes, &[&[0], &[10, 10], &[1], &[2]]),
            [0, 2, 20, 22, 21, 3, 3],
            [5, 20, 2, 27, 2],
            vec![],
        ),
    ];
    for (edition, left) in [(1, 3), (2, 2)] {
        let mut blocks = vec![generate(1, 5), seize(1), advance(2)];
        blocks.extend([release(1), seize(1), release(1), seize(1), advance(2)]);
        blocks.extend([release(1), END]);
        blocks.extend([generate(3, 1), preempt(1), advance(4), give_back(1), END]);
        let tape: [&[u64]; 4] = [&[0], &[10, 10], &[1, 1], &[5, 5]];
        cases.push((
            made(edition, 2, 2, blocks, &tape),
            [0, 2, 25, 20, 18, 3, 2],
            [4, 25, 2, 42, 2],
            vec![(left, 5)],
        ));
    }
    cases
}

/// Given back, 1 has a fresh serial: 3, which comes to the FEL for 13 before that,
/// precedes it there, although 1 was there first.
fn serials() -> Vec<Given> {
    let mut blocks = crane(0, 1);
    blocks.extend([generate(5, 0), advance(6), END]);
    let tape: [&[u64]; 6] = [&[0], &[10], &[4], &[3], &[5], &[8]];
    vec![(
        of(2, blocks, &tape),
        [0, 2, 13, 11, 11, 3, 2],
        [2, 13, 0, 0, 0],
        vec![(1, 5)],
    )]
}
