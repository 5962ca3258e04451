//! RETURN (02, item 11): who is woken by it and by PREEMPT, what it asks, what 28 is
//! asked of, and the numbers of both blocks; each case with what the papers give.

use super::first_example;
use super::preempted::{advance, crane, generate, give_back, limited, of, preempt, release, seize};
use super::preempted::{split, Given, END};
use crate::generate::Case;
use crate::model::Block;

pub fn cases() -> Vec<Given> {
    let mut cases = statuses();
    cases.extend(late());
    cases.extend(questions());
    cases.extend(still_held());
    cases.extend(numbers());
    cases
}

fn terminate(amount: u32) -> Block {
    Block::Terminate { amount }
}

/// Waits while facility 1 is in use (1) or idle (2).
fn wait(code: u32) -> Block {
    Block::WaitIfStatus { code, server: 1 }
}

/// Who waits for NU goes at a PREEMPT, who waits for U at a RETURN to nobody; giving
/// back leaves the facility in use, and wakes for NU alone. A holder with 0 ticks left.
fn statuses() -> Vec<Given> {
    let mut idle = vec![generate(1, 0), wait(2), END];
    idle.extend([generate(2, 0), preempt(1), advance(3), give_back(1), END]);
    let mut used = vec![generate(1, 0), preempt(1), advance(2), give_back(1), END];
    used.extend([generate(3, 0), wait(1), END]);
    let mut still_used = crane(0, 1);
    still_used.extend([generate(5, 0), wait(1), END]);
    let mut many = vec![generate(1, 0), split(2, 3), wait(2), terminate(0)];
    many.extend([generate(2, 2), wait(2), preempt(1), give_back(1)]);
    many.extend([terminate(0), generate(3, 1), seize(1), advance(4)]);
    many.extend([release(1), END]);
    let many = of(1, many, &[&[1], &[2], &[3], &[5]]);
    let mut none_left = crane(0, 1);
    none_left.insert(6, wait(2));
    let left = |stay: u64| of(2, none_left.clone(), &[&[5], &[0], &[1], &[stay]]);
    vec![
        (
            of(2, idle, &[&[1], &[3], &[5]]),
            [0, 2, 8, 9, 9, 2, 2],
            [1, 5, 0, 0, 0],
            vec![],
        ),
        (
            of(2, used, &[&[1], &[5], &[3]]),
            [0, 2, 6, 9, 9, 2, 2],
            [1, 5, 0, 0, 0],
            vec![],
        ),
        (
            of(3, still_used, &[&[0], &[10], &[4], &[3], &[5]]),
            [0, 2, 13, 14, 14, 3, 3],
            [2, 13, 0, 0, 0],
            vec![],
        ),
        (
            limited(&many, 13, 200),
            [0, 3, 3, 13, 13, 5, 0],
            [2, 0, 0, 0, 0],
            vec![(1, 5), (2, 6), (3, 4), (4, 5), (5, 5)],
        ),
        (many, [0, 2, 8, 22, 22, 5, 5], [2, 5, 0, 0, 0], vec![]),
        (left(3), [0, 2, 8, 12, 12, 2, 2], [2, 3, 0, 0, 0], vec![]),
        (left(0), [0, 2, 5, 12, 12, 2, 2], [2, 0, 0, 0, 0], vec![]),
    ]
}

/// 10,000,000,000 ticks but 5 are left at clock 5. Given back at 22,000,000,005 they
/// end at the last clock; one later is 22. A copy that gives back is asked 27 first.
fn late() -> Vec<Given> {
    const LONG: u64 = 10_000_000_000;
    const SHORT: u64 = 2_000_000_000;
    let mut blocks = crane(0, 1);
    blocks.splice(7..8, [advance(4), advance(4), advance(4)]);
    let mut copy = blocks.clone();
    copy.splice(10..10, [split(1, 13), advance(4)]);
    let tape = |blocks: &[Block], last: u64| {
        let stays = [LONG, LONG, last, 0];
        of(2, blocks.to_vec(), &[&[0], &[LONG], &[5], &stays])
    };
    let clock = 22_000_000_006;
    vec![
        (
            tape(&blocks, SHORT),
            [0, 2, 32_000_000_000, 12, 12, 2, 2],
            [2, 32_000_000_000, 0, 0, 0],
            vec![],
        ),
        (
            tape(&blocks, SHORT + 1),
            [0, 22, clock, 9, 8, 2, 0],
            [2, clock, 0, 0, 0],
            vec![(1, 8), (2, 6)],
        ),
        (
            tape(&copy, SHORT + 1),
            [0, 27, clock, 11, 10, 3, 0],
            [2, clock, 0, 0, 0],
            vec![(1, 8), (2, 4), (3, 6)],
        ),
    ]
}

/// RETURN asks 24, then 27; RELEASE of a preempted one is 27. Nothing is written.
fn questions() -> Vec<Given> {
    let lone = |blocks: &[Block]| {
        let blocks = [&[generate(1, 0)], blocks, &[END]].concat();
        of(2, blocks, &[&[4], &[9]])
    };
    let copy = |block: Block| lone(&[preempt(1), split(1, 5), advance(2), block]);
    let mut twice = crane(0, 1);
    twice.insert(8, give_back(1));
    let entered = [1, 0, 0, 0, 0];
    let moving = vec![(1, 6)];
    let copied = vec![(1, 4), (2, 6)];
    vec![
        (
            lone(&[give_back(1)]),
            [0, 24, 4, 2, 1, 1, 0],
            [0; 5],
            moving.clone(),
        ),
        (
            lone(&[preempt(1), give_back(1), give_back(1)]),
            [0, 24, 4, 4, 3, 1, 0],
            entered,
            moving.clone(),
        ),
        (
            lone(&[preempt(1), release(1)]),
            [0, 27, 4, 3, 2, 1, 0],
            entered,
            moving.clone(),
        ),
        (
            lone(&[seize(1), give_back(1)]),
            [0, 27, 4, 3, 2, 1, 0],
            entered,
            moving,
        ),
        (
            copy(give_back(1)),
            [0, 27, 4, 5, 4, 2, 0],
            entered,
            copied.clone(),
        ),
        (copy(release(1)), [0, 27, 4, 5, 4, 2, 0], entered, copied),
        (
            of(2, twice, &[&[0], &[10], &[4], &[3]]),
            [0, 27, 7, 8, 7, 2, 0],
            [2, 7, 0, 0, 0],
            vec![(1, 4), (2, 6)],
        ),
    ]
}

/// 28 is asked of either way of holding, also of a later one of its family; the
/// first may hold what it preempted.
fn still_held() -> Vec<Given> {
    let assemble = Block::Assemble { count: 2 };
    let lone = |blocks: &[Block]| {
        let blocks = [&[generate(1, 0)], blocks, &[END]].concat();
        of(1, blocks, &[&[4], &[9]])
    };
    let later = [preempt(1), split(1, 5), advance(2), assemble.clone()];
    let later = [&later[..], &[give_back(1)]].concat();
    let first = [preempt(1), split(1, 4), assemble, give_back(1)];
    vec![
        (
            lone(&[preempt(1)]),
            [0, 28, 4, 3, 2, 1, 0],
            [1, 0, 0, 0, 0],
            vec![(1, 6)],
        ),
        (
            lone(&[seize(1), preempt(2), release(1)]),
            [0, 28, 4, 5, 4, 1, 0],
            [1, 0, 0, 0, 0],
            vec![(1, 6)],
        ),
        (
            lone(&later),
            [0, 28, 13, 6, 5, 2, 0],
            [1, 9, 0, 0, 0],
            vec![(1, 6), (2, 7)],
        ),
        (lone(&first), [0, 2, 4, 7, 7, 2, 2], [1, 0, 0, 0, 0], vec![]),
    ]
}

/// The facility is one of the model; there is no kind 21.
fn numbers() -> Vec<Given> {
    let ask = |facilities: u8, block: &[u8], refusal: u64| {
        let front = [1, facilities, 1, 1, 0, 0, 0, 1, 2];
        let case = Case {
            model: [&front, block, &[3, 1]].concat(),
            tape: Vec::new(),
            ..first_example()
        };
        let end = u64::from(refusal == 0);
        (case, [refusal, end, 0, 0, 0, 0, 0], [0; 5], vec![])
    };
    let mut cases = Vec::new();
    for kind in [19, 20] {
        for (facilities, facility, refusal) in [
            (2, 0, 4),
            (2, 1, 0),
            (2, 2, 0),
            (2, 3, 4),
            (0, 1, 4),
            (32, 32, 0),
            (32, 33, 4),
        ] {
            cases.push(ask(facilities, &[kind, facility], refusal));
        }
    }
    cases.push(ask(2, &[21, 1], 4));
    cases
}
