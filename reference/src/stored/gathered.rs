//! Families that gather (02, item 8), each case with what the papers give: the
//! refusal, the end, the clock, the counts, and where the living stand.

use super::first_example;
use super::joined::Wanted;
use crate::generate::fields::{encode_model, encode_tape};
use crate::generate::Case;
use crate::model::{Block, Comparison, Model, Term};

/// Number and place of each who lives at the end.
pub type Living = Vec<(u64, u64)>;

pub fn cases() -> Vec<(Case, Wanted, Living)> {
    let mut cases = one_family();
    cases.extend(copies_of_copies());
    cases.extend(several_families());
    cases.extend(several_blocks());
    cases.extend(order());
    cases.extend(going_on());
    cases.extend(holders());
    cases.extend(crowds());
    cases.extend(numbers());
    cases
}

fn of(counter: u32, blocks: Vec<Block>, tape: &[Vec<u64>]) -> Case {
    let model = Model {
        edition: Model::FIRST_EDITION,
        facilities: 1,
        capacities: vec![4],
        queues: 0,
        values: Vec::new(),
        lists: tape.len() as u32,
        counter,
        blocks,
    };
    Case {
        model: encode_model(&model),
        tape: encode_tape(&tape.to_vec()),
        ..first_example()
    }
}

fn generate(list: u32) -> Block {
    Block::Generate { list, priority: 0 }
}

const SEIZE: Block = Block::Seize { facility: 1 };
const RELEASE: Block = Block::Release { facility: 1 };
const ADVANCE: Block = Block::Advance { list: 2 };

fn terminate(amount: u32) -> Block {
    Block::Terminate { amount }
}

fn goto(target: u32) -> Block {
    Block::Goto { target }
}

fn split(copies: u32, target: u32) -> Block {
    Block::Split { copies, target }
}

fn assemble(count: u32) -> Block {
    Block::Assemble { count }
}

/// So many of one family come at clock 7 to an ASSEMBLE of `count`.
fn come(count: u32, copies: u32, counter: u32) -> Case {
    let blocks = vec![generate(1), split(copies, 3), assemble(count), terminate(1)];
    of(counter, blocks, &[vec![7]])
}

/// Exactly n come; too few; twice n and one more. The counter falls at TERMINATE alone.
fn one_family() -> Vec<(Case, Wanted, Living)> {
    let mut cases = Vec::new();
    for count in [2, 3, 4, 255] {
        let n = u64::from(count);
        let wanted = [0, 2, 7, n + 3, n + 3, n, n];
        cases.push((come(count, count - 1, 1), wanted, vec![]));
    }
    cases.push((come(3, 1, 1), [0, 1, 7, 4, 4, 2, 1], vec![(1, 7)]));
    cases.push((
        come(255, 253, 1),
        [0, 1, 7, 256, 256, 254, 253],
        vec![(1, 7)],
    ));
    cases.push((come(2, 4, 3), [0, 1, 7, 9, 9, 5, 4], vec![(5, 7)]));
    cases.push((come(2, 4, 2), [0, 2, 7, 9, 9, 5, 4], vec![(5, 7)]));
    // Budget and trace that end when the first waits, and when it has gone to REL.
    let limited = |budget: u64, trace_len: usize| Case {
        budget,
        trace_len,
        ..come(2, 1, 1)
    };
    cases.extend([
        (limited(3, 200), [0, 3, 7, 3, 3, 2, 0], vec![(1, 7), (2, 5)]),
        (limited(4, 200), [0, 3, 7, 4, 4, 2, 1], vec![(1, 5)]),
        (limited(9, 23), [0, 4, 7, 3, 3, 2, 0], vec![(1, 7), (2, 5)]),
        (limited(9, 24), [0, 4, 7, 4, 4, 2, 1], vec![(1, 5)]),
    ]);
    // The first comes to the same block again, round after round of four turns.
    let round = vec![generate(1), split(1, 3), assemble(2), split(1, 3), goto(3)];
    let round = Case {
        budget: 40,
        ..of(1, round, &[vec![7]])
    };
    cases.push((round, [0, 3, 7, 40, 40, 11, 10], vec![(1, 5)]));
    cases
}

/// 1 makes 2, which makes 3; and 3 makes 4, which comes last and finds nobody.
fn copies_of_copies() -> Vec<(Case, Wanted, Living)> {
    let three = vec![
        generate(1),
        split(1, 4),
        goto(5),
        split(1, 5),
        assemble(3),
        terminate(1),
    ];
    let four = vec![
        generate(1),
        split(1, 4),
        goto(7),
        split(1, 6),
        goto(7),
        split(1, 7),
        assemble(3),
        terminate(1),
    ];
    vec![
        (of(1, three, &[vec![7]]), [0, 2, 7, 8, 8, 3, 3], vec![]),
        (
            of(2, four, &[vec![7]]),
            [0, 1, 7, 11, 11, 4, 3],
            vec![(4, 7)],
        ),
    ]
}

/// Those of GENERATE found families of their own, which do not mix. Three of them
/// gather at one block, and their copies come in any order.
fn several_families() -> Vec<(Case, Wanted, Living)> {
    let alone = vec![generate(1), assemble(2), terminate(1)];
    let parts = vec![
        generate(1),
        split(1, 4),
        goto(5),
        ADVANCE,
        assemble(2),
        terminate(1),
    ];
    let of_times = |counter: u32, times: [u64; 3]| {
        let tape = [vec![1, 1, 1], times.to_vec()];
        of(counter, parts.clone(), &tape)
    };
    let whole = [0, 2, 21, 21, 21, 6, 6];
    vec![
        (
            of(1, alone, &[vec![0, 0, 5]]),
            [0, 1, 5, 6, 6, 3, 0],
            vec![(1, 7), (2, 7), (3, 7)],
        ),
        (of_times(3, [20, 10, 5]), whole, vec![]),
        (of_times(3, [20, 5, 10]), whole, vec![]),
        (of_times(3, [5, 10, 18]), whole, vec![]),
        (
            of_times(2, [20, 10, 5]),
            [0, 2, 12, 19, 19, 6, 4],
            vec![(1, 7), (3, 4)],
        ),
    ]
}

/// Each block counts for itself: two at two blocks; two blocks one behind the
/// other; at the last place for one; at every place, where each passes on half.
fn several_blocks() -> Vec<(Case, Wanted, Living)> {
    let apart = vec![
        generate(1),
        split(1, 4),
        assemble(2),
        assemble(2),
        terminate(1),
    ];
    let behind = vec![
        generate(1),
        split(3, 3),
        assemble(2),
        assemble(2),
        terminate(1),
    ];
    let mut last = vec![generate(1), split(1, 255), goto(255)];
    last.extend(vec![terminate(0); 251]);
    last.extend([assemble(2), terminate(1)]);
    let mut every = vec![generate(1), split(253, 3)];
    every.extend(vec![assemble(2); 253]);
    every.push(terminate(1));
    let left = [1, 129, 193, 225, 241, 249, 253];
    vec![
        (
            of(1, apart, &[vec![7]]),
            [0, 1, 7, 4, 4, 2, 0],
            vec![(1, 7), (2, 7)],
        ),
        (of(1, behind, &[vec![7]]), [0, 2, 7, 9, 9, 4, 4], vec![]),
        (of(1, last, &[vec![7]]), [0, 2, 7, 6, 6, 2, 2], vec![]),
        (
            of(1, every, &[vec![7]]),
            [0, 1, 7, 503, 503, 254, 247],
            left.map(|number| (number, 7)).to_vec(),
        ),
    ]
}

/// The first goes to REL behind those of its priority, also behind one who came
/// there after it began to wait, and before those of a lower one.
fn order() -> Vec<(Case, Wanted, Living)> {
    let newer = vec![
        generate(1),
        split(1, 4),
        goto(5),
        split(1, 6),
        assemble(2),
        terminate(1),
    ];
    let higher = vec![
        generate(1),
        split(2, 4),
        Block::Priority { priority: 5 },
        assemble(2),
        terminate(1),
    ];
    vec![
        (come(2, 2, 1), [0, 2, 7, 6, 6, 3, 2], vec![(3, 7)]),
        (
            of(1, newer, &[vec![7]]),
            [0, 2, 7, 7, 7, 3, 2],
            vec![(1, 5)],
        ),
        (
            of(1, higher, &[vec![7]]),
            [0, 2, 7, 6, 6, 3, 2],
            vec![(3, 5)],
        ),
    ]
}

/// Not returning, so a wait behind the ASSEMBLE has a record. Entries of the block
/// are those of later ones: the wait and the going on are none.
fn going_on() -> Vec<(Case, Wanted, Living)> {
    let waits_again = vec![
        generate(1),
        split(1, 3),
        assemble(2),
        SEIZE,
        ADVANCE,
        RELEASE,
        terminate(1),
    ];
    let until = |entries: u32| {
        let comparison = Comparison {
            left: Term::Entries(3),
            relation: 3,
            right: Term::Constant(entries),
        };
        let blocks = vec![
            generate(1),
            split(1, 3),
            assemble(2),
            terminate(0),
            generate(2),
            Block::WaitIfComparison { comparison },
            terminate(1),
        ];
        of(1, blocks, &[vec![4], vec![0]])
    };
    vec![
        (
            of(2, waits_again, &[vec![0, 1], vec![5, 5]]),
            [0, 2, 10, 17, 17, 4, 4],
            vec![],
        ),
        (until(1), [0, 2, 4, 8, 8, 3, 2], vec![(1, 5)]),
        (until(2), [0, 1, 4, 7, 7, 3, 2], vec![(2, 3)]),
    ]
}

/// The first may hold a facility; a later one ends the run with 28, the n-th or
/// not, which writes nothing. A storage may be kept, and what was given back is no matter.
fn holders() -> Vec<(Case, Wanted, Living)> {
    let first = vec![
        generate(1),
        SEIZE,
        split(1, 4),
        assemble(2),
        RELEASE,
        terminate(1),
    ];
    let later = |count: u32| {
        let blocks = vec![
            generate(1),
            SEIZE,
            split(1, 5),
            ADVANCE,
            assemble(count),
            RELEASE,
            terminate(1),
        ];
        of(1, blocks, &[vec![4], vec![9]])
    };
    let limited = |budget: u64, trace_len: usize| Case {
        budget,
        trace_len,
        ..later(2)
    };
    let given_back = vec![
        generate(1),
        SEIZE,
        split(1, 6),
        ADVANCE,
        RELEASE,
        assemble(2),
        terminate(1),
    ];
    let storage = vec![
        generate(1),
        split(1, 3),
        Block::Enter {
            storage: 1,
            units: 1,
        },
        assemble(2),
        terminate(1),
    ];
    let stopped = [0, 28, 13, 6, 5, 2, 0];
    let places = vec![(1, 6), (2, 7)];
    let before = vec![(1, 4), (2, 7)];
    vec![
        (of(1, first, &[vec![4]]), [0, 2, 4, 7, 7, 2, 2], vec![]),
        (later(2), stopped, places.clone()),
        (later(3), stopped, places.clone()),
        (limited(6, 32), stopped, places),
        (limited(5, 32), [0, 3, 4, 5, 5, 2, 0], before.clone()),
        (limited(6, 31), [0, 4, 4, 5, 5, 2, 0], before),
        (
            of(1, given_back, &[vec![4], vec![9]]),
            [0, 2, 13, 8, 8, 2, 2],
            vec![],
        ),
        (of(1, storage, &[vec![4]]), [0, 2, 4, 7, 7, 2, 2], vec![]),
    ]
}

/// 1,024 of one family. A gatherer counts among the living; those who ended at
/// the ASSEMBLE leave room for copies.
fn crowds() -> Vec<(Case, Wanted, Living)> {
    let crowd = |counter: u32, target: u32, rest: &[Block]| {
        let mut blocks = vec![generate(1)];
        blocks.extend([255, 255, 255, 255, 3].map(|copies| split(copies, target)));
        blocks.extend(rest.to_vec());
        of(counter, blocks, &[vec![7]])
    };
    let pairs = crowd(512, 7, &[assemble(2), terminate(1)]);
    let large = crowd(512, 7, &[assemble(255), terminate(1)]);
    let again = [assemble(255), split(255, 9), terminate(1)];
    let room = crowd(5_000, 7, &again);
    let full = crowd(1, 8, &[assemble(2), split(1, 9), terminate(1)]);
    let mut all = vec![(1, 7), (2, 6)];
    all.extend((3..=1_024).map(|number| (number, 5)));
    vec![
        (pairs, [0, 2, 7, 1_542, 1_542, 1_024, 1_024], vec![]),
        (
            large,
            [0, 1, 7, 1_034, 1_034, 1_024, 1_023],
            vec![(1_021, 7)],
        ),
        (
            room,
            [0, 1, 7, 2_058, 2_058, 2_044, 2_043],
            vec![(1_021, 7)],
        ),
        (full, [0, 21, 7, 8, 7, 1_024, 0], all),
    ]
}

/// n from 2 to 255; nothing is asked of its place but what is asked of every block.
fn numbers() -> Vec<(Case, Wanted, Living)> {
    let ask = |blocks: Vec<Block>, refusal: u64| {
        let end = u64::from(refusal == 0);
        let wanted = [refusal, end, 0, 0, 0, 0, 0];
        (of(1, blocks, &[vec![]]), wanted, vec![])
    };
    let mut cases = Vec::new();
    for (count, refusal) in [(0, 4), (1, 4), (2, 0), (255, 0), (256, 4), (1 << 31, 4)] {
        cases.push(ask(vec![assemble(count), terminate(1)], refusal));
    }
    let comparison = Comparison {
        left: Term::Clock,
        relation: 1,
        right: Term::Constant(0),
    };
    for aim in [
        Block::If {
            comparison,
            target: 2,
        },
        goto(2),
        split(1, 2),
    ] {
        cases.push(ask(vec![terminate(0), assemble(2), aim, terminate(1)], 0));
    }
    cases.push(ask(vec![terminate(1), assemble(2)], 7));
    cases.push(ask(vec![assemble(2), generate(1), terminate(1)], 7));
    let wait = |back: Option<u32>| match back {
        None => Block::WaitIfStatus { code: 1, server: 1 },
        Some(back) => Block::WaitJoined {
            code: 1,
            server: 1,
            back,
        },
    };
    let inside = |back: u32| vec![wait(None), assemble(2), wait(Some(back)), terminate(1)];
    cases.push(ask(inside(2), 7));
    cases.push(ask(
        vec![assemble(2), wait(None), wait(Some(1)), terminate(1)],
        0,
    ));
    cases
}
