//! Who holds a facility (02, item 6), each case with the end, the clock and the
//! counts that the papers give.

use super::first_example;
use crate::generate::fields::{encode_model, encode_tape};
use crate::generate::Case;
use crate::model::{Block, Model};

/// End, clock, turns, made, ended.
pub type Wanted = [u64; 5];

pub fn cases() -> Vec<(Case, Wanted)> {
    let mut cases = by_another();
    cases.extend(idle_first());
    cases.extend(handed_round());
    cases.extend(held_at_the_end());
    cases.extend(nothing_held());
    cases
}

fn of(counter: u32, blocks: Vec<Block>, tape: &[Vec<u64>]) -> Case {
    let model = Model {
        edition: Model::FIRST_EDITION,
        facilities: 32,
        capacities: vec![4, 4],
        queues: 0,
        values: Vec::new(),
        lists: tape.len() as u32,
        counter,
        blocks,
    };
    Case {
        model: encode_model(&model),
        tape: encode_tape(&tape.to_vec()),
        ..first_example()
    }
}

const GENERATE: Block = Block::Generate {
    list: 1,
    priority: 0,
};
const ADVANCE: Block = Block::Advance { list: 2 };

fn seize(facility: u32) -> Block {
    Block::Seize { facility }
}

fn release(facility: u32) -> Block {
    Block::Release { facility }
}

fn split(copies: u32, target: u32) -> Block {
    Block::Split { copies, target }
}

fn terminate(amount: u32) -> Block {
    Block::Terminate { amount }
}

/// 27: a copy, a copy of a copy, a stranger; the turn counts and writes nothing,
/// so budget and trace are asked before it alone.
fn by_another() -> Vec<(Case, Wanted)> {
    let times = [vec![4], vec![9]];
    let copy = of(
        100,
        vec![
            GENERATE,
            seize(1),
            split(1, 5),
            ADVANCE,
            release(1),
            terminate(1),
        ],
        &times,
    );
    let limited = |budget: u64, trace_len: usize| Case {
        budget,
        trace_len,
        ..copy.clone()
    };
    let of_a_copy = of(
        100,
        vec![
            GENERATE,
            seize(32),
            split(1, 6),
            ADVANCE,
            terminate(0),
            split(1, 8),
            terminate(0),
            release(32),
            terminate(1),
        ],
        &times,
    );
    let stranger = of(
        100,
        vec![
            GENERATE,
            seize(2),
            ADVANCE,
            release(2),
            terminate(1),
            Block::Generate {
                list: 3,
                priority: 0,
            },
            release(2),
            terminate(1),
        ],
        &[vec![4], vec![9], vec![6]],
    );
    vec![
        (copy.clone(), [27, 4, 5, 2, 0]),
        (limited(5, 28), [27, 4, 5, 2, 0]),
        (limited(4, 28), [3, 4, 4, 2, 0]),
        (limited(5, 27), [4, 4, 4, 2, 0]),
        (of_a_copy, [27, 4, 7, 3, 1]),
        (stranger, [27, 6, 5, 2, 0]),
    ]
}

/// 24 is asked first: nobody holds it, whoever held it last.
fn idle_first() -> Vec<(Case, Wanted)> {
    let times = [vec![4], vec![9]];
    let never = vec![GENERATE, release(1), terminate(1)];
    let twice = vec![GENERATE, seize(1), release(1), release(1), terminate(1)];
    let copy = vec![GENERATE, seize(1), release(1), split(1, 3), terminate(1)];
    let other = vec![GENERATE, seize(1), release(2), terminate(1)];
    vec![
        (of(100, never, &times), [24, 4, 2, 1, 0]),
        (of(100, twice, &times), [24, 4, 4, 1, 0]),
        (of(100, copy, &times), [24, 4, 6, 2, 1]),
        (of(100, other, &times), [24, 4, 3, 1, 0]),
    ]
}

/// Three follow each other through two facilities; then one gives back what it
/// held once and another holds by now.
fn handed_round() -> Vec<(Case, Wanted)> {
    let chain = of(
        100,
        vec![
            GENERATE,
            seize(1),
            ADVANCE,
            seize(2),
            release(1),
            ADVANCE,
            release(2),
            terminate(1),
        ],
        &[vec![1, 1, 1], vec![5; 6]],
    );
    let once_held = of(
        100,
        vec![
            GENERATE,
            seize(1),
            release(1),
            ADVANCE,
            release(1),
            terminate(1),
            Block::Generate {
                list: 3,
                priority: 0,
            },
            seize(1),
            ADVANCE,
            release(1),
            terminate(1),
        ],
        &[vec![1], vec![9, 20], vec![5]],
    );
    // Each number of three hundred is a holder in its turn.
    let many = of(
        300,
        vec![GENERATE, seize(31), release(31), terminate(1)],
        &[vec![1; 300]],
    );
    vec![
        (chain, [1, 21, 26, 3, 3]),
        (once_held, [27, 10, 8, 2, 0]),
        (many, [2, 300, 1_200, 300, 300]),
    ]
}

/// 28 before the counter falls, so before end 2, whichever is held of several.
fn held_at_the_end() -> Vec<(Case, Wanted)> {
    let times = [vec![4], vec![9]];
    let mut cases = Vec::new();
    for amount in [0, 1, 3] {
        let blocks = vec![GENERATE, seize(1), terminate(amount)];
        cases.push((of(1, blocks, &times), [28, 4, 3, 1, 0]));
    }
    for kept in [1, 7, 32] {
        let mut blocks = vec![GENERATE, seize(1), seize(7), seize(32)];
        blocks.extend(
            [32, 1, 7]
                .iter()
                .filter(|f| **f != kept)
                .map(|f| release(*f)),
        );
        blocks.push(terminate(1));
        cases.push((of(1, blocks, &times), [28, 4, 7, 1, 0]));
    }
    let never_waits = vec![GENERATE, seize(5), ADVANCE, terminate(1)];
    cases.push((of(1, never_waits.clone(), &times), [28, 13, 4, 1, 0]));
    // The second waits for what the first holds: it holds nothing, and stays.
    let waited = of(2, never_waits, &[vec![4, 1], vec![9]]);
    cases.push((waited, [28, 13, 6, 2, 0]));
    cases
}

/// All given back; only a storage held; a copy, while its original holds.
fn nothing_held() -> Vec<(Case, Wanted)> {
    let times = [vec![4], vec![9]];
    let several = vec![
        GENERATE,
        seize(1),
        seize(7),
        seize(32),
        release(7),
        release(32),
        release(1),
        terminate(1),
    ];
    let storage = vec![
        GENERATE,
        Block::Enter {
            storage: 1,
            units: 3,
        },
        terminate(1),
    ];
    let copy = vec![
        GENERATE,
        seize(1),
        split(1, 6),
        ADVANCE,
        release(1),
        terminate(1),
    ];
    let again = vec![
        GENERATE,
        seize(1),
        release(1),
        seize(1),
        release(1),
        terminate(1),
    ];
    vec![
        (of(1, several, &times), [2, 4, 8, 1, 1]),
        (of(1, storage, &times), [2, 4, 3, 1, 1]),
        (of(2, copy, &times), [2, 13, 7, 2, 2]),
        (of(1, again, &times), [2, 4, 6, 1, 1]),
    ]
}
