//! Late clocks and large numbers of a tape (02, item 1), each with the refusal,
//! the end and the clock that the papers give.

use super::first_example;
use crate::generate::fields::{encode_model, encode_tape};
use crate::generate::Case;
use crate::model::{Block, Comparison, Model, Part, Sum, Term};
use crate::number::number_bytes;

const LAST: u64 = 32_000_000_000;
const LONGEST: u64 = 10_000_000_000;

/// Refusal, end and clock.
pub type Wanted = [u64; 3];

pub fn cases() -> Vec<(Case, Wanted)> {
    let mut cases = last_clocks();
    cases.extend(clock_terms());
    cases.extend(orders());
    cases.extend(tape_numbers());
    cases.extend(model_numbers());
    cases
}

fn model(lists: u32, blocks: Vec<Block>) -> Model {
    Model {
        edition: Model::FIRST_EDITION,
        facilities: 1,
        capacities: Vec::new(),
        queues: 1,
        values: Vec::new(),
        lists,
        counter: Model::MAX_COUNTER,
        blocks,
    }
}

fn given(model: Vec<u8>, tape: Vec<u8>) -> Case {
    Case {
        model,
        tape,
        ..first_example()
    }
}

fn of(model: &Model, tape: &[Vec<u64>]) -> Case {
    given(encode_model(model), encode_tape(&tape.to_vec()))
}

const GENERATE: Block = Block::Generate {
    list: 1,
    priority: 0,
};
const ADVANCE: Block = Block::Advance { list: 2 };
const TERMINATE: Block = Block::Terminate { amount: 1 };

/// The limit of document 01 passed, the last clock reached, one more: by
/// ADVANCE, by GENERATE, and at the start.
fn last_clocks() -> Vec<(Case, Wanted)> {
    let walker = model(2, vec![GENERATE, ADVANCE, Block::Goto { target: 2 }]);
    let lone = model(1, vec![GENERATE, TERMINATE]);
    let walk = |times: &[u64]| of(&walker, &[times[..1].to_vec(), times[1..].to_vec()]);
    let arrive = |times: &[u64]| of(&lone, &[times.to_vec()]);
    let far = 3 * LONGEST;
    vec![
        (walk(&[1_999_999_999, 1, 1]), [0, 23, 2_000_000_001]),
        (
            walk(&[LONGEST, LONGEST, LONGEST, LAST - far]),
            [0, 23, LAST],
        ),
        (
            walk(&[LONGEST, LONGEST, LONGEST, LAST - far, 0]),
            [0, 23, LAST],
        ),
        (
            walk(&[LONGEST, LONGEST, LONGEST, LAST - far, 1]),
            [0, 22, LAST],
        ),
        (
            walk(&[LONGEST, LONGEST, LONGEST, LAST - far + 1]),
            [0, 22, far],
        ),
        (walk(&[LONGEST, LONGEST, LONGEST, LONGEST]), [0, 22, far]),
        (arrive(&[1_999_999_999, 1, 1]), [0, 1, 2_000_000_001]),
        (
            arrive(&[LONGEST, LONGEST, LONGEST, LAST - far]),
            [0, 1, LAST],
        ),
        (
            arrive(&[LONGEST, LONGEST, LONGEST, LAST - far + 1]),
            [0, 22, far],
        ),
        (arrive(&[LONGEST]), [0, 1, LONGEST]),
    ]
}

/// One comes at each of these clocks and goes to its own TERMINATE exactly if
/// the clock term is the number beside it; the run ends with 2 if all do.
fn clock_terms() -> Vec<(Case, Wanted)> {
    let arrivals: [(u64, i64); 9] = [
        (2_000_000_001, 2_000_000_001),
        (2_147_483_647, 2_147_483_647),
        (2_147_483_648, -2_147_483_648),
        (4_294_967_295, -1),
        (4_294_967_296, 0),
        (4_294_967_301, 5),
        (6_442_450_943, 2_147_483_647),
        (6_442_450_944, -2_147_483_648),
        (LAST, 1_935_228_928),
    ];
    let lowest = Sum {
        parts: vec![
            Part {
                minus: true,
                term: Term::Constant(Model::MAX_CONSTANT),
            },
            Part {
                minus: true,
                term: Term::Constant(1),
            },
        ],
    };
    let mut asked = vec![GENERATE];
    let mut own = Vec::new();
    // GENERATE, the questions, then two blocks for each own end behind this one.
    let first = arrivals.len() as u32 + 3;
    for (at, (_, term)) in arrivals.iter().enumerate() {
        let right = match *term {
            number if number >= 0 => Term::Constant(number as u32),
            -1 => Term::MinusConstant(1),
            _ => Term::Value(1),
        };
        asked.push(Block::If {
            comparison: Comparison {
                left: Term::Clock,
                relation: 1,
                right,
            },
            target: first + 2 * at as u32,
        });
        own.push(Block::Arrive { queue: 1 });
        own.push(TERMINATE);
    }
    asked.push(Block::Terminate { amount: 0 });
    asked.extend(own);
    let mut terms = model(1, asked);
    terms.values = vec![lowest];
    terms.counter = arrivals.len() as u32;
    let mut times = Vec::new();
    let mut clock = 0;
    for (at, _) in arrivals {
        while at - clock > LONGEST {
            times.push(LONGEST);
            clock += LONGEST;
        }
        times.push(at - clock);
        clock = at;
    }
    let waits = waits_on_the_clock();
    vec![(of(&terms, &[times]), [0, 2, LAST]), waits]
}

/// A wait while the clock term is below 0, from before 2^32 to after it, and a
/// difference of two clock terms that is right across it.
fn waits_on_the_clock() -> (Case, Wanted) {
    let since = Sum {
        parts: vec![
            Part {
                minus: false,
                term: Term::Clock,
            },
            Part {
                minus: true,
                term: Term::Parameter(1),
            },
        ],
    };
    let less = |left: Term, right: u32| Comparison {
        left,
        relation: 3,
        right: Term::Constant(right),
    };
    let blocks = vec![
        GENERATE,
        Block::Let {
            parameter: 1,
            term: Term::Clock,
        },
        Block::WaitIfComparison {
            comparison: less(Term::Clock, 0),
        },
        Block::WaitIfComparison {
            comparison: less(Term::Value(1), 12),
        },
        TERMINATE,
        Block::Generate {
            list: 2,
            priority: 0,
        },
        Block::Terminate { amount: 0 },
    ];
    let mut model = model(2, blocks);
    model.values = vec![since];
    model.counter = 1;
    let ticks = vec![4_294_967_293, 2, 2, 2, 2, 2, 2];
    (
        of(&model, &[vec![4_294_967_290], ticks]),
        [0, 2, 4_294_967_303],
    )
}

/// Move times whose low 32 bits stand in another order, and ticks in use of
/// more than 32 bits: the last to come is served first, from clock 12 on, then
/// the second, third and first.
fn orders() -> Vec<(Case, Wanted)> {
    let blocks = vec![
        GENERATE,
        Block::Arrive { queue: 1 },
        ADVANCE,
        Block::Seize { facility: 1 },
        ADVANCE,
        Block::Release { facility: 1 },
        Block::Depart { queue: 1 },
        TERMINATE,
    ];
    let delays = vec![
        8_589_934_592,
        4_294_967_297,
        4_294_967_299,
        7,
        LONGEST,
        3,
        1,
        2,
    ];
    let case = of(&model(2, blocks), &[vec![1, 1, 1, 2], delays]);
    vec![(case, [0, 1, 12 + LONGEST + 3 + 1 + 2])]
}

/// "any that fits five groups", then the range: as a count and as a time.
fn tape_numbers() -> Vec<(Case, Wanted)> {
    let lone = encode_model(&model(1, vec![GENERATE, TERMINATE]));
    let tape = |numbers: &[u64]| numbers.iter().flat_map(|n| number_bytes(*n)).collect();
    let refused = |tape: Vec<u8>, refusal: u64| (given(lone.clone(), tape), [refusal, 0, 0]);
    let mut cases = vec![(given(lone.clone(), tape(&[1, LONGEST])), [0, 1, LONGEST])];
    cases.push((
        given(lone.clone(), tape(&[1, 1_000_001])),
        [0, 1, 1_000_001],
    ));
    for (number, refusal) in [
        (LONGEST + 1, 9),
        (34_359_738_367, 9),
        (34_359_738_368, 8),
        (1 << 42, 8),
    ] {
        cases.push(refused(tape(&[1, number]), refusal));
        cases.push(refused(tape(&[number, 1]), refusal));
    }
    cases.push(refused(tape(&[4_294_967_295]), 9));
    cases.push(refused(tape(&[4_294_967_296]), 9));
    // Five groups, the first of them without a bit.
    cases.push(refused(vec![1, 0x80, 0xFF, 0xFF, 0xFF, 0x7F], 8));
    cases.push(refused(vec![1, 0xA5, 0xA0, 0xAF, 0xC8], 8));
    cases
}

/// "Model numbers keep the old size."
fn model_numbers() -> Vec<(Case, Wanted)> {
    [(4_294_967_295, 4), (4_294_967_296, 3), (34_359_738_367, 3)]
        .into_iter()
        .map(|(number, refusal)| {
            let mut model = vec![Model::FIRST_EDITION as u8];
            model.extend(number_bytes(number));
            (given(model, Vec::new()), [refusal, 0, 0])
        })
        .collect()
}
