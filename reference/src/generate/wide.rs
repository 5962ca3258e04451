//! Cases at late clocks (02, item 1): near both limits, at clocks whose low 32
//! bits are negative or have gone round, and with times of more than 32 bits.

use super::contention::{empty_model, small_times};
use super::nasty::{crowded_last_clock, last_clock, to_last_clock};
use super::random::Random;
use super::structured::model_and_tape;
use super::{good_case, Case, Size};
use crate::model::{Block, Comparison, Model, Part, Sum, Term};
use crate::rules::Rules;

/// Clocks beside which something changes.
const TURNS: [u64; 6] = [
    2_000_000_000,
    2_147_483_648,
    4_294_967_295,
    4_294_967_296,
    4_294_967_301,
    6_442_450_944,
];

pub fn case(rules: Rules, random: &mut Random, size: Size) -> Case {
    match random.below(10) {
        0..=1 => last_clock(rules, random, size),
        2 if size == Size::Full => crowded_last_clock(rules, random),
        2..=5 => clock_terms(rules, random, size),
        6..=7 => far_apart(rules, random, size),
        _ => stretched(rules, random, size),
    }
}

/// A time at or beside one of the clocks of `TURNS`.
fn beside(random: &mut Random) -> u64 {
    *random.pick(&TURNS) + random.between(0, 4) - 2
}

/// One jump to a late clock, then small steps past it, or jumps to just before
/// the last clock; blocks ask for the clock.
fn clock_terms(rules: Rules, random: &mut Random, size: Size) -> Case {
    let mut model = empty_model();
    model.queues = 1;
    model.lists = 3;
    let plus = |term: Term| Part { minus: false, term };
    let large = Term::Constant(Model::MAX_CONSTANT - random.number(0, 2));
    model.values = vec![
        Sum {
            parts: vec![
                plus(Term::Clock),
                Part {
                    minus: random.one_in(2),
                    term: large.clone(),
                },
                plus(Term::Constant(random.number(0, 3))),
            ],
        },
        Sum {
            parts: vec![plus(Term::Clock), plus(Term::Parameter(2))],
        },
    ];
    let asked = |random: &mut Random| {
        let edge = Term::Constant(Model::MAX_CONSTANT - random.number(0, 3));
        let low = Term::MinusConstant(Model::MAX_CONSTANT - random.number(0, 3));
        let near = Term::Constant(random.number(0, 12));
        let minus = Term::MinusConstant(random.number(0, 12));
        let right = random.pick(&[edge, low, near, minus]).clone();
        let left = random
            .pick(&[Term::Clock, Term::Clock, Term::Value(1), Term::Parameter(1)])
            .clone();
        Comparison {
            left,
            relation: random.number(1, 6),
            right,
        }
    };
    model.blocks = vec![
        Block::Generate {
            list: 1,
            priority: random.number(0, 2),
        },
        Block::Let {
            parameter: 1,
            term: Term::Clock,
        },
        Block::Let {
            parameter: 2,
            term: Term::Value(1),
        },
        Block::WaitIfComparison {
            comparison: asked(random),
        },
        Block::If {
            comparison: asked(random),
            target: 7,
        },
        Block::Arrive { queue: 1 },
        Block::Advance { list: 2 },
        Block::If {
            comparison: asked(random),
            target: 2,
        },
        Block::Terminate { amount: 1 },
        // Somebody else moves the clock on.
        Block::Generate {
            list: 3,
            priority: 1,
        },
        Block::Terminate { amount: 0 },
    ];
    let count = if size.is_small() { 10 } else { 60 };
    let mut arrivals = small_times(random, count, 3);
    let mut others = small_times(random, count * 2, 2);
    if random.one_in(4) {
        let mut jumps = to_last_clock(rules);
        *jumps.last_mut().expect("some") -= random.between(0, 4);
        others.splice(0..0, jumps.clone());
        arrivals.splice(0..0, jumps);
    } else {
        arrivals[0] = beside(random) - 4;
        if random.one_in(3) {
            arrivals[2] = beside(random);
        }
        others[0] = arrivals[0] + random.between(0, 3);
    }
    let delays = small_times(random, count * 3, 4);
    good_case(rules, random, size, &model, &vec![arrivals, delays, others])
}

/// Move times whose low 32 bits stand in another order than the times themselves.
fn far_apart(rules: Rules, random: &mut Random, size: Size) -> Case {
    let mut model = empty_model();
    model.facilities = 1;
    model.lists = 2;
    model.blocks = vec![
        Block::Generate {
            list: 1,
            priority: random.number(0, 2),
        },
        Block::Split {
            copies: random.number(1, 3),
            target: 3,
        },
        Block::Advance { list: 2 },
        Block::Seize { facility: 1 },
        Block::Advance { list: 2 },
        Block::Release { facility: 1 },
        Block::Terminate { amount: 1 },
    ];
    let count = if size.is_small() { 20 } else { 60 };
    let mut time = || {
        let rounds = random.between(0, 2) * 4_294_967_296 * u64::from(random.one_in(5));
        rounds + random.between(0, 5)
    };
    let delays: Vec<u64> = (0..count).map(|_| time()).collect();
    let arrivals = small_times(random, 6, 4);
    good_case(rules, random, size, &model, &vec![arrivals, delays])
}

/// A model of any sort whose times are a million times as long, or that begins late.
fn stretched(rules: Rules, random: &mut Random, size: Size) -> Case {
    let (model, mut tape) = model_and_tape(rules, random, size);
    if random.one_in(2) {
        let factor = *random.pick(&[1_000, 1_000_000, 50_000_000]);
        for time in tape.iter_mut().flatten() {
            *time = (*time * factor).min(rules.max_sample());
        }
    } else {
        let start = if random.one_in(3) {
            rules.max_sample()
        } else {
            beside(random)
        };
        for list in &mut tape {
            if let Some(first) = list.first_mut() {
                *first = start + *first % 8 - 8 * u64::from(start == rules.max_sample());
            }
        }
    }
    good_case(rules, random, size, &model, &tape)
}
