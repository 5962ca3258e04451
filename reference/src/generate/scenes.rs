//! Models made for one turn of events that is else seldom met.

use super::contention::{empty_model, small_times};
use super::random::Random;
use super::Size;
use crate::model::{Block, Comparison, Model, Part, Sum, Term};
use crate::tape::Tape;

/// Waiters on comparisons that turn round in the very turn that ends the run.
pub fn last_turn(random: &mut Random) -> (Model, Tape) {
    let mut model = empty_model();
    model.facilities = 1;
    model.capacities = vec![2];
    model.queues = 1;
    model.lists = 4;
    model.counter = random.number(1, 2);
    let last = 8;
    let left = if random.one_in(3) {
        Term::Entries(last)
    } else {
        Term::Clock
    };
    let waiting = Comparison {
        left,
        relation: random.number(3, 4),
        right: Term::Constant(random.number(0, 5)),
    };
    let ends = match random.below(6) {
        0..=1 => Block::Terminate {
            amount: random.number(1, 3),
        },
        2 => Block::Release { facility: 1 },
        3 => Block::Leave {
            storage: 1,
            units: random.number(1, 2),
        },
        4 => Block::Depart { queue: 1 },
        _ => Block::Advance { list: 4 },
    };
    model.blocks = vec![
        Block::Generate {
            list: 1,
            priority: random.number(0, 2),
        },
        Block::Split {
            copies: random.number(1, 3),
            target: 3,
        },
        Block::WaitIfComparison {
            comparison: waiting,
        },
        Block::Arrive { queue: 1 },
        Block::Terminate { amount: 0 },
        Block::Generate {
            list: 2,
            priority: random.number(0, 2),
        },
        Block::Advance { list: 3 },
        ends,
        Block::Terminate { amount: 1 },
    ];
    // Often one of each: the waiters stand before the clock makes its leap.
    let (waiters, movers) = if random.one_in(3) { (3, 6) } else { (1, 1) };
    let leap = random.between(2, 6);
    let spent = random.below(3);
    let tape = vec![
        small_times(random, waiters, 1),
        small_times(random, movers, 1),
        vec![leap; 20],
        small_times(random, spent, 3),
    ];
    (model, tape)
}

/// Parameters that copies take along and that later blocks ask for.
pub fn carried(random: &mut Random, size: Size) -> (Model, Tape) {
    let mut model = empty_model();
    model.queues = 1;
    model.lists = 2;
    let plus = |term: Term| Part { minus: false, term };
    let less = Part {
        minus: true,
        term: Term::Constant(1),
    };
    let first = Term::Comparison(Box::new(Comparison {
        left: Term::Parameter(1),
        relation: random.number(1, 6),
        right: Term::Constant(random.number(0, 3)),
    }));
    model.values = vec![
        Sum {
            parts: vec![plus(Term::Parameter(1)), less],
        },
        Sum {
            parts: vec![plus(Term::Parameter(1)), plus(first)],
        },
    ];
    let carried = match random.below(3) {
        0 => Term::Clock,
        1 => Term::Entries(2),
        _ => Term::Constant(random.number(1, 4)),
    };
    let compare = |random: &mut Random, left: Term, right: Term| Comparison {
        left,
        relation: random.number(1, 6),
        right,
    };
    let level = Term::Constant(random.number(0, 4));
    let other = random.number(2, 4);
    model.blocks = vec![
        Block::Generate {
            list: 1,
            priority: random.number(0, 1),
        },
        Block::Let {
            parameter: 1,
            term: carried,
        },
        Block::Let {
            parameter: other,
            term: Term::Value(2),
        },
        Block::Split {
            copies: random.number(1, 3),
            target: 5,
        },
        Block::WaitIfComparison {
            comparison: compare(random, Term::Parameter(1), Term::Entries(7)),
        },
        Block::If {
            comparison: compare(random, Term::Parameter(other), level),
            target: 9,
        },
        Block::Arrive { queue: 1 },
        Block::Advance { list: 2 },
        Block::Let {
            parameter: 1,
            term: Term::Value(1),
        },
        Block::If {
            comparison: Comparison {
                left: Term::Parameter(1),
                relation: 5,
                right: Term::Constant(0),
            },
            target: 5,
        },
        Block::Terminate { amount: 1 },
    ];
    let count = if size.is_small() { 6 } else { 40 };
    let tape = vec![
        small_times(random, count, 3),
        small_times(random, count * 8, 3),
    ];
    (model, tape)
}
