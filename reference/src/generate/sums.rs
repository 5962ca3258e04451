//! Random terms, comparisons and values.

use super::fields::count_numbers;
use super::random::Random;
use crate::model::{Comparison, Model, Part, Sum, Term};

/// What a term may name.
#[derive(Clone, Copy, Debug)]
pub struct Scope {
    pub facilities: u32,
    pub storages: u32,
    pub queues: u32,
    /// Values 1..this may be named.
    pub values: u32,
    pub blocks: u32,
    /// A usual span of time, for comparisons with the clock.
    pub span: u32,
}

fn constant(random: &mut Random) -> u32 {
    match random.below(20) {
        0 => Model::MAX_CONSTANT,
        1 => Model::MAX_CONSTANT - random.number(0, 3),
        2 => random.number(0, Model::MAX_CONSTANT),
        3..=5 => random.number(0, 200),
        _ => random.number(0, 5),
    }
}

/// A term that the run changes, if there is any.
pub fn state_term(random: &mut Random, scope: &Scope) -> Term {
    for _ in 0..8 {
        match random.below(5) {
            0 if scope.queues > 0 => return Term::Content(random.number(1, scope.queues)),
            1 if scope.storages > 0 => return Term::UnitsInUse(random.number(1, scope.storages)),
            2 if scope.storages > 0 => return Term::UnitsFree(random.number(1, scope.storages)),
            3 if scope.facilities > 0 => {
                return Term::FacilityInUse(random.number(1, scope.facilities))
            }
            4 => return Term::Entries(random.number(1, scope.blocks)),
            _ => {}
        }
    }
    Term::Entries(random.number(1, scope.blocks))
}

/// Any term of tags 0..9.
pub fn plain_term(random: &mut Random, scope: &Scope) -> Term {
    match random.below(14) {
        0..=2 => Term::Constant(constant(random)),
        3 => Term::MinusConstant(constant(random)),
        4..=5 => Term::Parameter(random.number(1, 4)),
        6 => Term::Clock,
        7..=9 if scope.values > 0 => Term::Value(random.number(1, scope.values)),
        _ => state_term(random, scope),
    }
}

/// A comparison of two terms of a block, mostly one that a run may turn round.
pub fn comparison(random: &mut Random, scope: &Scope) -> Comparison {
    let small = Term::Constant(random.number(0, 4));
    let parameter = Term::Parameter(random.number(1, 2));
    let (left, right) = match random.below(12) {
        0..=2 => (state_term(random, scope), small),
        3 => (Term::Clock, Term::Constant(random.number(0, scope.span))),
        4 => (parameter, small),
        5..=6 if scope.values > 0 => (Term::Value(random.number(1, scope.values)), small),
        7 => (state_term(random, scope), state_term(random, scope)),
        8..=9 => (state_term(random, scope), parameter),
        _ => (plain_term(random, scope), plain_term(random, scope)),
    };
    let relation = random.number(1, 6);
    if random.one_in(4) {
        return Comparison {
            left: right,
            relation,
            right: left,
        };
    }
    Comparison {
        left,
        relation,
        right,
    }
}

/// How deep the brackets of a sum go, and how often it mentions values.
pub fn measure(sum: &Sum) -> (u32, u32) {
    let mut deepest = 0;
    let mut mentions = 0;
    for part in &sum.parts {
        let (depth, named) = measure_term(&part.term);
        deepest = deepest.max(depth);
        mentions += named;
    }
    (deepest, mentions)
}

fn measure_term(term: &Term) -> (u32, u32) {
    match term {
        Term::Value(_) => (0, 1),
        Term::Comparison(comparison) => {
            let (left, left_named) = measure_term(&comparison.left);
            let (right, right_named) = measure_term(&comparison.right);
            (1 + left.max(right), left_named + right_named)
        }
        Term::Bracket(sum) => {
            let (depth, named) = measure(sum);
            (1 + depth, named)
        }
        _ => (0, 0),
    }
}

pub fn within_limits(sum: &Sum) -> bool {
    let (depth, mentions) = measure(sum);
    count_numbers(sum) <= Model::MAX_VALUE_NUMBERS as usize
        && depth <= Model::MAX_OPEN_BRACKETS
        && mentions <= Model::MAX_MENTIONS
}

/// A sum of any shape, brackets to the given depth; it may break the limits.
pub fn wild_sum(random: &mut Random, scope: &Scope, depth: u32, most: u32) -> Sum {
    let count = random.number(1, most);
    let parts = (0..count)
        .map(|_| Part {
            minus: random.one_in(3),
            term: wild_term(random, scope, depth, most),
        })
        .collect();
    Sum { parts }
}

fn wild_term(random: &mut Random, scope: &Scope, depth: u32, most: u32) -> Term {
    if depth == 0 || random.percent(55) {
        return plain_term(random, scope);
    }
    if random.one_in(2) {
        let most = if random.one_in(2) { 2 } else { most };
        return Term::Bracket(wild_sum(random, scope, depth - 1, most));
    }
    Term::Comparison(Box::new(Comparison {
        left: wild_term(random, scope, depth - 1, most),
        relation: random.number(1, 6),
        right: wild_term(random, scope, depth - 1, most),
    }))
}

/// A value within its limits.
pub fn value(random: &mut Random, scope: &Scope) -> Sum {
    if random.one_in(4) {
        return step(random);
    }
    for _ in 0..40 {
        let depth = random.number(0, 4);
        let most = *random.pick(&[1, 2, 3, 4, 8]);
        let sum = wild_sum(random, scope, depth, most);
        if within_limits(&sum) {
            return sum;
        }
    }
    step(random)
}

/// A parameter up or down by a little: what loops count with.
pub fn step(random: &mut Random) -> Sum {
    let by = random.number(1, 2);
    Sum {
        parts: vec![
            Part {
                minus: false,
                term: Term::Parameter(random.number(1, 4)),
            },
            Part {
                minus: random.one_in(4),
                term: Term::Constant(by),
            },
        ],
    }
}

/// A value of exactly 64 numbers, or of 65 and more.
pub fn long_value(random: &mut Random, scope: &Scope, too_long: bool) -> Sum {
    let limit = Model::MAX_VALUE_NUMBERS as usize;
    for _ in 0..4_000 {
        let depth = random.number(1, 4);
        let sum = wild_sum(random, scope, depth, 8);
        let (depth, mentions) = measure(&sum);
        let numbers = count_numbers(&sum);
        if depth <= 4 && mentions <= 2 && (numbers > limit) == too_long && numbers + 3 > limit {
            return sum;
        }
    }
    step(random)
}
