//! Random tapes.

use super::random::Random;
use super::Size;
use crate::rules::Rules;

/// A usual span between two times of a list.
pub fn span(random: &mut Random) -> u32 {
    *random.pick(&[1, 2, 3, 4, 6, 10, 10, 25, 100, 5_000])
}

fn time(rules: Rules, random: &mut Random, span: u64) -> u64 {
    match random.below(40) {
        0 if rules.wide_clocks && random.one_in(9) => {
            *random.pick(&[2_147_483_648, 4_294_967_296, rules.max_sample()])
        }
        0 => Rules::BASE.max_sample(),
        1..=3 => 0,
        4..=5 => span,
        _ => random.between(0, span),
    }
}

/// The times of one list.
pub fn times(rules: Rules, random: &mut Random, count: u32, span: u32) -> Vec<u64> {
    let span = u64::from(span);
    match random.below(12) {
        0 => vec![0; count as usize],
        1 => vec![span; count as usize],
        2 => (0..count).map(|_| time(rules, random, span)).collect(),
        _ => (0..count).map(|_| random.between(0, span)).collect(),
    }
}

/// How many times a list for GENERATE has.
pub fn arrivals(random: &mut Random, size: Size) -> u32 {
    match (random.below(20), size.is_small()) {
        (0, _) => random.number(0, 2),
        (1, _) => random.number(1, 4),
        (_, true) => random.number(4, 20),
        (2..=12, false) => random.number(8, 60),
        (13..=18, false) => random.number(40, 200),
        (_, false) => random.number(200, 400),
    }
}

/// How many times a list for ADVANCE has.
pub fn delays(random: &mut Random, size: Size) -> u32 {
    match (random.below(20), size.is_small()) {
        (0, _) => random.number(0, 8),
        (_, true) => random.number(20, 60),
        (_, false) => random.number(100, 1_200),
    }
}
