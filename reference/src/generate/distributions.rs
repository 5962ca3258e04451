//! Random calls of the tape maker (02, item 4), good and damaged.

use super::random::Random;
use crate::maker::{MAX_MEAN, MAX_POINTS, MAX_TIME, PER_ONE, PER_TICK};
use crate::model::Model;

/// Everything that the tape maker is given.
#[derive(Clone, Debug)]
pub struct TapeCall {
    pub stream: u32,
    pub lists: Vec<u32>,
    pub numbers: Vec<f64>,
    pub room: usize,
}

/// A time in 64ths, to a limit in ticks.
fn time(random: &mut Random, most: u64) -> u64 {
    let most = most * PER_TICK;
    match random.below(10) {
        0 => 0,
        1 => most,
        2 => most - random.below(70),
        3 => random.below(70),
        4..=6 => random.between(0, 100) * PER_TICK,
        7 => random.between(0, 10_000),
        _ => random.between(0, most),
    }
}

fn double(parts: u64, per: u64) -> f64 {
    parts as f64 / per as f64
}

/// Points of a curve: u in 65,536ths and times in 64ths.
pub fn points(random: &mut Random) -> Vec<(u64, u64)> {
    let count = match random.below(4) {
        0 => 2,
        1 => MAX_POINTS as u64,
        _ => random.between(2, MAX_POINTS as u64),
    };
    let mut us = std::collections::BTreeSet::from([0, PER_ONE]);
    // Sometimes all near each other, 1/65,536 apart.
    let close = random.one_in(3);
    let from = random.between(1, PER_ONE - 1 - count);
    while (us.len() as u64) < count {
        us.insert(if close {
            random.between(from, from + count)
        } else {
            random.between(1, PER_ONE - 1)
        });
    }
    let equal = random.one_in(8).then(|| time(random, MAX_TIME));
    let mut times: Vec<u64> = us
        .iter()
        .map(|_| equal.unwrap_or_else(|| time(random, MAX_TIME)))
        .collect();
    times.sort();
    us.into_iter().zip(times).collect()
}

/// The doubles of one good distribution, and its kind and number of points.
fn good(random: &mut Random) -> (u32, Vec<f64>, u32) {
    match random.below(5) {
        0 => (0, vec![double(time(random, MAX_TIME), PER_TICK)], 0),
        1..=2 => {
            let mean = time(random, MAX_MEAN);
            let half = match random.below(4) {
                0 => mean,
                1 => 0,
                _ => random.between(0, mean),
            };
            let doubles = vec![double(mean, PER_TICK), double(half, PER_TICK)];
            (1, doubles, 0)
        }
        _ => {
            let points = points(random);
            let doubles = points
                .iter()
                .flat_map(|(u, time)| [double(*u, PER_ONE), double(*time, PER_TICK)])
                .collect();
            (2, doubles, points.len() as u32)
        }
    }
}

/// A double that is mostly outside the rules.
pub fn odd_double(random: &mut Random, near: f64) -> f64 {
    match random.below(16) {
        0 => f64::NAN,
        1 => f64::INFINITY,
        2 => f64::NEG_INFINITY,
        3 => -0.0,
        4 => -1.0 / 64.0,
        5 => near + 1.0 / 128.0,
        6 => 1_000_000.015_625,
        7 => 1_000_000.0,
        8 => 500_000.015_625,
        9 => f64::from_bits(near.to_bits() ^ 1),
        10 => f64::from_bits(1),
        11 => -near,
        12 => f64::MAX,
        13 => near + 1.0,
        14 => 1.0 / 65_536.0,
        _ => f64::from_bits(random.next_u64()),
    }
}

/// A call with enough room for its tape.
pub fn good_call(random: &mut Random) -> TapeCall {
    let count = match random.below(12) {
        0 => 0,
        1 => u64::from(Model::MAX_LISTS),
        _ => random.between(1, 4),
    };
    let mut numbers: Vec<f64> = Vec::new();
    let mut lists = Vec::new();
    for _ in 0..count {
        // Something in between that no list names.
        if random.one_in(5) {
            numbers.push(f64::NAN);
        }
        let (kind, doubles, points) = good(random);
        let times = match random.below(20) {
            0 => 0,
            1 => 65_535 * u32::from(random.one_in(40)),
            _ => random.number(1, 60),
        };
        lists.extend([kind, times, numbers.len() as u32, points]);
        numbers.extend(doubles);
    }
    TapeCall {
        stream: *random.pick(&[0, 1, 2, 510, 511, random.clone().number(0, 511)]),
        room: room(&lists),
        lists,
        numbers,
    }
}

/// Bytes that are enough: three for each number, times being at most 1,000,000.
fn room(lists: &[u32]) -> usize {
    let counts = lists
        .chunks(4)
        .map(|list| 3 + 3 * list[1].min(65_535) as usize);
    counts.sum()
}

/// Any call, often with a damage or two.
pub fn call(random: &mut Random) -> TapeCall {
    let mut call = good_call(random);
    for _ in 0..random.below(3) {
        spoil(random, &mut call);
    }
    if random.one_in(4) {
        let needed = crate::maker::make_tape(
            call.stream,
            &call.lists,
            &call.numbers,
            &mut vec![0; call.room],
        );
        let needed = needed.unwrap_or(0);
        call.room = match random.below(4) {
            0 => needed,
            1 => needed.saturating_sub(1),
            2 => 0,
            _ => random.below(needed as u64 + 1) as usize,
        };
    }
    call
}

fn spoil(random: &mut Random, call: &mut TapeCall) {
    let list = random.below(call.lists.len() as u64 / 4 + 1) as usize * 4;
    let at = random.below(call.numbers.len() as u64 + 1) as usize;
    let inside = list + 4 <= call.lists.len();
    match random.below(12) {
        0 => call.stream = *random.pick(&[512, 513, u32::MAX]),
        1 if inside => call.lists[list] = *random.pick(&[0, 1, 2, 3, u32::MAX]),
        2 if inside => call.lists[list + 1] = *random.pick(&[65_535, 65_536, u32::MAX]),
        3 if inside => call.lists[list + 2] = random.number(0, call.numbers.len() as u32 + 1),
        4 if inside => call.lists[list + 2] = u32::MAX,
        5 if inside => call.lists[list + 3] = *random.pick(&[0, 1, 2, 24, 25, u32::MAX]),
        6 => {
            call.lists.pop();
        }
        7 if inside => {
            // One more list, a seventeenth at times.
            let copy: Vec<u32> = call.lists[list..list + 4].to_vec();
            let more = 1 + random.below(2) as usize * 16usize.saturating_sub(call.lists.len() / 4);
            for _ in 0..more {
                call.lists.extend(&copy);
            }
            call.room = room(&call.lists);
        }
        8 if at + 2 < call.numbers.len() => call.numbers.swap(at, at + 2),
        9 => {
            call.numbers.truncate(at);
        }
        _ if at < call.numbers.len() => {
            call.numbers[at] = odd_double(random, call.numbers[at]);
        }
        _ => {}
    }
}
