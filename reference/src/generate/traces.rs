//! Random traces and columns, good and damaged, for the calls of 02, item 10.

use super::random::Random;
use super::{case_with, Size};
use crate::columns::to_columns_with;
use crate::model::Model;
use crate::number::number_bytes;
use crate::rules::Rules;
use crate::run::run_with;
use crate::trace::MAX_TRANSACTION;

/// One call: the given bytes and how many bytes are lent for the answer.
#[derive(Clone, Debug, PartialEq, Eq)]
pub struct Call {
    pub bytes: Vec<u8>,
    pub room: usize,
}

/// The trace of a random run.
pub fn run_trace(rules: Rules, random: &mut Random, size: Size) -> Vec<u8> {
    let case = case_with(rules, random, size);
    let mut trace = vec![0; case.trace_len];
    let mut report = vec![0; case.report_len];
    let outcome = run_with(
        rules,
        &case.model,
        &case.tape,
        case.budget,
        case.work_len,
        &mut trace,
        &mut report,
    );
    trace.truncate(outcome.trace_bytes as usize);
    trace
}

/// Four numbers for each record of a trace that no run need have written;
/// clocks never fall.
fn made_up(rules: Rules, random: &mut Random) -> Vec<[u64; 4]> {
    let count = *random.pick(&[0, 1, 2, 3, 7, 127, 128, 200]);
    let count = random.between(0, count);
    let last = *random.pick(&[0, 3, 127, 128, 20_000, rules.max_clock()]);
    let mut clocks: Vec<u64> = (0..count).map(|_| random.between(0, last)).collect();
    clocks.sort();
    clocks
        .into_iter()
        .map(|clock| {
            let transaction = *random.pick(&[1, 127, 128, 16_383, 16_384, MAX_TRANSACTION]);
            let block = *random.pick(&[1, 2, 127, 128, u64::from(Model::MAX_BLOCKS)]);
            [clock, transaction, block, random.below(2)]
        })
        .collect()
}

fn numbers_bytes(numbers: &[u64]) -> Vec<u8> {
    numbers.iter().flat_map(|n| number_bytes(*n)).collect()
}

/// The columns of these records, whatever stands in them.
fn raw_columns(records: &[[u64; 4]]) -> Vec<u64> {
    let mut numbers = vec![records.len() as u64];
    let mut before = 0;
    for record in records {
        numbers.push(record[0].wrapping_sub(before) % (1 << 36));
        before = record[0];
    }
    for field in 1..4 {
        numbers.extend(records.iter().map(|record| record[field]));
    }
    numbers
}

/// A number at or beside a limit.
fn limit(random: &mut Random) -> u64 {
    let limit = *random.pick(&[
        0,
        1,
        2,
        256,
        100_000_000,
        2_000_000_000,
        4_294_967_295,
        32_000_000_000,
        34_359_738_367,
    ]);
    (limit + random.below(3)).saturating_sub(1)
}

/// Bytes of a trace, mostly one that is taken.
pub fn trace(rules: Rules, random: &mut Random) -> Vec<u8> {
    if random.one_in(2) {
        let trace = run_trace(rules, random, Size::Short);
        return damage(random, trace);
    }
    let mut records = made_up(rules, random);
    if !records.is_empty() && random.one_in(3) {
        let at = random.below(records.len() as u64) as usize;
        let field = random.below(4) as usize;
        records[at][field] = limit(random);
        if random.one_in(3) {
            // A falling clock.
            records.swap(0, at);
        }
    }
    let bytes = numbers_bytes(&records.concat());
    damage(random, bytes)
}

/// Bytes of columns, mostly such that are taken.
pub fn columns(rules: Rules, random: &mut Random) -> Vec<u8> {
    if random.one_in(2) {
        let trace = run_trace(rules, random, Size::Short);
        let mut columns = vec![0; trace.len() + 5];
        let length = to_columns_with(rules, &trace, &mut columns).expect("of a run");
        columns.truncate(length);
        return damage(random, columns);
    }
    let mut numbers = raw_columns(&made_up(rules, random));
    if random.one_in(3) {
        let at = random.below(numbers.len() as u64) as usize;
        match random.below(4) {
            0 => numbers[0] = (numbers[0] + random.below(3)).saturating_sub(1),
            1 => {
                numbers.remove(at);
            }
            2 => numbers.insert(at, random.below(3)),
            _ => numbers[at] = limit(random),
        }
    }
    let bytes = numbers_bytes(&numbers);
    damage(random, bytes)
}

/// Two times out of three the bytes as they are; else one byte changed, added,
/// lost, or the rest cut off, or a number in a longer form.
fn damage(random: &mut Random, mut bytes: Vec<u8>) -> Vec<u8> {
    if random.below(3) < 2 {
        return bytes;
    }
    let at = random.below(bytes.len() as u64 + 1) as usize;
    match random.below(6) {
        0 if at < bytes.len() => bytes[at] = random.below(256) as u8,
        1 if at < bytes.len() => bytes[at] ^= 0x80,
        2 if at < bytes.len() => {
            bytes.remove(at);
        }
        3 => bytes.truncate(at),
        4 => bytes.insert(at, 0x80),
        _ => bytes.insert(at, random.below(256) as u8),
    }
    bytes
}

/// A call with room for these many bytes, or about as many.
pub fn call(random: &mut Random, bytes: Vec<u8>, needed: usize) -> Call {
    let room = match random.below(6) {
        0 => needed.saturating_sub(1),
        1 => needed,
        2 => random.below(needed as u64 + 1) as usize,
        3 => 0,
        _ => needed + random.below(9) as usize,
    };
    Call { bytes, room }
}

/// Bytes on both sides of 80 hexadecimal, often beside it, for the byte count.
pub fn low_and_high(random: &mut Random, length: usize) -> Vec<u8> {
    let high = random.below(101);
    let byte = |random: &mut Random| match (random.percent(high), random.below(4)) {
        (true, 0) => 0x80,
        (true, 1) => 0xFF,
        (true, _) => 0x80 + random.below(128) as u8,
        (false, 0) => 0x7F,
        (false, 1) => 0,
        (false, _) => random.below(128) as u8,
    };
    (0..length).map(|_| byte(random)).collect()
}
