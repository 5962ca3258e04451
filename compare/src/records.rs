//! Reader, writer and counter of records on good, damaged and random traces.

use crate::lent::Lent;
use crate::shrink::smaller_bytes;
use covrith::{count, sys, Records};
use reference::generate::random::Random;
use reference::generate::traces::trace as made_up;
use reference::line::hex;
use reference::trace::{self, TraceReader};
use reference::Rules;
use std::collections::BTreeMap;

/// How often each answer was given.
#[derive(Default)]
pub struct Answers {
    pub reader: BTreeMap<u32, u64>,
    pub writer: BTreeMap<u32, u64>,
}

/// Some readings, writings and counts beside a run's own trace.
pub fn compare(random: &mut Random, own: &[u8], answers: &mut Answers) -> Result<(), String> {
    whole(own)?;
    let mut bytes = own.to_vec();
    bytes.truncate(2_000);
    if random.one_in(4) {
        bytes = (0..random.below(40)).map(|_| odd_byte(random)).collect();
    } else if random.one_in(3) {
        // Made-up records, some with a number at or beside a limit.
        bytes = made_up(Rules::LANDED, random);
        bytes.truncate(2_000);
    }
    for _ in 0..random.below(3) {
        damage(random, &mut bytes);
    }
    whole(&bytes).map_err(|text| shrunk(&bytes, &text, |bytes| whole(bytes).is_err()))?;
    for _ in 0..2 {
        let at = position(random, bytes.len());
        let stale = random.next_u64();
        let answer = read(&bytes, at, stale)
            .map_err(|text| shrunk(&bytes, &text, |bytes| read(bytes, at, stale).is_err()))?;
        *answers.reader.entry(answer).or_insert(0) += 1;
    }
    let answer = write(random)?;
    *answers.writer.entry(answer).or_insert(0) += 1;
    Ok(())
}

fn shrunk(bytes: &[u8], text: &str, fails: impl Fn(&[u8]) -> bool) -> String {
    format!("{text}: trace {}", hex(&smaller_bytes(bytes, fails)))
}

/// The whole trace through both readers, and its low bytes.
fn whole(bytes: &[u8]) -> Result<(), String> {
    let mut reference = TraceReader::new(bytes);
    for item in Records::new(bytes) {
        let same = match (item, reference.next_record()) {
            (Ok(r), Ok(w)) => {
                [r.clock, r.transaction, r.block, r.outcome]
                    == [w.clock, w.transaction, w.block, w.outcome]
            }
            (Err(refusal), Err(w)) => refusal.number() == u64::from(w),
            _ => false,
        };
        if !same {
            return Err(format!("record before {}", reference.position));
        }
    }
    if reference.next_record() == Err(trace::NO_MORE) && reference.position < bytes.len() {
        return Err("the reader stops early".to_string());
    }
    if count(bytes) != reference.count_low_bytes() as u64 {
        return Err("count of low bytes".to_string());
    }
    Ok(())
}

/// One reading with stale numbers in the lent record.
fn read(bytes: &[u8], at: usize, stale: u64) -> Result<u32, String> {
    let mut record: Lent<u64> = Lent::new(&mut Random::new(stale), 5);
    // SAFETY: the bytes are a slice with their length, and the record has 5 numbers.
    let answer = unsafe {
        sys::covrith_read_record(bytes.as_ptr(), bytes.len(), at, record.lend().as_mut_ptr())
    };
    let agrees = match trace::read_record(bytes, at) {
        Ok(w) => {
            let numbers = [w.clock, w.transaction, w.block, w.outcome, w.next as u64];
            answer == 0 && record.now() == numbers && record.guards_kept()
        }
        Err(refusal) => answer == refusal && record.kept_past(0),
    };
    if agrees {
        Ok(answer)
    } else {
        Err(format!("reading at {at}, answer {answer}"))
    }
}

/// One writing of numbers at and beside their ranges into a rest of any length.
fn write(random: &mut Random) -> Result<u32, String> {
    let numbers = [
        near(random, Rules::LANDED.max_clock()),
        near(random, 100_000_000),
        near(random, 256),
        near(random, 1),
    ];
    let [clock, transaction, block, outcome] = numbers;
    let length = random.below(16) as usize;
    let mut rest: Lent<u8> = Lent::new(random, length);
    let mut written: Lent<u64> = Lent::new(random, 1);
    let lent = rest.lend();
    // SAFETY: the rest is a slice with its length, and one number is lent for the count.
    let answer = unsafe {
        sys::covrith_write_record(
            lent.as_mut_ptr(),
            lent.len(),
            clock,
            transaction,
            block,
            outcome,
            written.lend().as_mut_ptr(),
        )
    };
    let mut wanted = vec![0; length];
    let agrees = match trace::write_record(&mut wanted, clock, transaction, block, outcome) {
        Ok(n) => {
            answer == 0
                && written.now() == [n as u64]
                && rest.now()[..n] == wanted[..n]
                && rest.kept_past(n)
        }
        Err(refusal) => answer == refusal && written.now() == [0] && rest.kept_past(0),
    };
    if agrees && written.guards_kept() {
        Ok(answer)
    } else {
        Err(format!(
            "writing {numbers:?} into {length} bytes, answer {answer}"
        ))
    }
}

/// A number at or beside 0, a number of groups, or the end of a range.
fn near(random: &mut Random, high: u64) -> u64 {
    match random.below(12) {
        0 => random.below(3),
        1 => high + 1,
        2 => high,
        3 => high.saturating_sub(random.below(3)),
        4 => (1u64 << (7 * random.below(10))).wrapping_sub(random.below(2)),
        5 if random.one_in(4) => *random.pick(&[u64::MAX, 1 << 32, (1 << 32) + 1, 1 << 63]),
        _ => random.between(1, high),
    }
}

fn odd_byte(random: &mut Random) -> u8 {
    match random.below(4) {
        0 => *random.pick(&[0, 1, 2, 127, 128, 129, 255]),
        1 => random.below(3) as u8,
        _ => random.below(256) as u8,
    }
}

fn position(random: &mut Random, length: usize) -> usize {
    match random.below(10) {
        0 => length,
        1 => *random.pick(&[length + 1, usize::MAX, usize::MAX - 4, 0]),
        _ => random.below(length as u64 + 1) as usize,
    }
}

fn damage(random: &mut Random, bytes: &mut Vec<u8>) {
    let at = random.below(bytes.len() as u64 + 1) as usize;
    match random.below(4) {
        0 => bytes.truncate(at),
        1 if at < bytes.len() => bytes[at] = odd_byte(random),
        2 if at < bytes.len() => bytes[at] ^= 1 << random.below(8),
        _ => bytes.insert(at, odd_byte(random)),
    }
}
