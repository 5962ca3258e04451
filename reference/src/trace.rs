//! The trace: its records, their writer, their reader and the byte count
//! (01, Bytes: "Trace record: clock, transaction, block, outcome").

use crate::model::Model;
use crate::number::{number_bytes, read_number};
use crate::rules::Rules;

/// The most bytes one record has.
pub const MAX_RECORD_BYTES: usize = 12;

pub const MAX_TRANSACTION: u64 = 100_000_000;
pub const MAX_BLOCK: u64 = Model::MAX_BLOCKS as u64;
pub const MAX_OUTCOME: u64 = 1;

/// The reader's answer at or past the end, as a number.
pub const NO_MORE: u32 = 30;

/// One record and the position after it.
#[derive(Clone, Copy, Debug, PartialEq, Eq)]
pub struct Record {
    pub clock: u64,
    pub transaction: u64,
    pub block: u64,
    pub outcome: u64,
    pub next: usize,
}

/// The same under the rules of the engine.
pub fn read_record(bytes: &[u8], position: usize) -> Result<Record, u32> {
    read_record_with(Rules::LANDED, bytes, position)
}

/// Reads the record at `position`, or gives 30 (no more), 31 or 32.
pub fn read_record_with(rules: Rules, bytes: &[u8], position: usize) -> Result<Record, u32> {
    if position >= bytes.len() {
        return Err(NO_MORE);
    }
    // "each asked before the next number is read"
    let field = |position: usize, low: u64, high: u64| {
        let (value, after) = read_number(bytes, position, rules.max_number()).ok_or(31u32)?;
        if value < low || value > high {
            return Err(32u32);
        }
        Ok((value, after))
    };
    let (clock, after) = field(position, 0, rules.max_clock())?;
    let (transaction, after) = field(after, 1, MAX_TRANSACTION)?;
    let (block, after) = field(after, 1, MAX_BLOCK)?;
    let (outcome, next) = field(after, 0, MAX_OUTCOME)?;
    Ok(Record {
        clock,
        transaction,
        block,
        outcome,
        next,
    })
}

/// Keeps the lent bytes and its position between records.
#[derive(Clone, Debug)]
pub struct TraceReader<'a> {
    pub rules: Rules,
    pub bytes: &'a [u8],
    pub position: usize,
}

impl<'a> TraceReader<'a> {
    /// A reader under the rules of the engine.
    pub fn new(bytes: &'a [u8]) -> TraceReader<'a> {
        TraceReader::with(Rules::LANDED, bytes)
    }

    pub fn with(rules: Rules, bytes: &'a [u8]) -> TraceReader<'a> {
        TraceReader {
            rules,
            bytes,
            position: 0,
        }
    }

    /// The next record. "A refusal leaves the position."
    pub fn next_record(&mut self) -> Result<Record, u32> {
        let record = read_record_with(self.rules, self.bytes, self.position)?;
        self.position = record.next;
        Ok(record)
    }

    /// "a second call counts the bytes below 80 hexadecimal": of all lent bytes.
    pub fn count_low_bytes(&self) -> usize {
        count_low(self.bytes) as usize
    }
}

/// How many of the bytes are below 80 hexadecimal, one after the other.
pub fn count_low(bytes: &[u8]) -> u64 {
    let mut count = 0;
    for byte in bytes {
        if *byte < 0x80 {
            count += 1;
        }
    }
    count
}

/// The same under the rules of the engine.
pub fn write_record(
    rest: &mut [u8],
    clock: u64,
    transaction: u64,
    block: u64,
    outcome: u64,
) -> Result<usize, u32> {
    write_record_with(Rules::LANDED, rest, [clock, transaction, block, outcome])
}

/// Writes one record at the front of `rest` and gives its length, or 32, or
/// 33. "A refusal writes nothing."
pub fn write_record_with(rules: Rules, rest: &mut [u8], record: [u64; 4]) -> Result<usize, u32> {
    let [clock, transaction, block, outcome] = record;
    let in_range = clock <= rules.max_clock()
        && (1..=MAX_TRANSACTION).contains(&transaction)
        && (1..=MAX_BLOCK).contains(&block)
        && outcome <= MAX_OUTCOME;
    if !in_range {
        return Err(32);
    }
    let mut bytes = Vec::new();
    for number in record {
        bytes.extend(number_bytes(number));
    }
    if bytes.len() > rest.len() {
        return Err(33);
    }
    rest[..bytes.len()].copy_from_slice(&bytes);
    Ok(bytes.len())
}
