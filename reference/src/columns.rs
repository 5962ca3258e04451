//! Traces by column (02, item 10): the record count, all clocks as differences,
//! all transactions, all blocks, all outcomes; and back.

use crate::number::{number_bytes, read_number};
use crate::rules::Rules;
use crate::trace::{
    read_record_with, write_record_with, Record, MAX_BLOCK, MAX_OUTCOME, MAX_RECORD_BYTES,
    MAX_TRANSACTION, NO_MORE,
};

/// "up to 100,000,000 records"
pub const MAX_RECORDS: u64 = 100_000_000;

/// "not such a trace, or not such columns"
pub const NOT_SUCH: u32 = 51;

/// "the output needs more bytes than were lent"
pub const NO_ROOM: u32 = 52;

/// The records of a trace that is taken: "if the reader takes it whole up to
/// 100,000,000 records and its clocks never fall".
pub fn taken_records(rules: Rules, trace: &[u8]) -> Result<Vec<Record>, u32> {
    let mut records: Vec<Record> = Vec::new();
    let mut position = 0;
    loop {
        match read_record_with(rules, trace, position) {
            Ok(record) => {
                let falls = records.last().is_some_and(|last| record.clock < last.clock);
                if falls || records.len() as u64 == MAX_RECORDS {
                    return Err(NOT_SUCH);
                }
                position = record.next;
                records.push(record);
            }
            Err(NO_MORE) => return Ok(records),
            Err(_) => return Err(NOT_SUCH),
        }
    }
}

/// The same under the rules of the engine.
pub fn to_columns(trace: &[u8], out: &mut [u8]) -> Result<usize, u32> {
    to_columns_with(Rules::LANDED, trace, out)
}

/// Columns of a trace at the front of `out`; gives their length, or 51, or 52.
pub fn to_columns_with(rules: Rules, trace: &[u8], out: &mut [u8]) -> Result<usize, u32> {
    let records = taken_records(rules, trace)?;
    let mut bytes = number_bytes(records.len() as u64);
    let mut before = 0;
    for record in &records {
        bytes.extend(number_bytes(record.clock - before));
        before = record.clock;
    }
    let fields: [fn(&Record) -> u64; 3] = [|r| r.transaction, |r| r.block, |r| r.outcome];
    for field in fields {
        for record in &records {
            bytes.extend(number_bytes(field(record)));
        }
    }
    put(&bytes, out)
}

/// The same under the rules of the engine.
pub fn from_columns(columns: &[u8], out: &mut [u8]) -> Result<usize, u32> {
    from_columns_with(Rules::LANDED, columns, out)
}

/// The trace of columns at the front of `out`; gives its length, or 51, or 52.
pub fn from_columns_with(rules: Rules, columns: &[u8], out: &mut [u8]) -> Result<usize, u32> {
    let mut source = Source {
        rules,
        bytes: columns,
        position: 0,
    };
    let count = source.number(0, MAX_RECORDS)?;
    let mut clock = 0;
    let mut clocks = Vec::new();
    for _ in 0..count {
        clock += source.number(0, rules.max_clock() - clock)?;
        clocks.push(clock);
    }
    let transactions = source.column(count, 1, MAX_TRANSACTION)?;
    let blocks = source.column(count, 1, MAX_BLOCK)?;
    let outcomes = source.column(count, 0, MAX_OUTCOME)?;
    if source.position < columns.len() {
        return Err(NOT_SUCH);
    }
    let mut bytes = Vec::new();
    for at in 0..count as usize {
        let mut record = [0; MAX_RECORD_BYTES];
        let numbers = [clocks[at], transactions[at], blocks[at], outcomes[at]];
        let length = write_record_with(rules, &mut record, numbers).expect("each was asked");
        bytes.extend(&record[..length]);
    }
    put(&bytes, out)
}

/// Takes numbers from columns one after the other.
struct Source<'a> {
    rules: Rules,
    bytes: &'a [u8],
    position: usize,
}

impl Source<'_> {
    fn number(&mut self, low: u64, high: u64) -> Result<u64, u32> {
        let most = self.rules.max_number();
        let (value, after) = read_number(self.bytes, self.position, most).ok_or(NOT_SUCH)?;
        if value < low || value > high {
            return Err(NOT_SUCH);
        }
        self.position = after;
        Ok(value)
    }

    fn column(&mut self, count: u64, low: u64, high: u64) -> Result<Vec<u64>, u32> {
        (0..count).map(|_| self.number(low, high)).collect()
    }
}

/// "A refused call writes nothing."
fn put(bytes: &[u8], out: &mut [u8]) -> Result<usize, u32> {
    if bytes.len() > out.len() {
        return Err(NO_ROOM);
    }
    out[..bytes.len()].copy_from_slice(bytes);
    Ok(bytes.len())
}
