//! The tape: the sample lists (01, Bytes: "Tape: for each list a count").

use crate::model::Model;
use crate::number::read_number;
use crate::rules::Rules;

/// The times of each list, in order.
pub type Tape = Vec<Vec<u64>>;

/// The same under the rules of the engine.
pub fn decode_tape(bytes: &[u8], lists: u32) -> Result<Tape, u32> {
    decode_tape_with(Rules::LANDED, bytes, lists)
}

/// Gives the lists, or the number of the first question answered "no": 8, 9, 10.
pub fn decode_tape_with(rules: Rules, bytes: &[u8], lists: u32) -> Result<Tape, u32> {
    let mut position = 0;
    let mut tape = Vec::new();
    for _ in 0..lists {
        let most = u64::from(Model::MAX_SAMPLES);
        let count = field(rules, bytes, &mut position, most)?;
        let mut times = Vec::new();
        for _ in 0..count {
            times.push(field(rules, bytes, &mut position, rules.max_sample())?);
        }
        tape.push(times);
    }
    if position < bytes.len() {
        return Err(10);
    }
    Ok(tape)
}

/// The next number, from 0 to `high`: question 8, then 9.
fn field(rules: Rules, bytes: &[u8], position: &mut usize, high: u64) -> Result<u64, u32> {
    let (value, after) = read_number(bytes, *position, rules.max_number()).ok_or(8u32)?;
    if value > high {
        return Err(9);
    }
    *position = after;
    Ok(value)
}
