//! The records of a trace.

use crate::{sys, Refusal};
use std::iter::FusedIterator;

/// One record of a trace.
#[derive(Clone, Copy, Debug, PartialEq, Eq)]
pub struct Record {
    pub clock: u64,
    pub transaction: u64,
    pub block: u64,
    /// 0 entered, 1 began to wait.
    pub outcome: u64,
}

impl Record {
    pub fn entered(&self) -> bool {
        self.outcome == 0
    }
}

/// What the reader answers at or past the end.
const NO_MORE: u32 = 30;

/// The record at a position and the position of the next; none at or past the end.
///
/// ```
/// use covrith::{read_record, Refusal};
/// let trace = [3, 1, 1, 0];
/// let (record, next) = read_record(&trace, 0).unwrap().unwrap();
/// assert_eq!((record.clock, record.transaction, record.block, record.outcome), (3, 1, 1, 0));
/// assert_eq!(read_record(&trace, next), Ok(None));
/// assert_eq!(read_record(&trace[..3], 0), Err(Refusal::RecordNumber));
/// ```
pub fn read_record(trace: &[u8], position: usize) -> Result<Option<(Record, usize)>, Refusal> {
    let mut numbers = [0; 5];
    // SAFETY: the slice is valid for its length, and 5 numbers are written.
    let answer = unsafe {
        sys::covrith_read_record(trace.as_ptr(), trace.len(), position, numbers.as_mut_ptr())
    };
    if answer == NO_MORE {
        return Ok(None);
    }
    accepted(answer)?;
    let [clock, transaction, block, outcome, next] = numbers;
    let record = Record {
        clock,
        transaction,
        block,
        outcome,
    };
    Ok(Some((record, next as usize)))
}

/// Writes a record at the front of the unused rest of a trace and gives its length. A refusal writes nothing.
pub fn write_record(rest: &mut [u8], record: Record) -> Result<usize, Refusal> {
    let mut written = 0;
    // SAFETY: as for `read_record`.
    let answer = unsafe {
        sys::covrith_write_record(
            rest.as_mut_ptr(),
            rest.len(),
            record.clock,
            record.transaction,
            record.block,
            record.outcome,
            &mut written,
        )
    };
    accepted(answer)?;
    Ok(written as usize)
}

/// How many bytes are below 80 hexadecimal.
pub fn count(trace: &[u8]) -> u64 {
    // SAFETY: as for `read_record`.
    unsafe { sys::covrith_count(trace.as_ptr(), trace.len()) }
}

/// An answer: 0, or the number of a refusal.
pub(crate) fn accepted(answer: u32) -> Result<(), Refusal> {
    match answer {
        0 => Ok(()),
        number => Err(Refusal::of(u64::from(number)).expect("a number of document 01")),
    }
}

/// The records of a trace one after the other; a refusal is the last item.
///
/// ```
/// use covrith::{Records, Refusal};
/// let trace = [3, 1, 1, 0, 3, 1, 2, 0, 3, 0];
/// let mut records = Records::new(&trace);
/// let blocks: Vec<u64> = records.by_ref().take(2).map(|record| record.unwrap().block).collect();
/// assert_eq!(blocks, [1, 2]);
/// assert_eq!(records.next(), Some(Err(Refusal::RecordRange)));
/// assert_eq!((records.next(), records.position()), (None, 8));
/// ```
#[derive(Clone, Debug)]
pub struct Records<'a> {
    trace: &'a [u8],
    position: usize,
    refused: bool,
}

impl<'a> Records<'a> {
    pub fn new(trace: &'a [u8]) -> Records<'a> {
        Records {
            trace,
            position: 0,
            refused: false,
        }
    }

    /// Where the next record begins. A refusal leaves it.
    pub fn position(&self) -> usize {
        self.position
    }
}

impl Iterator for Records<'_> {
    type Item = Result<Record, Refusal>;

    fn next(&mut self) -> Option<Result<Record, Refusal>> {
        if self.refused {
            return None;
        }
        match read_record(self.trace, self.position) {
            Ok(None) => None,
            Ok(Some((record, next))) => {
                self.position = next;
                Some(Ok(record))
            }
            Err(refusal) => {
                self.refused = true;
                Some(Err(refusal))
            }
        }
    }
}

impl FusedIterator for Records<'_> {}
