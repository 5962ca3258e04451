//! A run of the engine with as much room as its trace can need.

use crate::failure::{Done, Failure};
use crate::limits::{RECORD_BYTES, TURNS};
use engine::{Header, Outcome, Report, Run, REPORT_BYTES, WORK_NUMBERS};
use std::alloc::{alloc_zeroed, Layout};

/// A run has no more turns than this, and end 26 comes before end 3: with this budget no run ends 3.
pub const BUDGET: u64 = TURNS;

/// Room for a record of full length in each turn: with it no run ends 4.
pub const ROOM: u64 = TURNS * RECORD_BYTES;

/// What a run is given.
#[derive(Clone, Copy, Debug, PartialEq, Eq)]
pub struct Lent {
    pub budget: u64,
    /// The length of the trace buffer.
    pub room: u64,
    /// The room is less than the usual because memory is short.
    pub short: bool,
}

/// Whether memory ended this run: with more of it the same command gives another trace.
pub fn cut_by_memory(lent: Lent, outcome: &Outcome) -> bool {
    lent.short && outcome.end == 4
}

impl Lent {
    /// The usual, where the options name nothing else.
    pub fn usual(budget: Option<u64>, room: Option<u64>) -> Lent {
        Lent::shared(budget, room, 1)
    }

    /// The same for each of several runs at a time.
    pub fn shared(budget: Option<u64>, room: Option<u64>, jobs: u64) -> Lent {
        let budget = budget.unwrap_or(BUDGET);
        if let Some(room) = room {
            return Lent {
                budget,
                room,
                short: false,
            };
        }
        let memory = available_memory().map_or(ROOM, |bytes| bytes / 4 * 3 / jobs);
        let mut room = ROOM.min(memory);
        // the black box keeps the compiler from leaving out what it allocates and drops
        while room > RECORD_BYTES && std::hint::black_box(zeroed::<u8>(room)).is_none() {
            room /= 2;
        }
        Lent {
            budget,
            room,
            short: room < ROOM,
        }
    }
}

/// What the system says it can still give, on Linux.
fn available_memory() -> Option<u64> {
    let text = std::fs::read_to_string("/proc/meminfo").ok()?;
    let line = text
        .lines()
        .find(|line| line.starts_with("MemAvailable:"))?;
    let kilobytes: u64 = line.split_whitespace().nth(1)?.parse().ok()?;
    Some(kilobytes * 1024)
}

/// Numbers whose zero is all bytes zero.
///
/// # Safety
/// All bytes zero are a value of the type.
unsafe trait Zero {}
unsafe impl Zero for u8 {}
unsafe impl Zero for u32 {}

/// Zeroed numbers that take memory only where they are written to; none where the system refuses.
fn zeroed<T: Zero>(length: u64) -> Option<Vec<T>> {
    let length = usize::try_from(length).ok()?;
    let layout = Layout::array::<T>(length).ok()?;
    if length == 0 {
        return Some(Vec::new());
    }
    // SAFETY: the layout is not empty; the memory comes from the global allocator with it, and all zero is a value.
    unsafe {
        let numbers = alloc_zeroed(layout).cast::<T>();
        (!numbers.is_null()).then(|| Vec::from_raw_parts(numbers, length, length))
    }
}

/// The lengths of the buffers that a run is lent: numbers, bytes, bytes.
#[derive(Clone, Copy, Debug, PartialEq, Eq)]
pub struct Lengths {
    pub work: u64,
    pub trace: u64,
    pub report: u64,
}

impl Lengths {
    /// What a run asks for, with this room for its trace.
    pub fn usual(trace: u64) -> Lengths {
        Lengths {
            work: WORK_NUMBERS as u64,
            trace,
            report: REPORT_BYTES as u64,
        }
    }
}

/// What a run of lent buffers gives: its results, its trace and its report.
pub struct Given {
    pub outcome: Outcome,
    pub trace: Vec<u8>,
    pub report: Vec<u8>,
}

/// Runs a model on a tape with buffers of these lengths; none where there is no memory for them.
pub fn lend(model: &[u8], tape: &[u8], budget: u64, lengths: Lengths) -> Option<Given> {
    let mut work = zeroed(lengths.work)?;
    let mut trace = zeroed(lengths.trace)?;
    let mut report = zeroed(lengths.report)?;
    let outcome = engine::run(model, tape, budget, &mut work, &mut trace, &mut report);
    trace.truncate(outcome.trace_bytes as usize);
    trace.shrink_to_fit();
    report.truncate(outcome.report_bytes as usize);
    Some(Given {
        outcome,
        trace,
        report,
    })
}

/// Runs a model on a tape that the engine accepts.
pub fn execute(model: &[u8], tape: &[u8], lent: Lent) -> Done<Run> {
    let given = lend(model, tape, lent.budget, Lengths::usual(lent.room)).ok_or_else(|| {
        Failure::new(format!(
            "there is no memory for a trace of {} bytes; --trace-bytes asks for less",
            lent.room
        ))
    })?;
    let refused = |r: engine::Refusal| Failure::new(format!("refused {}: {r}", r.number()));
    let end = given.outcome.result().map_err(refused)?;
    let header = Header::read(model).map_err(refused)?;
    let report = Report::read(&given.report, &header);
    Ok(Run {
        end,
        outcome: given.outcome,
        trace: given.trace,
        report: report.map_err(|e| Failure::new(e.to_string()))?,
        report_bytes: given.report,
    })
}
