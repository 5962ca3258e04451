//! A run: on lent buffers, or with buffers of its own and results by names.

use crate::{sys, End, Header, Record, Records, Refusal, Report};

/// What a run asks of its work buffer, in 32-bit numbers.
pub const WORK_NUMBERS: usize = 16_384;

/// What a run asks of its report buffer, in bytes.
pub const REPORT_BYTES: usize = 10_240;

/// The results of a run as numbers, in the paper's order.
#[derive(Clone, Copy, Debug, Default, PartialEq, Eq)]
pub struct Outcome {
    /// 0 for none; else all other results are 0.
    pub refusal: u64,
    pub end: u64,
    pub clock: u64,
    pub turns: u64,
    pub made: u64,
    pub ended: u64,
    pub trace_bytes: u64,
    pub report_bytes: u64,
}

impl Outcome {
    pub fn of(numbers: [u64; 8]) -> Outcome {
        let [refusal, end, clock, turns, made, ended, trace_bytes, report_bytes] = numbers;
        Outcome {
            refusal,
            end,
            clock,
            turns,
            made,
            ended,
            trace_bytes,
            report_bytes,
        }
    }

    /// The end of an accepted run, the refusal of another.
    ///
    /// # Panics
    /// If the numbers are not those of a run.
    pub fn result(&self) -> Result<End, Refusal> {
        match self.refusal {
            0 => Ok(End::of(self.end).expect("an end of document 01")),
            number => Err(Refusal::of(number).expect("a refusal of document 01")),
        }
    }
}

/// Runs a model on a tape for at most `budget` turns. Bytes of trace and report past the lengths in the outcome,
/// and all buffers of a refused run, stay as they were. Nothing is allocated.
///
/// ```
/// use covrith::{run, Refusal, REPORT_BYTES, WORK_NUMBERS};
/// let (mut work, mut report) = ([0; WORK_NUMBERS], [0; REPORT_BYTES]);
/// let outcome = run(&[1, 0, 0, 0, 0, 0, 1, 0], &[], 10, &mut work, &mut [], &mut report);
/// assert_eq!(outcome.result(), Err(Refusal::ModelRange)); // a model has one block at least
/// ```
pub fn run(
    model: &[u8],
    tape: &[u8],
    budget: u64,
    work: &mut [u32],
    trace: &mut [u8],
    report: &mut [u8],
) -> Outcome {
    let mut numbers = [0; 8];
    // SAFETY: slices are valid for their lengths, aligned and, where written to, disjoint.
    unsafe {
        sys::covrith_run(
            model.as_ptr(),
            model.len(),
            tape.as_ptr(),
            tape.len(),
            budget,
            work.as_mut_ptr(),
            work.len(),
            trace.as_mut_ptr(),
            trace.len(),
            report.as_mut_ptr(),
            report.len(),
            numbers.as_mut_ptr(),
        );
    }
    Outcome::of(numbers)
}

/// An accepted run.
#[derive(Clone, Debug, PartialEq, Eq)]
pub struct Run {
    pub end: End,
    pub outcome: Outcome,
    pub trace: Vec<u8>,
    pub report: Report,
    /// The report as the engine wrote it.
    pub report_bytes: Vec<u8>,
}

impl Run {
    /// The records of its trace.
    pub fn records(&self) -> impl Iterator<Item = Record> + '_ {
        Records::new(&self.trace).map(|record| record.expect("an engine's trace reads"))
    }
}

/// Runs a model on a tape for at most `budget` turns, with room for `trace_bytes` bytes of trace.
///
/// ```
/// use covrith::{simulate, End};
/// let model = [1, 1, 0, 0, 0, 2, 2, 5, 1, 1, 0, 4, 1, 2, 2, 5, 1, 3, 1];
/// let tape = [2, 3, 2, 2, 5, 4];
/// let run = simulate(&model, &tape, 1_000_000, 65_536).unwrap();
/// assert_eq!(run.end, End::Counter);
/// assert_eq!(run.report.facilities[0].ticks_waited, 3);
/// let waits = run.records().filter(|record| !record.entered()).count();
/// assert_eq!(waits, 1);
///
/// let refusal = simulate(&model, &tape[..5], 1_000_000, 65_536).unwrap_err();
/// assert_eq!(refusal.number(), 8);
/// ```
pub fn simulate(
    model: &[u8],
    tape: &[u8],
    budget: u64,
    trace_bytes: usize,
) -> Result<Run, Refusal> {
    let mut work = vec![0; WORK_NUMBERS];
    let mut trace = vec![0; trace_bytes];
    let mut report = vec![0; REPORT_BYTES];
    let outcome = run(model, tape, budget, &mut work, &mut trace, &mut report);
    let end = outcome.result()?;
    trace.truncate(outcome.trace_bytes as usize);
    trace.shrink_to_fit();
    report.truncate(outcome.report_bytes as usize);
    Ok(Run {
        end,
        outcome,
        trace,
        report: Report::read(&report, &Header::read(model)?).expect("an engine's report reads"),
        report_bytes: report,
    })
}
