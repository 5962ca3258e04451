//! The proved engine for Rust: a run of a block model on a tape, the records of its trace, traces by column and its report by names;
//! streams of random numbers, tapes drawn from distributions, and two models joined to one.
//!
//! ```
//! use covrith::simulate;
//!
//! // One crane: ships come 3 ticks after the start and 2 ticks later, and hold it for 5 and 4 ticks.
//! let model = [1, 1, 0, 0, 0, 2, 2, 5, 1, 1, 0, 4, 1, 2, 2, 5, 1, 3, 1];
//! let tape = [2, 3, 2, 2, 5, 4];
//! match simulate(&model, &tape, 1_000_000, 65_536) {
//!     Ok(run) => {
//!         for record in run.records() {
//!             println!("{} {} {}", record.clock, record.transaction, record.block);
//!         }
//!         println!("end {}: {}", run.end.number(), run.end);
//!         assert_eq!(run.report.facilities[0].entries, 2);
//!     }
//!     Err(refusal) => println!("refused {}: {refusal}", refusal.number()),
//! }
//! ```

mod columns;
mod header;
mod join;
mod names;
mod number;
mod report;
mod run;
mod stream;
pub mod sys;
pub mod tape;
mod trace;

pub use columns::{from_columns, to_columns};
pub use header::Header;
pub use join::{join, write_joined};
pub use names::{End, Place, Refusal};
pub use report::{Living, NoReport, Queue, Report, Server};
pub use run::{run, simulate, Outcome, Run, REPORT_BYTES, WORK_NUMBERS};
pub use stream::{Stream, STREAMS};
pub use tape::{make_tape, write_tape, Distribution, List};
pub use trace::{count, read_record, write_record, Record, Records};
