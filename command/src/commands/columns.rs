//! `covrith columns`: a trace by column, and back.

use super::{write_chosen, Command};
use crate::args::Args;
use crate::failure::{Done, Failure};
use crate::files;
use crate::shown;
use engine::{from_columns, to_columns, Refusal};
use std::io::Write;

pub const COMMAND: Command = Command {
    name: "columns",
    words: "TRACE OUT",
    about: "write a trace by column, which packs better; --back the trace again",
    help: "\
Writes the columns of a trace to OUT, or to standard output for -: how many records, then all clocks as differences, all
transactions, all blocks and all outcomes (docs/COLUMNS.md). What is refused writes nothing.

  --back            TRACE is columns, and OUT gets the trace that produces them
  --replace         write over OUT where it is a regular file
",
    flags: &["--back", "--replace"],
    valued: &[],
    run: columns,
};

type Direction = fn(&[u8], &mut [u8]) -> Result<usize, Refusal>;

fn columns(args: &Args, out: &mut dyn Write) -> Done<()> {
    let [from, to] = args.paths("a file to read and one to write")?;
    let given = files::read(from)?;
    // Columns need at most four bytes more than the trace, a trace at most twice the bytes of its columns.
    let (turn, room): (Direction, usize) = match args.has("--back") {
        true => (from_columns, 2 * given.len()),
        false => (to_columns, given.len() + 4),
    };
    let mut bytes = vec![0; room];
    let refused = |refusal| Failure::new(format!("{}: {refusal}", shown::path(from)));
    let length = turn(&given, &mut bytes).map_err(refused)?;
    write_chosen(to, &bytes[..length], args.has("--replace"), out)
}
