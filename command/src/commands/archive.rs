//! `covrith archive`: a run and everything that a second run needs, as a sealed folder of its own.

use super::{cannot_write, run_study, say, tell, Command};
use crate::args::Args;
use crate::contents::contents;
use crate::date;
use crate::durable;
use crate::execute::{cut_by_memory, Lent};
use crate::failure::{Done, Failure};
use crate::files::there;
use crate::form2;
use crate::page::Page;
use crate::seal::{self, folder_of};
use crate::shown;
use crate::study::{self, Study};
use std::io::Write;
use std::path::{Path, PathBuf};

pub const COMMAND: Command = Command {
    name: "archive",
    words: "FOLDER",
    about: "run a model and archive it as a sealed folder of its own",
    help: "\
Runs the model of the folder and writes FOLDER/archive, a bag (RFC 8493) with model, tape, trace and report as bytes, their
text, the formats, and a page with everything that a second run needs; sha256sum --check manifest-sha256.txt and any
program for bags check it. It is there whole or not at all, and on the disk before success is said. No command but archive
--replace changes it. A refused pair and a run that short memory cut are not archived.

  --to DIR          DIR is the archive
  --replace         a new archive in place of an old one
  --columns         the trace by column (docs/COLUMNS.md), which packs better
",
    flags: &["--replace", "--columns"],
    valued: &["--to", "--budget", "--trace-bytes"],
    run,
};

/// The archive's name in its work folder.
pub const NAME: &str = "archive";

fn run(args: &Args, out: &mut dyn Write) -> Done<()> {
    let [folder] = args.paths("one folder")?;
    let place = match args.value("--to") {
        Some(to) => PathBuf::from(to),
        None => folder.join(NAME),
    };
    let replace = args.has("--replace");
    let day = date::today()?;
    let (budget, room) = (args.number("--budget")?, args.number("--trace-bytes")?);
    let old = prepare(&place, replace)?;
    let mut notes = Vec::new();
    let study = study::load(folder, &mut notes)?;
    tell(&notes);
    let lent = Lent::usual(budget, room);
    let page = archive(&study, lent, args.has("--columns"), &place, old, &day)?;
    let o = &page.outcome;
    if o.end >= 21 {
        tell(&[format!("the run was stopped, end {}: {}", o.end, page.end)]);
    }
    let line = format!(
        "{}: archived, end {} at clock {}, {} bytes of trace\n",
        shown::path(&place),
        o.end,
        o.clock,
        o.trace_bytes
    );
    let said = say(out, &line).and_then(|()| out.flush().map_err(cannot_write));
    said.map_err(|mut failure| {
        if !failure.message.is_empty() {
            failure.message = format!("{}; {}", line.trim_end(), failure.message);
        }
        failure
    })
}

/// Clears the place: leftovers are removed, and what may not be written is refused. Says whether an archive is there.
fn prepare(place: &Path, replace: bool) -> Done<bool> {
    let name = shown::path(place);
    if place.file_name().is_none() {
        return Err(Failure::usage(format!("{name} is no name for an archive")));
    }
    let parent = folder_of(place);
    if !parent.is_dir() {
        let parent = shown::path(parent);
        return Err(Failure::new(format!("{parent}: no such folder")));
    }
    // a flat archive of form 1 may get a folder beside its files; a bag may get nothing
    if seal::in_bag(parent)? {
        return Err(Failure::new(format!(
            "{name}: not written: its folder is, or is below, an archive or another bag"
        )));
    }
    tell(&durable::sweep(parent));
    if !there(place) {
        return Ok(false);
    }
    if let Err(why) = form2::only_ours(place) {
        return Err(Failure::new(format!(
            "{name}: {why}; it stays as it is, and nothing is archived"
        )));
    }
    match replace {
        true => Ok(true),
        false => Err(Failure::new(format!(
            "{name}: there is an archive already; covrith verify looks at it, --replace writes a new one"
        ))),
    }
}

/// Runs a study and writes its archive.
pub fn archive(
    study: &Study,
    lent: Lent,
    columns: bool,
    place: &Path,
    old: bool,
    day: &str,
) -> Done<Page> {
    let run = run_study(study, lent)?;
    if cut_by_memory(lent, &run.outcome) {
        return Err(Failure::new(format!(
            "{}: not archived: memory ended the run after {} bytes of trace at clock {}, and with more of it the run goes on\n    \
             free memory, or say where the trace ends: --trace-bytes {}",
            shown::path(&study.folder),
            run.outcome.trace_bytes,
            run.outcome.clock,
            lent.room
        )));
    }
    let contents = contents(study, &run, lent, columns, day)?;
    tell(&contents.notes);
    let notes = durable::write_folder(place, &contents.files, old).map_err(|trouble| {
        let as_before = match old {
            true => "the old archive is as it was",
            false => "nothing is archived",
        };
        Failure::new(trouble.message(place, as_before))
    })?;
    tell(&notes);
    Ok(contents.page)
}
