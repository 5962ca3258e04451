//! `covrith catalogue`: the sums of all archives below a folder.

use super::{say, tell, Command};
use crate::args::Args;
use crate::catalogue::{Catalogue, CATALOGUE};
use crate::durable;
use crate::failure::{Done, Failure};
use crate::files::{self, there, Links};
use crate::find;
use crate::seal;
use crate::shown;
use std::io::Write;
use std::path::Path;

pub const COMMAND: Command = Command {
    name: "catalogue",
    words: "DIR",
    about: "write the sums of all archives below a folder",
    help: "\
Writes DIR/catalogue-sha256.txt: for each archive below DIR the SHA-256 of its tag manifest (of form 1: of its page), which
leads to the sums of all its files. In DIR, sha256sum --check catalogue-sha256.txt reads it. covrith verify DIR then also
tells archives that are missing, new or not those of the catalogue. The archives are not run: verify does that.

  --replace         write over a catalogue that is there, and say what has changed
",
    flags: &["--replace"],
    valued: &[],
    run: catalogue,
};

fn catalogue(args: &Args, out: &mut dyn Write) -> Done<()> {
    let [folder] = args.paths("one folder")?;
    let place = folder.join(CATALOGUE);
    seal::refuse(&place)?;
    let name = shown::path(&place);
    if there(&place) && !args.has("--replace") {
        return Err(Failure::new(format!(
            "{name}: there is a catalogue already; covrith verify goes by it, --replace writes a new one"
        )));
    }
    let found = find::below(folder);
    if let Some((path, why)) = found.closed.first() {
        let path = shown::path(path);
        return Err(Failure::new(format!("{path}: {why}; nothing is written")));
    }
    tell(&durable::sweep(folder));
    let mut new = Catalogue::default();
    for (archive, form) in &found.archives {
        new.add(folder, archive, *form).map_err(|e| {
            let archive = shown::path(archive);
            Failure::new(format!("{archive}: {e}; nothing is written"))
        })?;
    }
    if new.sums.is_empty() {
        return Err(Failure::new(format!(
            "{}: there is no archive in it or below; nothing is written",
            shown::path(folder)
        )));
    }
    let old = files::regular(&place, Links::Refuse).unwrap_or_default();
    durable::write_file(&place, &new.text(), true, true)
        .map_err(|trouble| Failure::new(trouble.message(&place, "the catalogue is as it was")))?;
    say(
        out,
        &format!(
            "{name}: {}{}\n",
            archives(new.sums.len()),
            changes(&old, &new)
        ),
    )
}

fn archives(count: usize) -> String {
    match count {
        1 => "1 archive".to_string(),
        count => format!("{count} archives"),
    }
}

/// What a new catalogue has changed.
fn changes(old: &[u8], new: &Catalogue) -> String {
    let Some(old) = Catalogue::read(old).filter(|_| !old.is_empty()) else {
        return String::new();
    };
    let has = |all: &Catalogue, path: &Path| all.sums.contains_key(path);
    let added = new.sums.keys().filter(|path| !has(&old, path)).count();
    let gone = old.sums.keys().filter(|path| !has(new, path)).count();
    let other = |(path, sum): &(&std::path::PathBuf, &String)| {
        old.sums.get(*path).is_some_and(|old| old != *sum)
    };
    let changed = new.sums.iter().filter(other).count();
    format!("; {added} new, {gone} gone, {changed} changed since the last")
}
