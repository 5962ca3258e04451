//! `covrith verify`: archives run again and compared, on all cores.

use super::{cannot_write, say, tell, Command};
use crate::args::Args;
use crate::catalogue::{file_of, Catalogue, CATALOGUE};
use crate::failure::{Done, Failure};
use crate::files::{self, there, Links};
use crate::find;
use crate::sha256;
use crate::shown;
use crate::standard;
use crate::study;
use crate::verify::{verify, Form, Judgement, Verdict};
use std::collections::BTreeMap;
use std::ffi::OsString;
use std::io::{IsTerminal, Read, Write};
use std::os::unix::ffi::OsStringExt;
use std::path::{Path, PathBuf};
use std::sync::atomic::{AtomicUsize, Ordering};
use std::sync::mpsc;
use std::time::{Duration, Instant};

pub const COMMAND: Command = Command {
    name: "verify",
    words: "FOLDER..",
    about: "run archives again and say whether they are the same",
    help: "\
Compares the files of an archive with their sums, runs its model again with the budget and the lengths that its page names,
and compares results, trace and report. Of a folder of folders it verifies all archives below, on all cores. Each is \"same\",
\"differs\" (of a trace the first record with its position and both readings) or \"cannot be judged\": a file is missing, is
not readable or is no regular file, memory is short, or the form is not known. Exit status 0 if all are the same, 1 if any
differs, else 3. Beside a catalogue-sha256.txt it also tells archives that are missing, new or not those of the catalogue.

  --json            a line of JSON for each archive, and nothing else
  --list FILE       folders to verify, separated by NUL, from a file or, for -, from standard input
  --jobs N          at most N at a time (without it as many as the machine has cores)
",
    flags: &["--json"],
    valued: &["--jobs", "--list"],
    run,
};

/// How often the progress line is written.
const PROGRESS: Duration = Duration::from_millis(200);

/// Something to be judged: an archive, or what is known of it already.
struct Item {
    folder: PathBuf,
    form: Option<Form>,
    known: Judgement,
}

fn run(args: &Args, out: &mut dyn Write) -> Done<()> {
    let mut named: Vec<PathBuf> = args.words.iter().map(PathBuf::from).collect();
    if let Some(list) = args.value("--list") {
        named.extend(listed(Path::new(list))?);
    } else if named.is_empty() {
        return Err(Failure::usage("wanted is a folder or several"));
    }
    let cores = std::thread::available_parallelism().map_or(1, usize::from);
    let jobs = args.number("--jobs")?.map_or(cores, |n| n.max(1) as usize);
    let mut items = Vec::new();
    let mut notes = Vec::new();
    for folder in &named {
        items.extend(items_of(folder, &mut notes));
    }
    let json = args.has("--json");
    let few = items.len() <= named.len();
    let told = verify_all(&items, jobs, json, few, out)?;
    if !json && !few {
        let [same, differ, unjudged] = told.counts;
        let count = items.len();
        let archives = if count == 1 { "archive" } else { "archives" };
        for (words, count) in &told.makers {
            say(out, &format!("{count} {words}\n"))?;
        }
        say(
            out,
            &format!(
                "{count} {archives}: {same} same, {differ} differ, {unjudged} cannot be judged\n"
            ),
        )?;
    }
    out.flush().map_err(cannot_write)?;
    if few {
        let flat = items.iter().filter(|item| item.form == Some(Form::Flat));
        notes.extend(flat.flat_map(|item| study::other_text(&item.folder)));
    }
    tell(&notes);
    match told.counts {
        [_, 0, 0] => Ok(()),
        [_, 0, _] => Err(Failure::unjudged()),
        _ => Err(Failure::new("")),
    }
}

/// The folders that a list names, separated by NUL.
fn listed(list: &Path) -> Done<Vec<PathBuf>> {
    let bytes = match list == Path::new("-") {
        true if standard::input_closed() => {
            return Err(Failure::new("standard input: it is closed"));
        }
        true => {
            let mut bytes = Vec::new();
            let read = std::io::stdin().read_to_end(&mut bytes);
            read.map_err(|e| Failure::new(format!("standard input: {e}")))?;
            bytes
        }
        false => files::read(list)?,
    };
    let names = bytes.split(|b| *b == 0).filter(|name| !name.is_empty());
    Ok(names
        .map(|name| PathBuf::from(OsString::from_vec(name.to_vec())))
        .collect())
}

/// What a named folder has to be judged.
fn items_of(folder: &Path, notes: &mut Vec<String>) -> Vec<Item> {
    let found = find::below(folder);
    let unjudged = |folder: PathBuf, why: &str| {
        let mut known = Judgement::default();
        known.unjudged(why);
        Item {
            folder,
            form: None,
            known,
        }
    };
    for path in &found.leftovers {
        let path = shown::path(path);
        notes.push(format!(
            "{path}: left by an interruption; not counted, and the next archive there removes it"
        ));
    }
    let mut items: Vec<Item> = Vec::new();
    for (folder, form) in found.archives {
        items.push(Item {
            folder,
            form: Some(form),
            known: Judgement::default(),
        });
    }
    items.extend(
        found
            .closed
            .into_iter()
            .map(|(path, why)| unjudged(path, &why)),
    );
    against_catalogue(folder, &mut items, notes);
    items.sort_by(|a, b| a.folder.cmp(&b.folder));
    if items.is_empty() {
        items.push(unjudged(
            folder.to_path_buf(),
            "there is no archive in it or below",
        ));
    }
    items
}

/// What the catalogue of a folder says of its archives: some are missing, others new or not those that it lists.
fn against_catalogue(folder: &Path, items: &mut Vec<Item>, notes: &mut Vec<String>) {
    let path = folder.join(CATALOGUE);
    if !there(&path) {
        return;
    }
    let add = |items: &mut Vec<Item>, folder: PathBuf, differs: bool, what: String| {
        let mut known = Judgement::default();
        known.findings.push((differs, what));
        items.push(Item {
            folder,
            form: None,
            known,
        });
    };
    let mut sums = match files::regular(&path, Links::Refuse) {
        Ok(bytes) => match Catalogue::read(&bytes) {
            Some(catalogue) => catalogue.sums,
            None => {
                let what = "it is not as it was written".to_string();
                return add(items, path, true, what);
            }
        },
        Err(e) => return add(items, path, false, e.to_string()),
    };
    for item in items.iter_mut() {
        let Some(form) = item.form else { continue };
        let file = file_of(&item.folder, form);
        let inside = file.strip_prefix(folder).unwrap_or(&file);
        match sums.remove(inside) {
            None => notes.push(format!(
                "{}: new, {CATALOGUE} does not list it",
                shown::path(&item.folder)
            )),
            Some(sum) => {
                if let Ok(bytes) = files::regular(&file, Links::Refuse) {
                    let now = sha256::hex(&bytes);
                    if now != sum {
                        item.known.differs(format!(
                            "{CATALOGUE}: it lists another archive here, with the sum {sum}, now {now}"
                        ));
                    }
                }
            }
        }
    }
    for file in sums.keys() {
        let archive = folder.join(file.parent().unwrap_or(file));
        add(
            items,
            archive,
            false,
            format!("missing: {CATALOGUE} lists it"),
        );
    }
}

/// How many are the same, differ and cannot be judged; and what made those that others made.
#[derive(Default)]
struct Told {
    counts: [usize; 3],
    makers: BTreeMap<String, usize>,
}

impl Told {
    fn add(&mut self, judgement: &Judgement) {
        self.counts[match judgement.verdict() {
            Verdict::Same => 0,
            Verdict::Differs => 1,
            Verdict::Unjudged => 2,
        }] += 1;
        if let Some(words) = judgement.made_by() {
            *self.makers.entry(words).or_default() += 1;
        }
    }
}

fn judged(item: &Item) -> Judgement {
    let mut judgement = item
        .form
        .map_or(Judgement::default(), |form| verify(&item.folder, form));
    judgement
        .findings
        .extend(item.known.findings.iter().cloned());
    judgement
}

/// Verifies all of these and prints them in their order: all of them, or those that are not the same.
fn verify_all(
    items: &[Item],
    jobs: usize,
    json: bool,
    all: bool,
    out: &mut dyn Write,
) -> Done<Told> {
    let next = AtomicUsize::new(0);
    let (sender, verdicts) = mpsc::channel();
    let terminal = std::io::stderr().is_terminal() && items.len() > 1;
    std::thread::scope(|scope| {
        for _ in 0..jobs.min(items.len()) {
            let (sender, next) = (sender.clone(), &next);
            scope.spawn(move || loop {
                let i = next.fetch_add(1, Ordering::Relaxed);
                let Some(item) = items.get(i) else {
                    return;
                };
                if sender.send((i, judged(item))).is_err() {
                    return;
                }
            });
        }
        drop(sender);
        let mut told = Told::default();
        let mut done = 0;
        let mut waiting = BTreeMap::new();
        let mut printed = 0;
        let mut last = Instant::now();
        for (i, judgement) in verdicts {
            done += 1;
            told.add(&judgement);
            waiting.insert(i, judgement);
            while let Some(judgement) = waiting.remove(&printed) {
                let folder = &items[printed].folder;
                if json {
                    say(out, &judgement.json(folder))?;
                } else if all || judgement.verdict() != Verdict::Same {
                    if terminal {
                        standard::progress("");
                    }
                    say(out, &judgement.lines(folder))?;
                }
                printed += 1;
            }
            if terminal && last.elapsed() >= PROGRESS {
                last = Instant::now();
                out.flush().map_err(cannot_write)?;
                let [_, differ, unjudged] = told.counts;
                standard::progress(&format!(
                    "verified {done} of {}, {differ} differ, {unjudged} cannot be judged",
                    items.len()
                ));
            }
        }
        if terminal {
            standard::progress("");
        }
        Ok(told)
    })
}
