//! Many runs of a model, each on a tape of its own, on several cores and told in the order of their numbers.

use crate::drawing;
use crate::execute::{cut_by_memory, execute, Lent};
use crate::failure::{Done, Failure};
use crate::files;
use crate::interrupt;
use crate::judge;
use crate::measures::{self, Measure};
use crate::shown;
use crate::slots::{self, Slots};
use crate::standard;
use crate::study::{self, Study};
use crate::sums::Sums;
use crate::walk::walk;
use engine::End;
use modeltext::distribution::Drawn;
use modeltext::show::Names;
use modeltext::tape::names_against;
use modeltext::Position;
use std::collections::BTreeMap;
use std::io::IsTerminal;
use std::path::{Path, PathBuf};
use std::sync::atomic::{AtomicBool, AtomicU64, Ordering};
use std::sync::{mpsc, Arc};
use std::time::{Duration, Instant};

/// The usual name of distributions.
pub const DISTRIBUTIONS: &str = "distributions.txt";

/// A model and the distributions of its lists.
pub struct Subject {
    /// Its tape is empty: each run has another.
    pub study: Study,
    pub distributions: PathBuf,
    pub lists: Vec<Drawn>,
    pub slots: Slots,
    pub measures: Vec<Measure>,
}

/// What a run came to.
pub struct Told {
    pub end: End,
    pub values: Vec<Option<i128>>,
    /// The lists that a GENERATE found used up before the end.
    pub used_up: Vec<bool>,
}

/// Loads the model and the distributions of a folder. Nothing is written.
pub fn load(folder: &Path) -> Done<Subject> {
    let at = shown::path(folder);
    if !folder.is_dir() {
        return Err(Failure::new(format!("{at}: no such folder")));
    }
    let model = study::model_of(folder).map_err(|mut failure| {
        failure.message += "\n    a study takes a folder with a model and distributions.txt";
        failure
    })?;
    let told = judge::judge(&model, None);
    if !told.is_empty() {
        return Err(Failure::new(told.join("\n")));
    }
    let mut study = Study::of_bytes(folder, model.bytes, Vec::new())?;
    let path = folder.join(DISTRIBUTIONS);
    if !files::there(&path) {
        return Err(Failure::new(format!(
            "{at}: there is no {DISTRIBUTIONS}\n    \
             write a line for each list of the model, as `arrivals: exponential 20, 500 times` (docs/TEXT.md)"
        )));
    }
    let text = files::read_text(&path)?;
    let lists = drawing::read(&path, &text)?;
    match &model.source {
        Some(source) => {
            study.names = Names::of(source);
            let given: Vec<(&str, Position)> = lists.iter().map(|l| (&l.name[..], l.at)).collect();
            let last = Position::at(text.lines().count().max(1), 1);
            let add = |name: &str| format!("`{name}: distribution, count times`");
            let found = names_against(&given, last, &source.names.lists, add);
            let faults: Vec<_> = found.iter().map(|one| one.fault().clone()).collect();
            if !faults.is_empty() {
                return Err(Failure::new(drawing::told(&path, &faults).join("\n")));
            }
        }
        None if lists.len() != study.decoded.lists as usize => {
            return Err(Failure::new(format!(
                "{}: it has {} lists, and the model {}\n    write a line for each list of the model, in its order",
                shown::path(&path),
                lists.len(),
                study.decoded.lists
            )));
        }
        None => study.names.lists = lists.iter().map(|list| list.name.clone()).collect(),
    }
    if lists.is_empty() {
        return Err(Failure::new(format!(
            "{at}: the model has no lists, so that all its runs are the same\n    covrith run runs it once"
        )));
    }
    study.times = lists.iter().map(|list| u64::from(list.count)).collect();
    Ok(Subject {
        slots: Slots::of(&lists),
        measures: measures::measures(&study.names),
        distributions: path,
        study,
        lists,
    })
}

impl Subject {
    /// Runs the model on the tape of a run.
    pub fn run(&self, run: u64, lent: Lent) -> Done<Told> {
        let slots = self.slots.of_run(run);
        let times = slots::draw(&self.distributions, &self.lists, &slots)?;
        let done = execute(&self.study.model, &drawing::bytes(&times), lent)?;
        if cut_by_memory(lent, &done.outcome) {
            return Err(Failure::new(format!(
                "run {run}: memory was short for its trace\n    --jobs 1 leaves more to each run"
            )));
        }
        let walk = walk(&self.study, &done);
        let mut used_up = vec![false; self.lists.len()];
        for missed in &walk.missed {
            used_up[missed.list] |= missed.clock != Some(done.outcome.clock);
        }
        Ok(Told {
            end: done.end,
            values: measures::values(&self.study, &done, &walk),
            used_up,
        })
    }
}

/// What all runs came to.
pub struct Tally {
    pub runs: u64,
    /// By end: how many runs, and the first.
    pub ends: BTreeMap<End, (u64, u64)>,
    pub used_up: Vec<u64>,
    /// Of each measure, over the runs that were not stopped.
    pub sums: Vec<Sums>,
}

/// Ends that stop a run.
pub fn stopped(end: End) -> bool {
    end.number() > 20
}

impl Tally {
    pub fn new(subject: &Subject) -> Tally {
        Tally {
            runs: 0,
            ends: BTreeMap::new(),
            used_up: vec![0; subject.lists.len()],
            sums: vec![Sums::default(); subject.measures.len()],
        }
    }

    pub fn add(&mut self, run: u64, told: &Told) {
        self.runs += 1;
        let (count, _) = self.ends.entry(told.end).or_insert((0, run));
        *count += 1;
        if stopped(told.end) {
            return;
        }
        for (sums, value) in self.sums.iter_mut().zip(&told.values) {
            value.iter().for_each(|x| sums.add(*x));
        }
        for (count, used_up) in self.used_up.iter_mut().zip(&told.used_up) {
            *count += u64::from(*used_up);
        }
    }

    /// How many runs were stopped.
    pub fn stopped(&self) -> u64 {
        let ends = self.ends.iter().filter(|(end, _)| stopped(**end));
        ends.map(|(_, (count, _))| count).sum()
    }
}

/// How often a line on a terminal tells how far the runs are, and an interrupt is looked for.
const LOOK: Duration = Duration::from_millis(200);

/// Runs numbers `first` to `first + count - 1`, `jobs` at a time, and gives each to `fold` in order until that says that it is enough. True
/// where an interrupt came before.
pub fn each(
    subject: &Arc<Subject>,
    (first, count): (u64, u64),
    jobs: u64,
    lent: Lent,
    mut fold: impl FnMut(u64, Told) -> bool,
) -> Done<bool> {
    let next = Arc::new(AtomicU64::new(0));
    let enough = Arc::new(AtomicBool::new(false));
    let (sender, results) = mpsc::channel();
    // not joined: an interrupt ends the program, whatever still runs
    for _ in 0..jobs.min(count) {
        let (subject, next, enough) = (subject.clone(), next.clone(), enough.clone());
        let sender = sender.clone();
        std::thread::spawn(move || loop {
            let i = next.fetch_add(1, Ordering::Relaxed);
            if i >= count || enough.load(Ordering::Relaxed) {
                return;
            }
            if sender.send((i, subject.run(first + i, lent))).is_err() {
                return;
            }
        });
    }
    drop(sender);
    let terminal = std::io::stderr().is_terminal();
    let began = Instant::now();
    let mut looked = began;
    let (mut waiting, mut folded, mut done) = (BTreeMap::new(), 0, 0);
    while folded < count {
        if interrupt::came() {
            break;
        }
        match results.recv_timeout(LOOK) {
            Ok((i, told)) => {
                done += 1;
                waiting.insert(i, told);
            }
            Err(mpsc::RecvTimeoutError::Timeout) => {}
            Err(mpsc::RecvTimeoutError::Disconnected) => {
                return Err(Failure::new(format!("run {} was lost", first + folded)));
            }
        }
        if terminal && looked.elapsed() >= LOOK {
            looked = Instant::now();
            standard::progress(&far(done, count, began.elapsed()));
        }
        while let Some(told) = waiting.remove(&folded) {
            let told = told.inspect_err(|_| clear(terminal))?;
            folded += 1;
            if fold(first + folded - 1, told) {
                enough.store(true, Ordering::Relaxed);
                clear(terminal);
                return Ok(false);
            }
        }
    }
    clear(terminal);
    Ok(folded < count)
}

fn clear(terminal: bool) {
    if terminal {
        standard::progress("");
    }
}

/// How many runs are done, how many a second, and how long the others will take.
fn far(done: u64, count: u64, so_far: Duration) -> String {
    let seconds = so_far.as_secs_f64();
    let rate = done as f64 / seconds;
    let left = match done {
        0 => String::new(),
        _ => format!(
            ", {rate:.1} runs a second, {:.0} s left",
            (count - done) as f64 / rate
        ),
    };
    format!("{done} of {count} runs{left}")
}
