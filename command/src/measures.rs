//! What a study tells of each run: the columns of its report as numbers.

use crate::study::Study;
use crate::sums::{two, MILLION};
use crate::walk::{facility, storage, Walk};
use engine::{Queue, Report, Run, Server};
use modeltext::show::Names;

/// How a measure is shown.
#[derive(Clone, Copy, Debug, PartialEq, Eq)]
pub enum Unit {
    /// A whole number in each run.
    Count,
    Number,
    Percent,
}

impl Unit {
    /// A mean or the like, in millionths.
    pub fn shown(self, x: i128) -> String {
        match self {
            Unit::Percent => format!("{}%", two(x)),
            _ => two(x),
        }
    }

    /// What a single run had.
    pub fn of_run(self, x: i128) -> String {
        match self {
            Unit::Count => (x / MILLION).to_string(),
            _ => self.shown(x),
        }
    }
}

#[derive(Clone, Debug, PartialEq, Eq)]
pub struct Measure {
    /// As `tug.mean-wait`.
    pub name: String,
    pub unit: Unit,
}

/// A measure of something: its name, its unit, and what is divided by what.
type Row<T> = (&'static str, Unit, fn(&T) -> (u64, u64));

/// A facility or storage at the end of a run.
struct Served {
    server: Server,
    clock: u64,
    capacity: u64,
    /// Those who still wait for it.
    still: u64,
}

impl Served {
    fn came(&self) -> u64 {
        self.server.entries + self.still
    }

    fn did_not_wait(&self) -> u64 {
        self.came().saturating_sub(self.server.waits_begun)
    }
}

const WAITS: &[Row<Served>] = &[
    ("waits", Unit::Count, |s| (s.server.waits_begun, 1)),
    ("mean-wait", Unit::Number, |s| {
        (s.server.ticks_waited, s.server.waits_begun)
    }),
    ("mean-wait-of-all", Unit::Number, |s| {
        (s.server.ticks_waited, s.came())
    }),
    ("no-wait", Unit::Percent, |s| (s.did_not_wait(), s.came())),
    ("mean-line", Unit::Number, |s| {
        (s.server.ticks_waited, s.clock)
    }),
    ("longest", Unit::Count, |s| (s.server.longest, 1)),
];

const FACILITY: &[Row<Served>] = &[
    ("entries", Unit::Count, |s| (s.server.entries, 1)),
    ("utilisation", Unit::Percent, |s| {
        (s.server.unit_ticks, s.clock)
    }),
    ("mean-hold", Unit::Number, |s| {
        (s.server.unit_ticks, s.server.entries)
    }),
];

const STORAGE: &[Row<Served>] = &[
    ("entries", Unit::Count, |s| (s.server.entries, 1)),
    ("utilisation", Unit::Percent, |s| {
        (s.server.unit_ticks, s.clock * s.capacity)
    }),
    ("mean-content", Unit::Number, |s| {
        (s.server.unit_ticks, s.clock)
    }),
];

const QUEUE: &[Row<(Queue, u64)>] = &[
    ("arrivals", Unit::Count, |(q, _)| (q.arrivals, 1)),
    ("mean-content", Unit::Number, |(q, clock)| {
        (q.content_ticks, *clock)
    }),
    ("mean-stay", Unit::Number, |(q, _)| {
        (q.content_ticks, q.arrivals)
    }),
    ("longest", Unit::Count, |(q, _)| (q.longest, 1)),
];

const LIST: &[Row<u64>] = &[("used", Unit::Count, |used| (*used, 1))];

const RUN: &[Row<Report>] = &[
    ("clock", Unit::Count, |r| (r.clock, 1)),
    ("made", Unit::Count, |r| (r.made, 1)),
    ("ended", Unit::Count, |r| (r.ended, 1)),
    ("living", Unit::Count, |r| (r.living.len() as u64, 1)),
];

/// What the measures of the run itself are called by.
const OF_RUN: &str = "run";

/// The measures of a model in the order of its report. A name that stands for several things has its kind in front.
pub fn measures(names: &Names) -> Vec<Measure> {
    let kinds: [(&str, &Vec<String>); 4] = [
        ("facility", &names.facilities),
        ("storage", &names.storages),
        ("queue", &names.queues),
        ("list", &names.lists),
    ];
    let several = |name: &str| {
        let same = |other: &&String| other.eq_ignore_ascii_case(name);
        let count = kinds.iter().flat_map(|(_, all)| all.iter()).filter(same);
        count.count() > 1 || name.eq_ignore_ascii_case(OF_RUN)
    };
    let mut found = Vec::new();
    for (kind, all) in kinds {
        let rows: Vec<(&str, Unit)> = match kind {
            "facility" => columns(FACILITY).chain(columns(WAITS)).collect(),
            "storage" => columns(STORAGE).chain(columns(WAITS)).collect(),
            "queue" => columns(QUEUE).collect(),
            _ => columns(LIST).collect(),
        };
        for name in all {
            let of = match several(name) {
                true => format!("{kind}.{name}"),
                false => name.clone(),
            };
            found.extend(rows.iter().map(|(row, unit)| Measure {
                name: format!("{of}.{row}"),
                unit: *unit,
            }));
        }
    }
    found.extend(columns(RUN).map(|(row, unit)| Measure {
        name: format!("{OF_RUN}.{row}"),
        unit,
    }));
    found
}

fn columns<T>(rows: &[Row<T>]) -> impl Iterator<Item = (&'static str, Unit)> + '_ {
    rows.iter().map(|(name, unit, _)| (*name, *unit))
}

/// The measures of a run in the same order, in millionths, halves up; none where nothing divides.
pub fn values(study: &Study, run: &Run, walk: &Walk) -> Vec<Option<i128>> {
    let report = &run.report;
    let clock = report.clock;
    let waits = still_waiting(study, walk);
    let mut found = Vec::new();
    for (i, server) in report.facilities.iter().enumerate() {
        let served = Served {
            server: *server,
            clock,
            capacity: 1,
            still: count(&waits, (true, i as u32 + 1)),
        };
        quotients(FACILITY, &served, &mut found);
        quotients(WAITS, &served, &mut found);
    }
    let capacities = &study.decoded.capacities;
    for (i, (server, capacity)) in report.storages.iter().zip(capacities).enumerate() {
        let served = Served {
            server: *server,
            clock,
            capacity: u64::from(*capacity),
            still: count(&waits, (false, i as u32 + 1)),
        };
        quotients(STORAGE, &served, &mut found);
        quotients(WAITS, &served, &mut found);
    }
    for queue in &report.queues {
        quotients(QUEUE, &(*queue, clock), &mut found);
    }
    for (times, left) in study.times.iter().zip(&walk.left) {
        quotients(LIST, &(times - left), &mut found);
    }
    quotients(RUN, report, &mut found);
    found
}

fn quotients<T>(rows: &[Row<T>], of: &T, found: &mut Vec<Option<i128>>) {
    for (_, unit, divided) in rows {
        let (n, d) = divided(of);
        let scale = match unit {
            Unit::Percent => 100 * MILLION,
            _ => MILLION,
        };
        let (n, d) = (i128::from(n), i128::from(d));
        found.push((d > 0).then(|| (2 * n * scale + d) / (2 * d)));
    }
}

/// The servers of those whose last record is a wait for one: whether it is a facility, and its number.
fn still_waiting(study: &Study, walk: &Walk) -> Vec<(bool, u32)> {
    let waits = walk.living.values().filter_map(|life| {
        let last = life.last.filter(|record| !record.entered())?;
        let block = study.block(last.block)?;
        let of_facility = facility(block).map(|number| (true, number));
        of_facility.or_else(|| storage(block).map(|number| (false, number)))
    });
    waits.collect()
}

fn count(waits: &[(bool, u32)], server: (bool, u32)) -> u64 {
    waits.iter().filter(|wait| **wait == server).count() as u64
}
