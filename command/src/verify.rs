//! An archive judged: its files against their sums, and a second run against both.

use crate::execute::{lend, Given, Lengths};
use crate::form2;
use crate::maker::Maker;
use crate::page1;
use crate::shown;
use crate::words;
use engine::{read_record, Header, Outcome, Record, Report};
use std::io;
use std::os::unix::ffi::OsStrExt;
use std::path::Path;

/// What is said of an archive. What differs outranks what cannot be judged.
#[derive(Clone, Copy, Debug, PartialEq, Eq, PartialOrd, Ord)]
pub enum Verdict {
    Same,
    Unjudged,
    Differs,
}

impl Verdict {
    pub fn words(self) -> &'static str {
        match self {
            Verdict::Same => "same",
            Verdict::Unjudged => "cannot be judged",
            Verdict::Differs => "differs",
        }
    }
}

/// How an archive is stored: flat, or as a bag.
#[derive(Clone, Copy, Debug, PartialEq, Eq, PartialOrd, Ord)]
pub enum Form {
    Flat,
    Bag,
}

/// All that is found out about an archive.
#[derive(Clone, Debug, Default, PartialEq, Eq)]
pub struct Judgement {
    /// What differs (true) or cannot be judged, a line each.
    pub findings: Vec<(bool, String)>,
    pub maker: Option<Maker>,
}

impl Judgement {
    pub fn verdict(&self) -> Verdict {
        match self.findings.iter().map(|(differs, _)| *differs).max() {
            None => Verdict::Same,
            Some(false) => Verdict::Unjudged,
            Some(true) => Verdict::Differs,
        }
    }

    pub fn differs(&mut self, what: impl Into<String>) {
        self.findings.push((true, what.into()));
    }

    pub fn unjudged(&mut self, what: impl Into<String>) {
        self.findings.push((false, what.into()));
    }

    /// A file that cannot be read.
    pub fn unread(&mut self, file: &str, e: &io::Error) {
        self.unjudged(match e.kind() {
            io::ErrorKind::NotFound => format!("{file}: missing"),
            _ => format!("{file}: {e}"),
        });
    }

    /// A file whose sum is not the archived one.
    pub fn sum(&mut self, file: &str, now: &str, archived: &str) {
        if now != archived {
            self.differs(format!("{file}: its SHA-256 is {now}, archived {archived}"));
        }
    }

    /// "made by X, verified by Y", where that is not the same.
    pub fn made_by(&self) -> Option<String> {
        self.maker.as_ref()?.beside(&Maker::this())
    }

    /// As it is printed for people.
    pub fn lines(&self, folder: &Path) -> String {
        let mut text = format!("{}: {}", shown::path(folder), self.verdict().words());
        if let Some(words) = self.made_by() {
            text.push_str(&format!("; {words}"));
        }
        text.push('\n');
        for (_, line) in &self.findings {
            text.push_str(&format!("    {line}\n"));
        }
        text
    }

    /// As one line of JSON.
    pub fn json(&self, folder: &Path) -> String {
        let quoted = |text: &str| shown::json(text);
        let name = folder.to_string_lossy();
        let mut text = format!("{{\"folder\": {}", quoted(&name));
        if folder.to_str().is_none() {
            let bytes = folder.as_os_str().as_bytes();
            let hex: String = bytes.iter().map(|b| format!("{b:02x}")).collect();
            text.push_str(&format!(", \"folder_hex\": \"{hex}\""));
        }
        let findings: Vec<String> = self.findings.iter().map(|(_, line)| quoted(line)).collect();
        text.push_str(&format!(
            ", \"verdict\": {}, \"findings\": [{}]",
            quoted(self.verdict().words()),
            findings.join(", ")
        ));
        for (key, maker) in [
            ("made_by", self.maker.as_ref()),
            ("verified_by", Some(&Maker::this())),
        ] {
            if let Some(maker) = maker {
                text.push_str(&format!(
                    ", \"{key}\": {{\"engine\": {}, \"library\": {}, \"kit\": {}}}",
                    quoted(&maker.engine),
                    quoted(&maker.library),
                    quoted(&maker.kit)
                ));
            }
        }
        text.push_str("}\n");
        text
    }
}

/// Reads an archive, runs it again and compares.
pub fn verify(folder: &Path, form: Form) -> Judgement {
    match form {
        Form::Flat => page1::judge(folder),
        Form::Bag => form2::judge(folder),
    }
}

/// What a page says of a run.
pub struct Claim {
    pub budget: u64,
    pub lengths: Lengths,
    pub outcome: Outcome,
}

/// What an archive has of it: bytes and the name of their file.
pub struct Stored<'a> {
    pub model: &'a [u8],
    pub tape: &'a [u8],
    pub trace: Option<(&'a str, &'a [u8])>,
    pub report: Option<&'a [u8]>,
}

/// Runs an archive again, with the budget and the lengths that its page names, and compares.
pub fn run_again(claim: &Claim, stored: &Stored, told: &mut Judgement) -> Option<Given> {
    let Some(given) = lend(stored.model, stored.tape, claim.budget, claim.lengths) else {
        told.unjudged(format!(
            "run again: there is no memory for buffers of {} numbers, {} and {} bytes",
            claim.lengths.work, claim.lengths.trace, claim.lengths.report
        ));
        return None;
    };
    for ((name, archived), (_, now)) in results(&claim.outcome).iter().zip(results(&given.outcome))
    {
        if *archived != now {
            told.differs(format!("{name}: archived {archived}, now {now}"));
        }
    }
    if let Some((file, trace)) = stored.trace {
        if let Some(line) = first_record(file, trace, &given.trace) {
            told.differs(line);
        }
    }
    if let Some(report) = stored.report {
        if let Some(line) = first_reading(report, &given.report, stored.model) {
            told.differs(line);
        }
    }
    Some(given)
}

/// The eight results by name.
fn results(o: &Outcome) -> [(&'static str, u64); 8] {
    [
        ("refusal", o.refusal),
        ("end", o.end),
        ("clock", o.clock),
        ("turns", o.turns),
        ("made", o.made),
        ("ended", o.ended),
        ("trace-bytes", o.trace_bytes),
        ("report-bytes", o.report_bytes),
    ]
}

/// The first record in which two traces differ.
fn first_record(file: &str, archived: &[u8], now: &[u8]) -> Option<String> {
    if archived == now {
        return None;
    }
    let mut position = 0;
    let mut number = 1;
    loop {
        let (a, b) = (read_record(archived, position), read_record(now, position));
        match (&a, &b) {
            (Ok(Some((x, after))), Ok(Some((y, _)))) if x == y => {
                position = *after;
                number += 1;
            }
            _ => {
                return Some(format!(
                    "{file}: record {number}, at byte {position}: archived {}, now {}",
                    reading(a),
                    reading(b)
                ))
            }
        }
    }
}

fn reading(record: Result<Option<(Record, usize)>, engine::Refusal>) -> String {
    match record {
        Ok(Some((r, _))) => format!(
            "\"clock {}, transaction {}, block {}, {}\"",
            r.clock,
            r.transaction,
            r.block,
            words::outcome_of(r.outcome)
        ),
        Ok(None) => "no more records".to_string(),
        Err(refusal) => format!("no record ({}: {refusal})", refusal.number()),
    }
}

/// The first reading in which two reports differ.
fn first_reading(archived: &[u8], now: &[u8], model: &[u8]) -> Option<String> {
    if archived == now {
        return None;
    }
    let other = || {
        format!(
            "report.bin: archived {} bytes, now {} others",
            archived.len(),
            now.len()
        )
    };
    let Ok(header) = Header::read(model) else {
        return Some(other());
    };
    let archived = match Report::read(archived, &header) {
        Ok(report) => report,
        Err(e) => return Some(format!("report.bin: {e}")),
    };
    let Ok(now) = Report::read(now, &header) else {
        return Some(other());
    };
    let (a, b) = (readings(&archived), readings(&now));
    let differing = a.iter().zip(&b).find(|(x, y)| x != y);
    Some(match differing {
        Some(((what, x), (other, y))) if what == other => {
            format!("report.bin: {what}: archived {x}, now {y}")
        }
        Some(((what, x), (other, y))) => {
            format!("report.bin: archived {what} {x}, now {other} {y}")
        }
        None => format!("report.bin: archived {} readings, now {}", a.len(), b.len()),
    })
}
/// All readings of a report by name, in its order.
fn readings(report: &Report) -> Vec<(String, u64)> {
    let mut all = vec![
        ("clock".to_string(), report.clock),
        ("made".to_string(), report.made),
        ("ended".to_string(), report.ended),
    ];
    for (word, servers) in [
        ("facility", &report.facilities),
        ("storage", &report.storages),
    ] {
        for (i, s) in servers.iter().enumerate() {
            for (what, n) in [
                ("entries", s.entries),
                ("unit ticks", s.unit_ticks),
                ("waits", s.waits_begun),
                ("ticks waited", s.ticks_waited),
                ("longest", s.longest),
            ] {
                all.push((format!("{word} {}, {what}", i + 1), n));
            }
        }
    }
    for (i, q) in report.queues.iter().enumerate() {
        for (what, n) in [
            ("arrivals", q.arrivals),
            ("content ticks", q.content_ticks),
            ("longest", q.longest),
        ] {
            all.push((format!("queue {}, {what}", i + 1), n));
        }
    }
    all.push(("living".to_string(), report.living.len() as u64));
    for one in &report.living {
        let what = format!("place of transaction {}", one.transaction);
        all.push((what, one.place.number()));
    }
    all
}
