//! An archive of form 2, a bag: exactly the files that it lists, the exact bytes of its tag files, and a second run.

use crate::bag::{self, DATA, DECLARATION, INFO, MANIFEST, TAGS, TAG_FILES};
use crate::contents::drawn_sum;
use crate::date;
use crate::execute::Lengths;
use crate::files::{self, Links};
use crate::page::{self, Page, FILES, FORM};
use crate::seal::{BAGIT, PAGE};
use crate::sha256;
use crate::study;
use crate::verify::{run_again, Claim, Judgement, Stored};
use std::collections::BTreeMap;
use std::ffi::OsString;
use std::fs;
use std::io;
use std::path::Path;

/// The files of a bag that could be read, by their paths in it.
type Read = BTreeMap<String, Vec<u8>>;

/// Judges a bag.
pub fn judge(folder: &Path) -> Judgement {
    let mut told = Judgement::default();
    let mut read = Read::new();
    let listed = tag_files(folder, &mut read, &mut told);
    payload(folder, listed, &mut read, &mut told);
    let Some(page) = read_page(&read, &mut told) else {
        return told;
    };
    told.maker = Some(page.maker.clone());
    info(&page, &read, &mut told);
    texts(&read, &mut told);
    second_run(&page, &read, &mut told);
    told
}

fn list(folder: &Path) -> io::Result<Vec<(OsString, fs::FileType)>> {
    let entries = fs::read_dir(folder)?;
    let mut found = entries
        .map(|entry| entry.and_then(|entry| Ok((entry.file_name(), entry.file_type()?))))
        .collect::<io::Result<Vec<_>>>()?;
    found.sort_by(|a, b| a.0.cmp(&b.0));
    Ok(found)
}

/// Reads a file of the bag.
fn take(folder: &Path, name: &str, read: &mut Read, told: &mut Judgement) {
    match files::regular(&folder.join(name), Links::Refuse) {
        Ok(bytes) => {
            read.insert(name.to_string(), bytes);
        }
        Err(e) => told.unread(name, &e),
    }
}

/// The tag files, and the sums that the manifest lists.
fn tag_files(folder: &Path, read: &mut Read, told: &mut Judgement) -> Option<Vec<bag::Sum>> {
    match list(folder) {
        Ok(entries) => {
            for (name, _) in entries {
                let known = TAG_FILES.iter().chain([&DATA]).any(|known| name == *known);
                if !known {
                    told.differs(format!(
                        "{}: the bag has no such file",
                        name.to_string_lossy()
                    ));
                }
            }
        }
        Err(e) => told.unread(".", &e),
    }
    for name in TAG_FILES {
        take(folder, name, read, told);
    }
    if read.get(BAGIT).is_some_and(|b| b != DECLARATION.as_bytes()) {
        told.differs(format!(
            "{BAGIT}: it is not \"BagIt-Version: 1.0\" with UTF-8"
        ));
    }
    if let Some(tags) = read.get(TAGS) {
        let names = [INFO, BAGIT, MANIFEST].map(String::from);
        match bag::read_manifest(tags) {
            Some(sums) if sums.iter().map(|(name, _)| name).eq(&names) => {
                for (name, sum) in &sums {
                    if let Some(bytes) = read.get(name) {
                        told.sum(name, &sha256::hex(bytes), sum);
                    }
                }
            }
            _ => told.differs(format!("{TAGS}: it is not as it was written")),
        }
    }
    let sums = bag::read_manifest(read.get(MANIFEST)?);
    if sums.is_none() {
        told.differs(format!("{MANIFEST}: it is not as it was written"));
    }
    sums
}

/// The files below `data/`: those that the manifest lists and no others; without a manifest, those that are there.
fn payload(folder: &Path, listed: Option<Vec<bag::Sum>>, read: &mut Read, told: &mut Judgement) {
    let data = folder.join(DATA);
    let there = match fs::symlink_metadata(&data).and_then(|kind| match kind.is_dir() {
        true => list(&data),
        false => Err(io::Error::other("not a folder")),
    }) {
        Ok(entries) => entries,
        Err(e) => return told.unread(DATA, &e),
    };
    let in_data = |name: &OsString| format!("{DATA}/{}", name.to_string_lossy());
    let Some(listed) = listed else {
        for (name, _) in there.iter().filter(|(name, _)| known(&in_data(name))) {
            take(folder, &in_data(name), read, told);
        }
        return;
    };
    for (name, _) in &there {
        let path = in_data(name);
        if name.to_str().is_none() || !listed.iter().any(|(listed, _)| *listed == path) {
            told.differs(format!("{path}: {MANIFEST} does not list it"));
        }
    }
    for (path, sum) in &listed {
        if !known(path) {
            told.differs(format!(
                "{path}: an archive of form {FORM} has no such file"
            ));
            continue;
        }
        take(folder, path, read, told);
        if let Some(bytes) = read.get(path) {
            told.sum(path, &sha256::hex(bytes), sum);
        }
    }
}

/// Whether a path of a bag is one that this form has below `data/`.
fn known(path: &str) -> bool {
    let name = path
        .strip_prefix(DATA)
        .and_then(|rest| rest.strip_prefix('/'));
    name.is_some_and(|name| name == PAGE || FILES.iter().any(|(known, _)| *known == name))
}

fn of_data<'a>(read: &'a Read, name: &str) -> Option<&'a Vec<u8>> {
    read.get(&format!("{DATA}/{name}"))
}

fn read_page(read: &Read, told: &mut Judgement) -> Option<Page> {
    let text = String::from_utf8_lossy(of_data(read, PAGE)?);
    match page::form(&text) {
        Some(FORM) => {}
        Some(form) => {
            told.unjudged(format!(
                "{DATA}/{PAGE}: form {form} is not known to this program"
            ));
            return None;
        }
        None => {
            told.differs(format!("{DATA}/{PAGE}: it is no page of an archive"));
            return None;
        }
    }
    match Page::read(&text) {
        Ok(page) => Some(page),
        Err(why) => {
            told.differs(format!("{DATA}/{PAGE}: {why}"));
            None
        }
    }
}

/// `bag-info.txt` says what the page says; the page names the files that are there.
fn info(page: &Page, read: &Read, told: &mut Judgement) {
    let one_of = |a: &str, b: &str| page.has(a) != page.has(b);
    let whole = ["model.bin", "tape.bin", "report.bin", "FORMAT.txt"]
        .iter()
        .all(|name| page.has(name))
        && one_of("model.txt", "listing.txt")
        && one_of("trace.bin", "columns.bin");
    if !whole {
        told.differs(format!(
            "{DATA}/{PAGE}: its list of files is not that of an archive"
        ));
    }
    for (name, _) in FILES {
        let path = format!("{DATA}/{name}");
        let missing = told
            .findings
            .iter()
            .any(|(_, line)| line.starts_with(&path));
        if page.has(name) != read.contains_key(&path) && !missing {
            told.differs(format!("{path}: its page and the bag disagree about it"));
        }
    }
    let Some(bytes) = read.get(INFO) else {
        return;
    };
    let text = String::from_utf8_lossy(bytes);
    let value = |label| bag::info_value(&text, label);
    let day = value("Bagging-Date").filter(|day| date::is_day(day));
    let mut in_data = FILES.iter().filter(|(name, _)| page.has(name));
    let oxum = match in_data.all(|(name, _)| of_data(read, name).is_some()) {
        true => {
            let all = read.iter().filter(|(path, _)| known(path));
            bag::oxum(all.map(|(_, bytes)| &bytes[..]))
        }
        // a file that is missing or not readable has been told
        false => value("Payload-Oxum").unwrap_or_default(),
    };
    let now = day.map(|day| bag::info_text(&page.info(&day, &oxum)));
    if now.as_deref().map(str::as_bytes) != Some(bytes) {
        told.differs(format!(
            "{INFO}: it does not say what the page and the files say"
        ));
    }
}

/// Texts give the bytes beside them, and `drawn.txt` speaks of the tape.
fn texts(read: &Read, told: &mut Judgement) {
    for name in ["model", "tape"] {
        let (text, bytes) = (format!("{name}.txt"), format!("{name}.bin"));
        if let (Some(text), Some(bytes)) = (of_data(read, &text), of_data(read, &bytes)) {
            if !study::gives(name, &String::from_utf8_lossy(text), bytes) {
                told.differs(format!(
                    "{DATA}/{name}.txt: it does not assemble to {name}.bin"
                ));
            }
        }
    }
    if let (Some(drawn), Some(tape)) = (of_data(read, "drawn.txt"), of_data(read, "tape.bin")) {
        if drawn_sum(drawn) != Some(sha256::hex(tape)) {
            told.differs(format!("{DATA}/drawn.txt: it speaks of another tape"));
        }
    }
}

fn second_run(page: &Page, read: &Read, told: &mut Judgement) {
    let (Some(model), Some(tape)) = (of_data(read, "model.bin"), of_data(read, "tape.bin")) else {
        return;
    };
    let unpacked = of_data(read, "columns.bin").map(|columns| {
        let mut trace = vec![0; 2 * columns.len()];
        engine::from_columns(columns, &mut trace).map(|length| {
            trace.truncate(length);
            trace
        })
    });
    let trace = match &unpacked {
        Some(Ok(trace)) => Some(("data/columns.bin", &trace[..])),
        Some(Err(refusal)) => {
            told.differs(format!("{DATA}/columns.bin: {refusal}"));
            None
        }
        None => of_data(read, "trace.bin").map(|trace| ("data/trace.bin", &trace[..])),
    };
    let claim = Claim {
        budget: page.budget,
        lengths: Lengths {
            work: page.work,
            trace: page.room,
            report: page.report,
        },
        outcome: page.outcome,
    };
    let stored = Stored {
        model,
        tape,
        trace,
        report: of_data(read, "report.bin").map(|bytes| &bytes[..]),
    };
    let Some(given) = run_again(&claim, &stored, told) else {
        return;
    };
    let edition = engine::Header::read(model).map_or(0, |_| u64::from(model[0]));
    let records = engine::Records::new(&given.trace)
        .filter(|r| r.is_ok())
        .count() as u64;
    for (name, archived, now) in [
        ("edition", page.edition, edition),
        ("records", page.records, records),
        (
            "bytes-below-80-hexadecimal",
            page.low_bytes,
            engine::count(&given.trace),
        ),
    ] {
        if archived != now {
            told.differs(format!("{name}: archived {archived}, now {now}"));
        }
    }
}

/// Whether this is an archive of ours with nothing else in it; else why not.
pub fn only_ours(place: &Path) -> Result<(), String> {
    let wrong = |e: io::Error| e.to_string();
    if !fs::symlink_metadata(place).map_err(wrong)?.is_dir() {
        return Err("what is there is no folder, or a link to one".to_string());
    }
    if !is_bag(place) {
        return Err("the folder that is there is no archive".to_string());
    }
    for (folder, prefix) in [(place.to_path_buf(), ""), (place.join(DATA), "data/")] {
        let entries = match list(&folder) {
            Err(e) if e.kind() == io::ErrorKind::NotFound => continue,
            entries => entries.map_err(wrong)?,
        };
        for (name, kind) in entries {
            let path = format!("{prefix}{}", name.to_string_lossy());
            let ours = match prefix.is_empty() && name == DATA {
                true => kind.is_dir(),
                false => kind.is_file() && (known(&path) || TAG_FILES.contains(&&*path)),
            };
            if !ours {
                return Err(format!(
                    "the archive that is there has {path}, which is not its own"
                ));
            }
        }
    }
    Ok(())
}

/// Whether a folder is one of our bags, whole or not: its page or its metadata says so.
pub fn is_bag(folder: &Path) -> bool {
    let page = folder.join(DATA).join(PAGE);
    if files::there(&page) {
        let text = files::regular(&page, Links::Refuse);
        // a flat archive that others put into a bag of theirs
        let flat = text.is_ok_and(|text| page::form(&String::from_utf8_lossy(&text)) == Some(1));
        if !flat {
            return true;
        }
    }
    let info = files::regular(&folder.join(INFO), Links::Refuse);
    info.is_ok_and(|text| page::form_of_info(&String::from_utf8_lossy(&text)).is_some())
}
