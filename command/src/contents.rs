//! What an archive holds: the payload of its bag, from a study and its run.

use crate::bag::{self, BagFile};
use crate::execute::{Lengths, Lent, ROOM};
use crate::failure::{Done, Failure};
use crate::files::{self, there, Links};
use crate::listing;
use crate::maker::Maker;
use crate::page::{Page, FILES, RULES};
use crate::seal::PAGE;
use crate::sha256;
use crate::shown;
use crate::study::Study;
use engine::{count, Run};

/// The formats, as every archive carries them.
const FORMAT: &[u8] = include_bytes!("../../docs/FORMAT.md");

/// What is to be written, with its page and notes for standard error.
pub struct Contents {
    pub page: Page,
    pub files: Vec<BagFile>,
    pub notes: Vec<String>,
}

/// The whole bag of a run. `columns` stores the trace by column.
pub fn contents(study: &Study, run: &Run, lent: Lent, columns: bool, day: &str) -> Done<Contents> {
    let mut notes = Vec::new();
    let mut payload: Vec<BagFile> = Vec::new();
    let mut put = |name: &str, bytes: &[u8]| payload.push((name.to_string(), bytes.to_vec()));
    put("model.bin", &study.model);
    match &study.model_text {
        Some(text) => put("model.txt", text.as_bytes()),
        None => put(
            "listing.txt",
            listing::text(&study.decoded, &study.names).as_bytes(),
        ),
    }
    put("tape.bin", &study.tape);
    if let Some(text) = &study.tape_text {
        put("tape.txt", text.as_bytes());
    }
    for (name, bytes) in drawn(study, &mut notes) {
        put(&name, &bytes);
    }
    match columns {
        true => put("columns.bin", &by_column(&run.trace)?),
        false => put("trace.bin", &run.trace),
    }
    put("report.bin", &run.report_bytes);
    put("FORMAT.txt", FORMAT);
    let lengths = Lengths::usual(match lent.short {
        // it was lent less than the usual and did not need it: with all of it the run is the same
        true => ROOM,
        false => lent.room,
    });
    let has = |name: &&str| payload.iter().any(|(n, _)| n == name);
    let names = FILES.iter().map(|(name, _)| *name).filter(has);
    let page = Page {
        rules: RULES.to_string(),
        edition: u64::from(study.decoded.edition),
        budget: lent.budget,
        work: lengths.work,
        room: lengths.trace,
        report: lengths.report,
        outcome: run.outcome,
        end: run.end.to_string(),
        records: run.records().count() as u64,
        low_bytes: count(&run.trace),
        files: names.map(str::to_string).collect(),
        maker: Maker::this(),
    };
    payload.push((PAGE.to_string(), page.text().into_bytes()));
    let oxum = bag::oxum(payload.iter().map(|(_, bytes)| &bytes[..]));
    let info = page.info(day, &oxum);
    Ok(Contents {
        page,
        files: bag::files(payload, &info),
        notes,
    })
}

fn by_column(trace: &[u8]) -> Done<Vec<u8>> {
    let mut bytes = vec![0; trace.len() + 4];
    let length = engine::to_columns(trace, &mut bytes)
        .map_err(|refusal| Failure::new(format!("the trace by column: {refusal}")))?;
    bytes.truncate(length);
    Ok(bytes)
}

/// The sum that `drawn.txt` gives for its tape: of its one line of that form.
pub fn drawn_sum(text: &[u8]) -> Option<String> {
    let text = String::from_utf8_lossy(text);
    let mut sums = text.lines().filter_map(|line| {
        let sum = line.strip_suffix("  tape.bin")?;
        let whole = sum.len() == 64 && sum.bytes().all(|b| b.is_ascii_hexdigit());
        whole.then(|| sum.to_string())
    });
    let sum = sums.next()?;
    sums.next().is_none().then_some(sum)
}

/// `drawn.txt`, and `distributions.txt` with it, where the tape is the one that it speaks of.
fn drawn(study: &Study, notes: &mut Vec<String>) -> Vec<BagFile> {
    let mut found = Vec::new();
    for name in ["distributions.txt", "drawn.txt"] {
        let path = study.folder.join(name);
        if !there(&path) {
            continue;
        }
        match files::regular(&path, Links::Follow) {
            Ok(bytes) => found.push((name.to_string(), bytes)),
            Err(e) => notes.push(format!("{}: {e}: not archived", shown::path(&path))),
        }
    }
    let says = found.iter().find(|(name, _)| name == "drawn.txt");
    let sum = says.and_then(|(_, bytes)| drawn_sum(bytes));
    if sum == Some(sha256::hex(&study.tape)) {
        return found;
    }
    for (name, _) in found {
        let path = shown::path(&study.folder.join(&name));
        notes.push(match name == "drawn.txt" {
            true => format!("{path} speaks of another tape: not archived"),
            false => {
                format!("{path}: no drawn.txt beside it says that it gave this tape: not archived")
            }
        });
    }
    Vec::new()
}
