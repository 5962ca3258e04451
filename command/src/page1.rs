//! The page of an archive of form 1, a flat folder: read to verify what was archived before bags.

use crate::execute::Lengths;
use crate::files::{self, Links};
use crate::maker::Maker;
use crate::page;
use crate::seal::PAGE;
use crate::sha256;
use crate::verify::{run_again, Claim, Judgement, Stored};
use engine::{End, Outcome};
use std::path::Path;

/// The files of an archive that the page speaks of, in this order.
pub const FILES: [&str; 4] = ["model.bin", "tape.bin", "trace.bin", "report.bin"];

const TITLE: &str = "Covrith archive, form 1";

/// What a page says.
#[derive(Clone, Debug, PartialEq, Eq)]
pub struct Page {
    pub budget: u64,
    /// Lengths of the buffers that were lent: numbers, bytes, bytes.
    pub work: u64,
    pub room: u64,
    pub report: u64,
    pub outcome: Outcome,
    pub engine: String,
    pub kit: String,
    /// SHA-256 of the files, in the order of `FILES`.
    pub digests: [String; 4],
}

impl Page {
    /// The numbers by name, in the order of the page.
    fn numbers(&self) -> [(&'static str, u64); 12] {
        let o = &self.outcome;
        [
            ("budget", self.budget),
            ("work-buffer", self.work),
            ("trace-buffer", self.room),
            ("report-buffer", self.report),
            ("refusal", o.refusal),
            ("end", o.end),
            ("clock", o.clock),
            ("turns", o.turns),
            ("made", o.made),
            ("ended", o.ended),
            ("trace-bytes", o.trace_bytes),
            ("report-bytes", o.report_bytes),
        ]
    }

    /// The page as text; its last line has the SHA-256 of all before it.
    pub fn text(&self) -> String {
        let mut text = format!("{TITLE}\n\nWhat the run was given:\n");
        for (i, (name, number)) in self.numbers().into_iter().enumerate() {
            if i == 4 {
                text.push_str("\nIts eight results:\n");
            }
            text.push_str(&format!("{name} {number}\n"));
        }
        if let Some(end) = End::of(self.outcome.end) {
            text.push_str(&format!("\nEnd {}: {end}.\n", end.number()));
        }
        text.push_str("\nThe files, as sha256sum prints them:\n");
        for (digest, file) in self.digests.iter().zip(FILES) {
            text.push_str(&format!("{digest}  {file}\n"));
        }
        text.push_str(&format!(
            "\nMade by:\nengine {}\nkit {}\n\n",
            self.engine, self.kit
        ));
        let digest = sha256::hex(text.as_bytes());
        text.push_str(&format!("page {digest}\n"));
        text
    }

    /// Reads a page: exactly what `text` writes.
    pub fn read(text: &str) -> Result<Page, String> {
        let found = Page::take(text)?;
        if found.text() != text {
            return Err(changed(text));
        }
        Ok(found)
    }

    fn take(text: &str) -> Result<Page, String> {
        if text.lines().next() != Some(TITLE) {
            return Err(format!("the first line is not \"{TITLE}\""));
        }
        let word = |name: &str| {
            let mut lines = text.lines();
            let line = lines.find_map(|line| line.strip_prefix(name)?.strip_prefix(' '));
            line.ok_or_else(|| format!("there is no line \"{name}\""))
        };
        let number = |name: &str| {
            let value = word(name)?;
            value
                .parse::<u64>()
                .map_err(|_| format!("\"{name} {value}\" has no number"))
        };
        let digest = |file: &str| {
            let mut lines = text.lines();
            let line = lines.find_map(|line| line.strip_suffix(file)?.strip_suffix("  "));
            line.map(str::to_string)
                .ok_or_else(|| format!("there is no line for {file}"))
        };
        Ok(Page {
            budget: number("budget")?,
            work: number("work-buffer")?,
            room: number("trace-buffer")?,
            report: number("report-buffer")?,
            outcome: Outcome {
                refusal: number("refusal")?,
                end: number("end")?,
                clock: number("clock")?,
                turns: number("turns")?,
                made: number("made")?,
                ended: number("ended")?,
                trace_bytes: number("trace-bytes")?,
                report_bytes: number("report-bytes")?,
            },
            engine: word("engine")?.to_string(),
            kit: word("kit")?.to_string(),
            digests: [
                digest(FILES[0])?,
                digest(FILES[1])?,
                digest(FILES[2])?,
                digest(FILES[3])?,
            ],
        })
    }
}

/// Judges a flat archive.
pub fn judge(folder: &Path) -> Judgement {
    let mut told = Judgement::default();
    let text = match files::regular(&folder.join(PAGE), Links::Refuse) {
        Ok(bytes) => String::from_utf8_lossy(&bytes).into_owned(),
        Err(e) => {
            told.unread(PAGE, &e);
            return told;
        }
    };
    let page = match Page::read(&text) {
        Ok(page) => page,
        Err(why) => {
            match page::form(&text) {
                Some(form) if form > 1 => told.unjudged(format!(
                    "{PAGE}: it is the page of an archive of form {form}, which is the folder above, or is not known to this program"
                )),
                _ => told.differs(format!("{PAGE}: {why}")),
            }
            return told;
        }
    };
    told.maker = Some(Maker {
        engine: page.engine.clone(),
        library: String::new(),
        kit: page.kit.clone(),
    });
    let mut bytes: Vec<Option<Vec<u8>>> = Vec::new();
    for (file, digest) in FILES.iter().zip(&page.digests) {
        bytes.push(match files::regular(&folder.join(file), Links::Refuse) {
            Ok(bytes) => {
                told.sum(file, &sha256::hex(&bytes), digest);
                Some(bytes)
            }
            Err(e) => {
                told.unread(file, &e);
                None
            }
        });
    }
    if let [Some(model), Some(tape), trace, report] = &bytes[..] {
        let claim = Claim {
            budget: page.budget,
            lengths: Lengths {
                work: page.work,
                trace: page.room,
                report: page.report,
            },
            outcome: page.outcome,
        };
        let stored = Stored {
            model,
            tape,
            trace: trace.as_deref().map(|trace| (FILES[2], trace)),
            report: report.as_deref(),
        };
        run_again(&claim, &stored, &mut told);
    }
    told
}

/// How a page that reads differs from what was written.
fn changed(text: &str) -> String {
    let last = text.lines().last().unwrap_or_default();
    let before = text.strip_suffix(&format!("{last}\n"));
    match (before, last.strip_prefix("page ")) {
        (Some(before), Some(digest)) if sha256::hex(before.as_bytes()) == digest => {
            "it has lines that this form of the page has not".to_string()
        }
        (Some(before), Some(_)) => format!(
            "it was changed after it was written: its SHA-256 is {}, which its last line does not say",
            sha256::hex(before.as_bytes())
        ),
        _ => "its last line, with the page's own SHA-256, is missing or changed".to_string(),
    }
}

#[cfg(test)]
mod tests {
    use super::{sha256, Page};
    use engine::Outcome;

    #[test]
    fn a_page_reads_back_and_every_change_shows() {
        let outcome = Outcome {
            end: 2,
            clock: 12,
            turns: 11,
            made: 2,
            ended: 2,
            trace_bytes: 44,
            report_bytes: 9,
            ..Outcome::default()
        };
        let page = Page {
            budget: 1000,
            work: 16_384,
            room: 65_536,
            report: 10_240,
            outcome,
            engine: "1.0.0".to_string(),
            kit: "a kit".to_string(),
            digests: ["m", "t", "r", "p"].map(|file| sha256::hex(file.as_bytes())),
        };
        let text = page.text();
        assert_eq!(Page::read(&text), Ok(page));
        for at in 0..text.len() {
            for bit in 0..7 {
                let mut bytes = text.clone().into_bytes();
                bytes[at] ^= 1 << bit;
                let other = String::from_utf8(bytes).unwrap();
                assert!(Page::read(&other).is_err(), "byte {at}, bit {bit}");
            }
            assert!(Page::read(&text[..at]).is_err());
        }
        assert!(Page::read(&format!("{text}\n")).is_err());
    }
}
