//! The page archive.txt of form 2: what a run was given, what came out and what made it, for people; `bag-info.txt` says the same.

use crate::bag;
use crate::maker::Maker;
use engine::Outcome;

/// What every page begins with.
pub const TITLE: &str = "Covrith archive, form ";

/// The form that is written.
pub const FORM: u64 = 2;

/// The rules in force: document 01 with the landed requests of document 02.
pub const RULES: &str =
    "document 01 with requests 1, 2, 3, 4, 5, 6, 7, 8, 9, 10, 11, 12, 13 and 14 of document 02";

/// What a page says. Words are kept as they were written, so that later words of this program change no page.
#[derive(Clone, Debug, PartialEq, Eq)]
pub struct Page {
    pub rules: String,
    pub edition: u64,
    pub budget: u64,
    /// Lengths of the buffers that were lent: numbers, bytes, bytes.
    pub work: u64,
    pub room: u64,
    pub report: u64,
    pub outcome: Outcome,
    /// The end in words.
    pub end: String,
    /// Counted in the trace.
    pub records: u64,
    pub low_bytes: u64,
    /// The files of `data/` by name.
    pub files: Vec<String>,
    pub maker: Maker,
}

/// The files of `data/`, in the order of the page, and what each is.
pub const FILES: [(&str, &str); 11] = [
    ("model.bin", "the model, as the engine read it"),
    ("model.txt", "its text, which assembles to these bytes"),
    ("listing.txt", "the model with the numbers of its blocks"),
    ("tape.bin", "the tape, as the engine read it"),
    ("tape.txt", "its text, which assembles to these bytes"),
    ("distributions.txt", "what the tape was drawn from"),
    ("drawn.txt", "how the tape was drawn"),
    ("trace.bin", "the trace, as the engine wrote it"),
    ("columns.bin", "the trace by column (document 02, item 10)"),
    ("report.bin", "the report, as the engine wrote it"),
    ("FORMAT.txt", "the formats of all these bytes"),
];

impl Page {
    /// The numbers by name, in the order of the page.
    pub fn numbers(&self) -> [(&'static str, u64); 15] {
        let o = &self.outcome;
        [
            ("edition", self.edition),
            ("budget", self.budget),
            ("work-buffer", self.work),
            ("trace-buffer", self.room),
            ("report-buffer", self.report),
            ("refusal", o.refusal),
            ("end", o.end),
            ("clock", o.clock),
            ("turns", o.turns),
            ("made", o.made),
            ("ended", o.ended),
            ("trace-bytes", o.trace_bytes),
            ("report-bytes", o.report_bytes),
            ("records", self.records),
            ("bytes-below-80-hexadecimal", self.low_bytes),
        ]
    }

    /// The page as text.
    pub fn text(&self) -> String {
        let mut text = format!(
            "{TITLE}{FORM}\n\n\
             One run of a block model, by rules that are proved of the engine. The files beside this page are\n\
             explained by FORMAT.txt, and ../manifest-sha256.txt has the SHA-256 of each.\n\n\
             rules {}\n",
            self.rules
        );
        for (name, number) in self.numbers() {
            match name {
                "budget" => text.push_str("\nWhat the run was given beside model and tape; the work buffer has numbers of 32 bits, the others bytes:\n"),
                "refusal" => text.push_str("\nIts eight results:\n"),
                "records" => text.push_str(&format!("\nEnd {}: {}.\n\nCounted in the trace:\n", self.outcome.end, self.end)),
                _ => {}
            }
            text.push_str(&format!("{name} {number}\n"));
        }
        text.push_str("\nThe files:\n");
        for (name, what) in FILES.iter().filter(|(name, _)| self.has(name)) {
            text.push_str(&format!("{name:18} {what}\n"));
        }
        let Maker {
            engine,
            library,
            kit,
        } = &self.maker;
        text.push_str(&format!(
            "\nMade by:\nengine {engine}\nlibrary {library}\nkit {kit}\n\n\
             To run it again, where ARCHIVE is the folder above this one:\n{}",
            self.again().map(|line| line + "\n").concat()
        ));
        text
    }

    /// How to run it again.
    fn again(&self) -> [String; 2] {
        let (budget, room) = (self.budget, self.room);
        [
            "covrith verify ARCHIVE".to_string(),
            format!("covrith run --budget {budget} --trace-bytes {room} ARCHIVE/data"),
        ]
    }

    pub fn has(&self, file: &str) -> bool {
        self.files.iter().any(|name| name == file)
    }

    /// What `bag-info.txt` says; the day stands there alone.
    pub fn info(&self, day: &str, oxum: &str) -> Vec<(&'static str, String)> {
        let mut info = vec![
            ("Bagging-Date", day.to_string()),
            ("Payload-Oxum", oxum.to_string()),
            (
                "External-Description",
                "A run of a block model; data/archive.txt is its page, data/FORMAT.txt has the formats".to_string(),
            ),
            (LABEL, format!("form {FORM}")),
            ("Covrith-Rules", self.rules.clone()),
        ];
        let labels = LABELS.iter().zip(self.numbers());
        info.extend(labels.map(|(label, (_, number))| (*label, number.to_string())));
        let maker = self.maker.clone();
        let [verify, run] = self.again();
        info.extend([
            ("Covrith-End-In-Words", self.end.clone()),
            ("Covrith-Engine", maker.engine),
            ("Covrith-Library-SHA-256", maker.library),
            ("Covrith-Kit", maker.kit),
            ("Covrith-Verify", verify),
            ("Covrith-Run-Again", run),
        ]);
        info
    }

    /// Reads a page: exactly what `text` writes.
    pub fn read(text: &str) -> Result<Page, String> {
        let word = |name: &str| {
            let mut lines = text.lines();
            let line = lines.find_map(|line| line.strip_prefix(name)?.strip_prefix(' '));
            line.map(str::to_string)
                .ok_or_else(|| format!("there is no line \"{name}\""))
        };
        let number = |name: &str| {
            let value = word(name)?;
            let number: Option<u64> = value.parse().ok();
            number.ok_or_else(|| format!("\"{name} {value}\" has no number"))
        };
        let end = word(&format!("End {}:", number("end")?))?;
        let page = Page {
            rules: word("rules")?,
            edition: number("edition")?,
            budget: number("budget")?,
            work: number("work-buffer")?,
            room: number("trace-buffer")?,
            report: number("report-buffer")?,
            outcome: Outcome {
                refusal: number("refusal")?,
                end: number("end")?,
                clock: number("clock")?,
                turns: number("turns")?,
                made: number("made")?,
                ended: number("ended")?,
                trace_bytes: number("trace-bytes")?,
                report_bytes: number("report-bytes")?,
            },
            end: end.strip_suffix('.').unwrap_or(&end).to_string(),
            records: number("records")?,
            low_bytes: number("bytes-below-80-hexadecimal")?,
            files: FILES
                .iter()
                .filter(|(name, what)| {
                    let line = format!("{name:18} {what}");
                    text.lines().any(|found| found == line)
                })
                .map(|(name, _)| name.to_string())
                .collect(),
            maker: Maker {
                engine: word("engine")?,
                library: word("library")?,
                kit: word("kit")?,
            },
        };
        match page.text() == text {
            true => Ok(page),
            false => Err("it is not as this form of the page is written".to_string()),
        }
    }
}

/// The label that tells one of our bags from others.
pub const LABEL: &str = "Covrith-Archive";

/// The labels of the page's numbers in `bag-info.txt`.
const LABELS: [&str; 15] = [
    "Covrith-Edition",
    "Covrith-Budget",
    "Covrith-Work-Buffer",
    "Covrith-Trace-Buffer",
    "Covrith-Report-Buffer",
    "Covrith-Refusal",
    "Covrith-End",
    "Covrith-Clock",
    "Covrith-Turns",
    "Covrith-Made",
    "Covrith-Ended",
    "Covrith-Trace-Bytes",
    "Covrith-Report-Bytes",
    "Covrith-Records",
    "Covrith-Bytes-Below-80-Hexadecimal",
];

/// The form that a page says it has.
pub fn form(text: &str) -> Option<u64> {
    text.lines().next()?.strip_prefix(TITLE)?.parse().ok()
}

/// The form that `bag-info.txt` says its bag has, where that is one of ours.
pub fn form_of_info(text: &str) -> Option<String> {
    bag::info_value(text, LABEL)
}

#[cfg(test)]
mod tests {
    use super::{form, Page, FILES, RULES};
    use crate::bag::info_text;
    use crate::maker::Maker;
    use engine::Outcome;

    fn page() -> Page {
        Page {
            rules: RULES.to_string(),
            edition: 1,
            budget: 1000,
            work: 16_384,
            room: 65_536,
            report: 10_240,
            outcome: Outcome {
                end: 2,
                clock: 12,
                turns: 11,
                made: 2,
                ended: 2,
                trace_bytes: 44,
                report_bytes: 9,
                ..Outcome::default()
            },
            end: "it is over".to_string(),
            records: 11,
            low_bytes: 44,
            files: FILES.iter().map(|(name, _)| name.to_string()).collect(),
            maker: Maker {
                engine: "1.0.0, commit 1".to_string(),
                library: "0".repeat(64),
                kit: "a kit".to_string(),
            },
        }
    }

    #[test]
    fn a_page_reads_back() {
        let page = page();
        let text = page.text();
        assert_eq!(form(&text), Some(2));
        assert_eq!(Page::read(&text), Ok(page.clone()));
        // what is no number and no free word is fixed: a changed byte is another page, or none
        for at in 0..text.len() {
            let mut bytes = text.clone().into_bytes();
            bytes[at] ^= 1;
            let other = String::from_utf8(bytes).unwrap();
            assert_ne!(Page::read(&other), Ok(page.clone()), "byte {at}");
        }
        let info = info_text(&page.info("2026-11-18", "1.2"));
        for (_, number) in page.numbers() {
            assert!(info.contains(&format!(": {number}\n")));
        }
    }
}
