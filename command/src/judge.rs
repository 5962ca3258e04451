//! A model and a tape judged: what the text form asks, then the engine's questions 3 to 10 with their explanation.

use crate::explain::{self, Finding};
use engine::{Refusal, REPORT_BYTES, WORK_NUMBERS};
use modeltext::read::{self, Source};
use modeltext::tape::{self, Mismatch, Tape};
use modeltext::{Fault, Position};

/// A model as text or as bytes.
pub struct ModelFile {
    pub path: String,
    pub bytes: Vec<u8>,
    pub source: Option<Source>,
}

impl ModelFile {
    pub fn text(path: impl Into<String>, text: &str) -> ModelFile {
        let source = read::model(text);
        let clean = source.faults.is_empty();
        ModelFile {
            path: path.into(),
            bytes: if clean {
                source.model.bytes()
            } else {
                Vec::new()
            },
            source: Some(source),
        }
    }

    pub fn bytes(path: impl Into<String>, bytes: Vec<u8>) -> ModelFile {
        ModelFile {
            path: path.into(),
            bytes,
            source: None,
        }
    }

    pub fn faults(&self) -> &[Fault] {
        self.source.as_ref().map_or(&[], |source| &source.faults)
    }
}

/// A tape as text or as bytes.
pub struct TapeFile {
    pub path: String,
    pub bytes: Vec<u8>,
    pub text: Option<Tape>,
}

impl TapeFile {
    pub fn text(path: impl Into<String>, text: &str) -> TapeFile {
        let tape = tape::read(text);
        TapeFile {
            path: path.into(),
            bytes: tape.bytes(),
            text: Some(tape),
        }
    }

    pub fn bytes(path: impl Into<String>, bytes: Vec<u8>) -> TapeFile {
        TapeFile {
            path: path.into(),
            bytes,
            text: None,
        }
    }

    pub fn faults(&self) -> &[Fault] {
        self.text.as_ref().map_or(&[], |tape| &tape.faults)
    }
}

/// The proved engine's answer: 0, or the number of the question.
pub fn refusal(model: &[u8], tape: &[u8]) -> u64 {
    let mut work = vec![0; WORK_NUMBERS];
    let mut report = vec![0; REPORT_BYTES];
    engine::run(model, tape, 0, &mut work, &mut [], &mut report).refusal
}

/// The first question about the tape.
const FIRST_OF_TAPE: u64 = 8;

/// More messages than this about one file help nobody.
const MOST_MESSAGES: usize = 20;

/// What is wrong with a model and, if it is given, its tape; empty if they are accepted.
pub fn judge(model: &ModelFile, tape: Option<&TapeFile>) -> Vec<String> {
    let mut told: Vec<Message> = model.faults().iter().map(Message::of_fault).collect();
    let tape_faults = tape.map_or(&[][..], TapeFile::faults);
    let mut of_tape: Vec<Message> = tape_faults.iter().map(Message::of_fault).collect();
    if told.is_empty() {
        let clean = tape.filter(|tape| tape.faults().is_empty());
        let number = refusal(&model.bytes, clean.map_or(&[], |tape| &tape.bytes));
        let (found, lists) = explain::model(&model.bytes, model.source.as_ref());
        if number > 0 && number < FIRST_OF_TAPE {
            told = with_number(number, found);
        }
        if let (Some(tape), Some(lists)) = (clean, lists) {
            let number = told.is_empty().then_some(number);
            of_tape.extend(judge_tape(model, tape, lists, number));
        }
    }
    let mut lines = printed(&model.path, told);
    if let Some(tape) = tape {
        lines.extend(printed(&tape.path, of_tape));
    }
    lines
}

/// The tape of a model whose lists are known; `number` is the engine's, if it came to the tape.
fn judge_tape(model: &ModelFile, tape: &TapeFile, lists: u64, number: Option<u64>) -> Vec<Message> {
    let mut found = match number {
        Some(0) => Vec::new(),
        _ => explain::tape(&tape.bytes, lists, tape.text.as_ref()),
    };
    let mut number = number.unwrap_or(0);
    let mut told = Vec::new();
    if let (Some(source), Some(text)) = (&model.source, &tape.text) {
        let mismatches = tape::against(text, &source.names.lists);
        // a list too few or too many is told by its name, and not once more by what it does to the bytes
        let by_lists = |f: &Finding| (f.question == 8 && f.at.is_none()) || f.question == 10;
        let first = found.first().is_some_and(by_lists);
        for mismatch in &mismatches {
            let mut message = Message::of_fault(mismatch.fault());
            if first && number > 0 && number == question(mismatch) {
                message.question = std::mem::take(&mut number);
            }
            told.push(message);
        }
        if !mismatches.is_empty() {
            found.retain(|finding| !by_lists(finding));
        }
    }
    if number > 0 {
        told.extend(with_number(number, found));
    } else {
        told.extend(found.into_iter().map(Message::of_finding));
    }
    told
}

/// The question that such a tape answers "no".
fn question(mismatch: &Mismatch) -> u64 {
    match mismatch {
        Mismatch::Missing(_) => 8,
        Mismatch::Extra(_) | Mismatch::Twice(_) => 10,
        Mismatch::Order(_) => 0,
    }
}

/// The findings, of which the first has the engine's number.
fn with_number(number: u64, found: Vec<Finding>) -> Vec<Message> {
    let agrees = found.first().map(|finding| finding.question) == Some(number);
    let mut told: Vec<Message> = found.into_iter().map(Message::of_finding).collect();
    if agrees {
        told[0].question = number;
    } else if number > 0 {
        let words = Refusal::of(number).map_or("refused", Refusal::words);
        told.insert(
            0,
            Message {
                at: None,
                spot: String::new(),
                what: words.to_string(),
                remedy: "this program has no better explanation, which is a fault of its own"
                    .to_string(),
                question: number,
            },
        );
    }
    told
}

/// A line for a person: where, what, the engine's number if it has one, and a remedy.
struct Message {
    at: Option<Position>,
    spot: String,
    what: String,
    remedy: String,
    question: u64,
}

impl Message {
    fn of_fault(fault: &Fault) -> Message {
        Message {
            at: Some(fault.at),
            spot: String::new(),
            what: fault.what.clone(),
            remedy: fault.remedy.clone(),
            question: 0,
        }
    }

    fn of_finding(finding: Finding) -> Message {
        Message {
            at: finding.at,
            spot: format!(
                "{}, number {}, byte {}",
                finding.item, finding.number, finding.byte
            ),
            what: finding.rule,
            remedy: finding.remedy,
            question: 0,
        }
    }

    fn line(&self, path: &str) -> String {
        let place = match self.at {
            Some(at) => format!("{path}:{}:{}: ", at.line, at.column),
            None if self.spot.is_empty() => format!("{path}: "),
            None => format!("{path}: {}: ", self.spot),
        };
        let question = match self.question {
            0 => String::new(),
            n => format!("; question {n}"),
        };
        format!("{place}{}{question}\n    {}", self.what, self.remedy)
    }
}

/// The engine's own fault first, the others by their places.
fn printed(path: &str, mut told: Vec<Message>) -> Vec<String> {
    told.sort_by_key(|message| (message.question == 0, message.at));
    told.dedup_by(|b, a| a.at.is_some() && a.at == b.at && a.what == b.what);
    let more = told.len().saturating_sub(MOST_MESSAGES);
    let kept = told.iter().take(MOST_MESSAGES);
    let mut lines: Vec<String> = kept.map(|message| message.line(path)).collect();
    if more > 0 {
        lines.push(format!("{path}: and {more} more"));
    }
    lines
}
