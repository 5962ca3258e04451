//! What the program `runmodel` prints (01, Examples, the first).

use crate::decode::decode_model_with;
use crate::report::{read_report, REPORT_BYTES};
use crate::rules::Rules;
use crate::run::{run_with, WORK_NUMBERS};
use crate::trace::TraceReader;

pub const BUDGET: u64 = 1_000_000;
pub const TRACE_BYTES: usize = 65_536;
pub const FILE_BYTES: usize = 65_536;

/// The same under the rules of the engine.
pub fn runmodel(model: &[u8], tape: &[u8]) -> String {
    runmodel_with(Rules::LANDED, model, tape)
}

/// The lines for a model and a tape, each ended by a line feed.
pub fn runmodel_with(rules: Rules, model: &[u8], tape: &[u8]) -> String {
    let model = &model[..model.len().min(FILE_BYTES)];
    let tape = &tape[..tape.len().min(FILE_BYTES)];
    let mut trace = vec![0; TRACE_BYTES];
    let mut report = vec![0; REPORT_BYTES];
    let outcome = run_with(
        rules,
        model,
        tape,
        BUDGET,
        WORK_NUMBERS,
        &mut trace,
        &mut report,
    );
    if outcome.refusal != 0 {
        return format!("refused {}\n", outcome.refusal);
    }
    let mut lines = Vec::new();
    let mut reader = TraceReader::with(rules, &trace[..outcome.trace_bytes as usize]);
    while let Ok(r) = reader.next_record() {
        lines.push(words(&[r.clock, r.transaction, r.block, r.outcome]));
    }
    let numbers = read_report(&report[..outcome.report_bytes as usize]).expect("a report");
    let model = decode_model_with(rules, model).expect("accepted above");
    let sorts = [
        ("f", u64::from(model.facilities), 5),
        ("s", model.capacities.len() as u64, 5),
        ("q", u64::from(model.queues), 3),
    ];
    let mut position = 3; // after clock, made, ended
    let mut fields = Vec::new();
    for (letter, count, width) in sorts {
        for number in 1..=count {
            let own = &numbers[position..position + width];
            fields.push(format!("{letter} {number} {}", words(own)));
            position += width;
        }
    }
    let living = numbers[position];
    let end = [
        outcome.end,
        outcome.clock,
        outcome.made,
        outcome.ended,
        living,
    ];
    lines.push(format!("end {}", words(&end)));
    lines.extend(fields);
    lines.join("\n") + "\n"
}

fn words(numbers: &[u64]) -> String {
    let words: Vec<String> = numbers.iter().map(u64::to_string).collect();
    words.join(" ")
}
