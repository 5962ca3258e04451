//! A case and its results as a line of text: model, tape, budget, work, trace
//! and report lengths, the eight numbers of the result, trace and report.
//! Bytes are hexadecimal, `-` for none.

use crate::generate::Case;
use crate::rules::Rules;
use crate::run::run_with;

/// The case of a line; what stands after its six words is left alone.
pub fn parse(text: &str) -> Option<Case> {
    let words: Vec<&str> = text.split(' ').collect();
    Some(Case {
        model: bytes(words.first()?)?,
        tape: bytes(words.get(1)?)?,
        budget: words.get(2)?.parse().ok()?,
        work_len: words.get(3)?.parse().ok()?,
        trace_len: words.get(4)?.parse().ok()?,
        report_len: words.get(5)?.parse().ok()?,
    })
}

fn bytes(hex: &str) -> Option<Vec<u8>> {
    if hex == "-" {
        return Some(Vec::new());
    }
    (0..hex.len())
        .step_by(2)
        .map(|at| u8::from_str_radix(hex.get(at..at + 2)?, 16).ok())
        .collect()
}

pub fn hex(bytes: &[u8]) -> String {
    if bytes.is_empty() {
        return "-".to_string();
    }
    let digits = b"0123456789abcdef";
    let mut text = String::with_capacity(bytes.len() * 2);
    for byte in bytes {
        text.push(digits[usize::from(byte >> 4)] as char);
        text.push(digits[usize::from(byte & 15)] as char);
    }
    text
}

/// The six words of a case.
pub fn given(case: &Case) -> String {
    format!(
        "{} {} {} {} {} {}",
        hex(&case.model),
        hex(&case.tape),
        case.budget,
        case.work_len,
        case.trace_len,
        case.report_len
    )
}

/// The case and what its run under these rules must give.
pub fn line(rules: Rules, case: &Case) -> String {
    let mut trace = vec![0; case.trace_len];
    let mut report = vec![0; case.report_len];
    let outcome = run_with(
        rules,
        &case.model,
        &case.tape,
        case.budget,
        case.work_len,
        &mut trace,
        &mut report,
    );
    let mut words = vec![given(case)];
    words.extend(outcome.numbers().iter().map(u64::to_string));
    words.push(hex(&trace[..outcome.trace_bytes as usize]));
    words.push(hex(&report[..outcome.report_bytes as usize]));
    words.join(" ")
}
