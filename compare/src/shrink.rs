//! A smaller case that still fails.

use reference::decode::decode_model;
use reference::generate::fields::{encode_model, encode_tape};
use reference::generate::Case;
use reference::model::{Block, Model, Part, Sum, Term};
use reference::tape::{decode_tape, Tape};

/// As long as it gets smaller: lengths, then blocks, values and times, or bytes where the model does not decode.
pub fn smaller(case: &Case, fails: impl Fn(&Case) -> bool) -> Case {
    let mut best = case.clone();
    loop {
        let found = candidates(&best).into_iter().find(|case| fails(case));
        match found {
            Some(case) => best = case,
            None => return best,
        }
    }
}

/// The same for bytes alone.
pub fn smaller_bytes(bytes: &[u8], fails: impl Fn(&[u8]) -> bool) -> Vec<u8> {
    let mut best = bytes.to_vec();
    loop {
        let found = fewer_bytes(&best).into_iter().find(|bytes| fails(bytes));
        match found {
            Some(bytes) => best = bytes,
            None => return best,
        }
    }
}

/// Cases that are smaller in one respect, the smallest first.
fn candidates(case: &Case) -> Vec<Case> {
    let mut cases = Vec::new();
    for budget in lower(case.budget) {
        cases.push(Case {
            budget,
            ..case.clone()
        });
    }
    for trace_len in lower(case.trace_len as u64) {
        cases.push(Case {
            trace_len: trace_len as usize,
            ..case.clone()
        });
    }
    for (work_len, report_len) in [(16_384, case.report_len), (case.work_len, 10_240)] {
        if work_len < case.work_len || report_len < case.report_len {
            cases.push(Case {
                work_len,
                report_len,
                ..case.clone()
            });
        }
    }
    match decoded(case) {
        Some((model, tape)) => cases.extend(smaller_models(&model, &tape).into_iter().map(
            |(model, tape)| Case {
                model: encode_model(&model),
                tape: encode_tape(&tape),
                ..case.clone()
            },
        )),
        None => cases.extend(fewer_in_case(case)),
    }
    cases
}

fn decoded(case: &Case) -> Option<(Model, Tape)> {
    let model = decode_model(&case.model).ok()?;
    let tape = decode_tape(&case.tape, model.lists).ok()?;
    Some((model, tape))
}

/// 0, half, .. and one less.
fn lower(number: u64) -> Vec<u64> {
    let mut steps = Vec::new();
    let mut cut = number;
    while cut > 0 {
        steps.push(number - cut);
        cut /= 2;
    }
    steps
}

fn smaller_models(model: &Model, tape: &Tape) -> Vec<(Model, Tape)> {
    let mut found = Vec::new();
    for (index, times) in tape.iter().enumerate() {
        for count in lower(times.len() as u64) {
            let mut tape = tape.clone();
            tape[index].truncate(count as usize);
            found.push((model.clone(), tape));
        }
    }
    for index in (0..model.blocks.len()).rev() {
        if model.blocks.len() > 1 {
            found.push((without_block(model, index), tape.clone()));
        }
    }
    for index in 0..model.values.len() {
        for parts in fewer_parts(&model.values[index]) {
            let mut model = model.clone();
            model.values[index] = Sum { parts };
            found.push((model, tape.clone()));
        }
    }
    for (index, times) in tape
        .iter()
        .enumerate()
        .filter(|(_, times)| times.len() < 50)
    {
        for (at, time) in times.iter().enumerate() {
            for less in lower(*time).into_iter().take(3) {
                let mut tape = tape.clone();
                tape[index][at] = less;
                found.push((model.clone(), tape));
            }
        }
    }
    found
}

/// Without one block; targets behind it move up.
fn without_block(model: &Model, index: usize) -> Model {
    let mut model = model.clone();
    model.blocks.remove(index);
    let last = model.blocks.len() as u32;
    for block in &mut model.blocks {
        if let Block::If { target, .. } | Block::Goto { target } | Block::Split { target, .. } =
            block
        {
            if *target as usize > index + 1 || *target > last {
                *target -= 1;
            }
        }
    }
    model
}

/// A sum with one part less, or a constant alone.
fn fewer_parts(sum: &Sum) -> Vec<Vec<Part>> {
    let constant = Part {
        minus: false,
        term: Term::Constant(0),
    };
    if sum.parts == [constant.clone()] {
        return Vec::new();
    }
    let mut found = vec![vec![constant]];
    if sum.parts.len() > 1 {
        for index in 0..sum.parts.len() {
            let mut parts = sum.parts.clone();
            parts.remove(index);
            found.push(parts);
        }
    }
    found
}

fn fewer_in_case(case: &Case) -> Vec<Case> {
    let models = fewer_bytes(&case.model).into_iter().map(|model| Case {
        model,
        ..case.clone()
    });
    let tapes = fewer_bytes(&case.tape).into_iter().map(|tape| Case {
        tape,
        ..case.clone()
    });
    models.chain(tapes).collect()
}

/// Without halves, quarters, .. and single bytes.
fn fewer_bytes(bytes: &[u8]) -> Vec<Vec<u8>> {
    let mut found = Vec::new();
    let mut size = bytes.len();
    while size > 0 {
        for start in (0..bytes.len()).step_by(size) {
            let end = (start + size).min(bytes.len());
            found.push([&bytes[..start], &bytes[end..]].concat());
        }
        if found.len() > 4_000 {
            break;
        }
        size /= 2;
    }
    found
}
