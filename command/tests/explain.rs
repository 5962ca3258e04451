//! The explanation against the engine: for the generator's models and tapes, good and damaged, the first finding is the refusal.
//! COVRITH_CASES sets how many damaged pairs are tried.

use command::explain;
use command::judge::{judge, ModelFile, TapeFile};
use engine::{REPORT_BYTES, WORK_NUMBERS};
use reference::generate::random::Random;
use reference::generate::{case, damage::damaged_case, structured::model_and_tape, Case, Size};
use reference::Rules;
use std::collections::BTreeMap;

fn cases() -> usize {
    let set = std::env::var("COVRITH_CASES").ok();
    set.and_then(|n| n.parse().ok()).unwrap_or(5_000)
}

/// The refusal of the proved engine.
fn refusal(model: &[u8], tape: &[u8]) -> u64 {
    let mut work = vec![0; WORK_NUMBERS];
    let mut report = vec![0; REPORT_BYTES];
    engine::run(model, tape, 0, &mut work, &mut [], &mut report).refusal
}

/// The number that the explanation gives.
fn explained(model: &[u8], tape: &[u8]) -> u64 {
    let (found, lists) = explain::model(model, None);
    if let Some(first) = found.first() {
        assert_eq!(found.len(), 1);
        assert!(!first.rule.is_empty() && !first.remedy.is_empty());
        return first.question;
    }
    let found = explain::tape(tape, lists.expect("a model that is taken"), None);
    found.first().map_or(0, |first| first.question)
}

fn hold(case: &Case) -> u64 {
    let wanted = refusal(&case.model, &case.tape);
    let told = explained(&case.model, &case.tape);
    assert_eq!(
        told, wanted,
        "model {:02x?} tape {:02x?}",
        case.model, case.tape
    );
    wanted
}

#[test]
fn damaged_pairs() {
    let mut random = Random::new(31);
    let mut seen = BTreeMap::new();
    for k in 0..cases() {
        let size = if k % 4 == 0 { Size::Full } else { Size::Small };
        let (model, tape) = model_and_tape(Rules::LANDED, &mut random, size);
        let case = damaged_case(Rules::LANDED, &mut random, size, model, tape);
        *seen.entry(hold(&case)).or_insert(0) += 1;
    }
    for question in 3..=10 {
        assert!(
            seen.contains_key(&question),
            "question {question} is not met: {seen:?}"
        );
    }
    println!("{} damaged pairs, refusals: {seen:?}", cases());
}

#[test]
fn all_kinds_of_pairs() {
    let mut random = Random::new(7);
    for _ in 0..cases() / 5 {
        hold(&case(&mut random, Size::Small));
    }
}

/// Every pair that differs from the first example in one byte, lacks one or has one more.
#[test]
fn first_example_with_one_byte_changed() {
    let model = [1, 1, 0, 0, 0, 2, 2, 5, 1, 1, 0, 4, 1, 2, 2, 5, 1, 3, 1];
    let tape = [2, 3, 2, 2, 5, 4];
    let pair = |model: &[u8], tape: &[u8]| assert_eq!(explained(model, tape), refusal(model, tape));
    for byte in 0..=255 {
        for at in 0..model.len() {
            let mut other = model.to_vec();
            other[at] = byte;
            pair(&other, &tape);
            other = model.to_vec();
            other.insert(at, byte);
            pair(&other, &tape);
        }
        for at in 0..tape.len() {
            let mut other = tape.to_vec();
            other[at] = byte;
            pair(&model, &other);
            other = tape.to_vec();
            other.insert(at, byte);
            pair(&model, &other);
        }
    }
    for length in 0..model.len() {
        pair(&model[..length], &tape);
    }
    for length in 0..tape.len() {
        pair(&model, &tape[..length]);
    }
}

/// The same with a text: the first of all findings is still the refusal, and it has a place in the text.
#[test]
fn models_as_text() {
    let mut random = Random::new(5);
    let mut met = BTreeMap::new();
    for _ in 0..cases() {
        let (model, tape) = model_and_tape(Rules::LANDED, &mut random, Size::Small);
        let case = damaged_case(Rules::LANDED, &mut random, Size::Small, model, tape);
        let Ok(text) = modeltext::model_text(&case.model) else {
            continue;
        };
        let source = modeltext::read::model(&text);
        if !source.faults.is_empty() || source.model.bytes() != case.model {
            continue;
        }
        let wanted = refusal(&case.model, &case.tape);
        let (found, _) = explain::model(&case.model, Some(&source));
        let told = found.first().map_or(0, |first| first.question);
        assert_eq!(told, if wanted < 8 { wanted } else { 0 }, "{text}");
        assert!(found.iter().all(|finding| finding.at.is_some()));
        *met.entry(told).or_insert(0) += 1;
    }
    for question in [0, 4, 5, 7] {
        assert!(met.contains_key(&question), "{met:?}");
    }
}

/// What is printed: nothing for an accepted pair; else the engine's number, once, in the first message.
#[test]
fn what_is_told_has_the_engines_number() {
    let mut random = Random::new(17);
    for _ in 0..cases() / 5 {
        let (model, tape) = model_and_tape(Rules::LANDED, &mut random, Size::Small);
        let case = damaged_case(Rules::LANDED, &mut random, Size::Small, model, tape);
        let wanted = refusal(&case.model, &case.tape);
        let mut models = vec![ModelFile::bytes("model.bin", case.model.clone())];
        if let Ok(text) = modeltext::model_text(&case.model) {
            let file = ModelFile::text("model.txt", &text);
            if file.faults().is_empty() && file.bytes == case.model {
                models.push(file);
            }
        }
        let tapes = [
            Some(TapeFile::bytes("tape.bin", case.tape.clone())),
            modeltext::tape::text(&case.tape)
                .ok()
                .map(|text| TapeFile::text("tape.txt", &text))
                .filter(|file| file.bytes == case.tape),
        ];
        for model in &models {
            for tape in tapes.iter().flatten() {
                let told = judge(model, Some(tape));
                let numbers = told.join("\n").matches("; question ").count();
                if wanted == 0 {
                    assert!(told.is_empty(), "{told:?}");
                } else {
                    assert_eq!(numbers, 1, "{told:?}");
                    let number = format!("; question {wanted}\n");
                    assert!(told[0].contains(&number), "{told:?}");
                    assert!(!told[0].contains("no better explanation"), "{told:?}");
                }
            }
        }
    }
}

/// Distributions: a list is explained exactly if the engine refuses it alone.
#[test]
fn distributions() {
    const TIMES: &[f64] = &[
        0.0,
        1.0,
        7.0,
        12.5,
        12.3,
        64.015625,
        500_000.0,
        500_000.5,
        1_000_000.0,
        1_000_000.5,
    ];
    const US: &[f64] = &[0.0, 0.25, 0.5, 0.75, 0.9, 1.0, 1.0 / 65_536.0, 1.5];
    const COUNTS: &[u32] = &[0, 2, 65_535, 65_536, u32::MAX];
    let mut random = Random::new(42);
    let mut met = BTreeMap::new();
    for k in 0..20 * cases() {
        let form = match k % 3 {
            0 => format!("fixed {}", random.pick(TIMES)),
            1 => format!("spread {} +- {}", random.pick(TIMES), random.pick(TIMES)),
            _ => {
                let count = *random.pick(&[0, 1, 2, 3, 5, 22, 24]);
                let mut pick =
                    |from: &[f64]| -> Vec<f64> { (0..count).map(|_| *random.pick(from)).collect() };
                let (mut us, mut times) = (pick(US), pick(TIMES));
                if random.percent(80) {
                    us.sort_by(f64::total_cmp);
                    us.dedup();
                    us.extend((us.len() < 24).then_some(1.0));
                    us.insert(0, 0.0);
                    us.dedup();
                    times.sort_by(f64::total_cmp);
                    times.resize(us.len(), *random.pick(TIMES));
                }
                let points = us.iter().zip(&times).map(|(u, t)| format!(" {u}:{t}"));
                format!("curve{}", points.collect::<String>())
            }
        };
        let count = if k % 5 == 0 { *random.pick(COUNTS) } else { 2 };
        let text = format!("l: {form}, {count} times");
        let none = |_: &str| Err("no file".to_string());
        let list = &modeltext::distribution::read(&text, &none).unwrap()[0];
        let told = explain::distribution(list);
        let refused = engine::make_tape(0, &[command::drawing::list(list)]).is_err();
        assert_eq!(told.is_some(), refused, "{text}: {told:?}");
        let rule = told.map_or("taken", |fault| {
            let known = RULES.iter().find(|rule| fault.what.contains(**rule));
            known.unwrap_or_else(|| panic!("{fault}"))
        });
        *met.entry(rule).or_insert(0) += 1;
    }
    assert_eq!(met.len(), RULES.len() + 1, "{met:?}");
}

/// What a message says of each rule of a distribution.
const RULES: &[&str] = &[
    "a list has at most",
    "a time of a distribution is at most",
    "a time of a distribution is a multiple",
    "u of a distribution is at most",
    "the mean of a spread",
    "is more than the mean",
    "a curve has 2 to 24 points",
    "a curve begins",
    "u rises",
    "times never fall",
    "a curve ends",
];
