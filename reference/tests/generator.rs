//! The random cases: always the same, and of every sort.

use reference::coverage::{families, Coverage};
use reference::decode::decode_model_with;
use reference::generate::fields::{encode_model, encode_tape};
use reference::generate::random::Random;
use reference::generate::{case_with, structured, Size};
use reference::tape::decode_tape_with;
use reference::Rules;

#[test]
fn the_same_seed_gives_the_same_cases() {
    let cases = |seed: u64| {
        let mut random = Random::new(seed);
        (0..50)
            .map(|_| case_with(Rules::LANDED, &mut random, Size::Full))
            .collect::<Vec<_>>()
    };
    assert_eq!(cases(5), cases(5));
    assert_ne!(cases(5), cases(6));
}

#[test]
fn structured_models_pass_the_door_and_come_back_the_same() {
    let mut random = Random::new(21);
    for size in [Size::Small, Size::Full] {
        for _ in 0..2_000 {
            let (model, tape) = structured::model_and_tape(Rules::LANDED, &mut random, size);
            assert_eq!(
                decode_model_with(Rules::LANDED, &encode_model(&model)),
                Ok(model.clone())
            );
            assert_eq!(
                decode_tape_with(Rules::LANDED, &encode_tape(&tape), model.lists),
                Ok(tape)
            );
            assert!(size == Size::Full || model.blocks.len() <= 14);
        }
    }
}

#[test]
fn small_cases_cover_refusals_ends_and_kinds() {
    let coverage = Coverage::of(Rules::LANDED, &mut Random::new(31), Size::Small, 12_000);
    assert_eq!(coverage.empty_cells(), [""; 0]);
}

#[test]
fn short_cases_keep_to_200_turns() {
    let coverage = Coverage::of(Rules::LANDED, &mut Random::new(41), Size::Short, 4_000);
    assert!(coverage.turns.iter().all(|turns| *turns <= 200));
    assert!(coverage.most_blocks <= 18);
}

#[test]
fn full_cases_cover_refusals_ends_and_kinds() {
    let coverage = Coverage::of(Rules::LANDED, &mut Random::new(51), Size::Full, 6_000);
    assert_eq!(coverage.empty_cells(), [""; 0]);
    let long = coverage.turns.iter().filter(|turns| **turns >= 100).count();
    assert!(long * 3 > coverage.turns.len(), "a third run 100 turns");
    assert_eq!(coverage.most_living, 1_024);
    assert_eq!(coverage.most_blocks, 256);
    assert_eq!(coverage.last_clock, 32_000_000_000);
    assert!(coverage.families.met(families::LONG) > 0);
}
