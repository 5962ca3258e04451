//! The questions at the door, each in every position where it can be "no".

mod common;
use common::*;
use reference::decode::decode_model_with;
use reference::generate::fields::{
    encode_fields, encode_model, encode_tape, model_fields, tape_fields,
};
use reference::model::{Block, Model, Term};
use reference::report::REPORT_BYTES;
use reference::run::{run_with, WORK_NUMBERS};
use reference::tape::decode_tape_with;
use reference::Rules;

/// A model with every kind of block and every tag.
fn rich() -> Model {
    let deep = Term::Comparison(Box::new(compare(
        Term::Bracket(sum(vec![plus(Term::Clock), minus(Term::Value(1))])),
        4,
        Term::Entries(3),
    )));
    let mut model = model(vec![
        generate_at(1, 127),
        advance(2),
        SEIZE,
        RELEASE,
        enter(2),
        leave(1),
        wait_status(1),
        wait_status(6),
        wait_while(Term::Value(2), 2, Term::MinusConstant(300)),
        Block::If {
            comparison: compare(Term::Content(1), 6, Term::UnitsInUse(1)),
            target: 13,
        },
        let_parameter(4, Term::UnitsFree(1)),
        priority(5),
        split(255, 14),
        ARRIVE,
        DEPART,
        wait_while(
            Term::FacilityInUse(1),
            1,
            Term::Constant(Model::MAX_CONSTANT),
        ),
        wait_while(Term::Parameter(2), 3, Term::Entries(17)),
        goto(2),
        generate(3),
        terminate(65_535),
    ]);
    model.values = vec![
        sum(vec![plus(Term::Constant(200)), minus(Term::Parameter(1))]),
        sum(vec![plus(deep), plus(Term::FacilityInUse(1))]),
    ];
    model
}

fn rich_tape() -> Vec<Vec<u64>> {
    vec![vec![0, 1_000_000, 128], vec![], vec![70_000, 3]]
}

#[test]
fn the_rich_model_is_accepted_and_comes_back_the_same() {
    let bytes = encode_model(&rich());
    assert_eq!(decode_model_with(Rules::BASE, &bytes), Ok(rich()));
    let tape = encode_tape(&rich_tape());
    assert_eq!(decode_tape_with(Rules::BASE, &tape, 3), Ok(rich_tape()));
    assert_eq!(refusal(&bytes, &tape), 0);
}

#[test]
fn buffers_first_work_then_report_before_any_byte() {
    let ask = |work: usize, report: usize| {
        let mut report = vec![9; report];
        let outcome = run_with(Rules::BASE, &[0x80], &[], 5, work, &mut [], &mut report);
        assert!(report.iter().all(|byte| *byte == 9));
        outcome.refusal
    };
    assert_eq!(ask(0, 0), 1);
    assert_eq!(ask(WORK_NUMBERS - 1, REPORT_BYTES), 1);
    assert_eq!(ask(WORK_NUMBERS, 0), 2);
    assert_eq!(ask(WORK_NUMBERS, REPORT_BYTES - 1), 2);
    assert_eq!(ask(WORK_NUMBERS, REPORT_BYTES), 3);
    assert_eq!(ask(WORK_NUMBERS + 1, REPORT_BYTES + 1), 3);
}

#[test]
fn every_cut_model_is_3_and_every_cut_tape_is_8() {
    let bytes = encode_model(&rich());
    let tape = encode_tape(&rich_tape());
    for length in 0..bytes.len() {
        assert_eq!(refusal(&bytes[..length], &tape), 3, "{length}");
    }
    for length in 0..tape.len() {
        assert_eq!(refusal(&bytes, &tape[..length]), 8, "{length}");
    }
}

#[test]
fn odd_numbers_are_3_or_8_everywhere() {
    let odd: [&[u8]; 5] = [
        &[0x80, 0x01],
        &[0x80, 0x80, 0x00],
        &[0x90, 0x80, 0x80, 0x80, 0x00],
        &[0xFF, 0xFF, 0xFF, 0xFF, 0x7F],
        &[0x81, 0x80, 0x80, 0x80, 0x80, 0x00],
    ];
    let bytes = encode_model(&rich());
    let tape = encode_tape(&rich_tape());
    let model = model_fields(Rules::BASE, &rich());
    let times = tape_fields(Rules::BASE, &rich_tape());
    for number in odd {
        for at in 0..model.len() {
            let mut spoilt = encode_fields(&model[..at]);
            spoilt.extend(number);
            spoilt.extend(encode_fields(&model[at + 1..]));
            assert_eq!(refusal(&spoilt, &tape), 3);
        }
        for at in 0..times.len() {
            let mut spoilt = encode_fields(&times[..at]);
            spoilt.extend(number);
            spoilt.extend(encode_fields(&times[at + 1..]));
            assert_eq!(refusal(&bytes, &spoilt), 8);
        }
    }
}

#[test]
fn out_of_range_is_4_or_9_everywhere() {
    let bytes = encode_model(&rich());
    let tape = encode_tape(&rich_tape());
    let check = |fields: &[reference::generate::fields::Field], at: usize, model: bool| {
        let mut outside = vec![fields[at].high + 1, u64::from(u32::MAX)];
        if fields[at].low > 0 {
            outside.push(fields[at].low - 1);
        }
        for value in outside {
            let mut spoilt = fields[..=at].to_vec();
            spoilt[at].value = value;
            // What follows is never read, even if it is no number.
            let mut spoilt = encode_fields(&spoilt);
            spoilt.push(0x80);
            if model {
                assert_eq!(refusal(&spoilt, &tape), 4, "number {at} as {value}");
            } else {
                assert_eq!(refusal(&bytes, &spoilt), 9, "number {at} as {value}");
            }
        }
    };
    let model = model_fields(Rules::BASE, &rich());
    for at in 0..model.len() {
        check(&model, at, true);
    }
    let times = tape_fields(Rules::BASE, &rich_tape());
    for at in 0..times.len() {
        check(&times, at, false);
    }
}

#[test]
fn an_empty_range_is_refused_at_its_number() {
    // One block, no servers, queues, values or lists.
    let head = [1, 0, 0, 0, 0, 0, 1, 1];
    let cases: [&[u8]; 14] = [
        &[1],
        &[2],
        &[4],
        &[5],
        &[6],
        &[7],
        &[8, 1],
        &[8, 6],
        &[15],
        &[16],
        &[9, 5],
        &[9, 6],
        &[12, 1, 8],
        &[12, 1, 9],
    ];
    for block in cases {
        let mut bytes = head.to_vec();
        bytes.extend(block);
        assert_eq!(refusal(&bytes, &[]), 3, "{block:?} and no more");
        bytes.push(1);
        assert_eq!(refusal(&bytes, &[]), 4, "{block:?} 1");
    }
    // Tag 9 in value 1: refused at the number, before question 5 is asked of it.
    assert_eq!(refusal(&[1, 0, 0, 0, 1, 1, 0, 9], &[]), 3);
    assert_eq!(refusal(&[1, 0, 0, 0, 1, 1, 0, 9, 1], &[]), 4);
    // Value 2 may name value 1 only.
    let value_1 = [1, 0, 0, 0, 2, 1, 0, 0, 0];
    let second = |number: u8| [&value_1[..], &[1, 0, 9, number]].concat();
    assert_eq!(refusal(&second(1), &[]), 3);
    assert_eq!(refusal(&second(2), &[]), 4);
}

#[test]
fn bytes_after_the_model_are_6_before_7_and_8() {
    let mut model = rich();
    let mut bytes = encode_model(&model);
    bytes.push(0);
    assert_eq!(refusal(&bytes, &[]), 6);
    model.blocks.push(SEIZE); // a last block that does not leave
    let mut bytes = encode_model(&model);
    assert_eq!(refusal(&bytes, &[]), 7);
    bytes.push(0x80);
    assert_eq!(refusal(&bytes, &[]), 6);
}

fn shape_refusal(model: &Model) -> u64 {
    let bytes = encode_model(model);
    // 7 comes before a bad tape.
    let bad = refusal(&bytes, &[0x80]);
    assert!(bad == 7 || bad == 8);
    bad % 8
}

#[test]
fn a_generate_stands_first_or_after_terminate_or_goto() {
    let shape = |blocks: Vec<Block>| shape_refusal(&model(blocks));
    assert_eq!(shape(vec![generate(1), terminate(1)]), 0);
    assert_eq!(shape(vec![generate(1), goto(3), terminate(1)]), 0);
    assert_eq!(shape(vec![terminate(0), generate(1), terminate(1)]), 0);
    assert_eq!(shape(vec![goto(1), generate(1), terminate(1)]), 0);
    assert_eq!(shape(vec![SEIZE, generate(1), terminate(1)]), 7);
    assert_eq!(shape(vec![generate(1), generate(1), terminate(1)]), 7);
    let jump = Block::If {
        comparison: compare(Term::Clock, 1, Term::Clock),
        target: 3,
    };
    assert_eq!(shape(vec![jump, generate(1), terminate(1)]), 7);
}

#[test]
fn no_target_names_a_generate() {
    let jump = Block::If {
        comparison: compare(Term::Clock, 1, Term::Clock),
        target: 1,
    };
    for block in [goto(1), split(1, 1), jump] {
        let mut ring = model(vec![generate(1), ARRIVE, block, terminate(1)]);
        assert_eq!(shape_refusal(&ring), 7);
        ring.blocks[0] = ARRIVE;
        assert_eq!(shape_refusal(&ring), 0);
    }
    assert_eq!(
        shape_refusal(&model(vec![goto(2), generate(1), goto(2)])),
        7
    );
}

#[test]
fn the_last_block_leaves() {
    assert_eq!(shape_refusal(&model(vec![goto(1)])), 0);
    for block in [generate(1), advance(1), SEIZE, DEPART, split(1, 1)] {
        assert_eq!(shape_refusal(&model(vec![terminate(1), block])), 7);
    }
}

#[test]
fn each_block_named_in_a_value_exists() {
    let mut model = model(vec![ARRIVE, terminate(1)]);
    let nested = |block: u32| {
        let left = Term::Bracket(sum(vec![plus(Term::Entries(block))]));
        let both = compare(left, 1, Term::Entries(1));
        sum(vec![plus(Term::Comparison(Box::new(both)))])
    };
    for (block, answer) in [(1, 0), (2, 0), (3, 7), (256, 7)] {
        model.values = vec![sum(vec![plus(Term::Entries(block))])];
        assert_eq!(shape_refusal(&model), answer);
        model.values = vec![sum(vec![plus(Term::Clock)]), nested(block)];
        assert_eq!(shape_refusal(&model), answer);
    }
    model.values = vec![nested(257)];
    assert_eq!(refusal(&encode_model(&model), &[]), 4);
    // In a block's own term the range is 1..blocks.
    model.values.clear();
    model.blocks[0] = let_parameter(1, Term::Entries(3));
    assert_eq!(refusal(&encode_model(&model), &[]), 4);
}

#[test]
fn bytes_after_the_tape_are_10() {
    let bytes = encode_model(&rich());
    let mut tape = encode_tape(&rich_tape());
    tape.push(0x80);
    assert_eq!(refusal(&bytes, &tape), 10);
    // With no lists the tape is empty.
    let mut model = model(vec![terminate(1)]);
    model.lists = 0;
    let bytes = encode_model(&model);
    assert_eq!(refusal(&bytes, &[]), 0);
    assert_eq!(refusal(&bytes, &[0]), 10);
}
