//! The examples of document 01, in their order.

mod common;
use common::*;
use reference::blocks::Done;
use reference::machine::Machine;
use reference::model::{Model, Term};
use reference::number::{read_number, MAX_NUMBER};
use reference::text::runmodel;
use reference::Rules;

const MODEL: [u8; 19] = [1, 1, 0, 0, 0, 2, 2, 5, 1, 1, 0, 4, 1, 2, 2, 5, 1, 3, 1];
const TAPE: [u8; 6] = [2, 3, 2, 2, 5, 4];

#[test]
fn first_example_prints_as_the_paper_says() {
    let lines = [
        "3 1 1 0",
        "3 1 2 0",
        "3 1 3 0",
        "5 2 1 0",
        "5 2 2 1",
        "8 1 4 0",
        "8 1 5 0",
        "8 2 2 0",
        "8 2 3 0",
        "12 2 4 0",
        "12 2 5 0",
        "end 2 12 2 2 0",
        "f 1 2 9 1 3 1",
    ];
    assert_eq!(runmodel(&MODEL, &TAPE), lines.join("\n") + "\n");
}

#[test]
fn a_refused_pair_prints_only_refused_and_the_number() {
    assert_eq!(runmodel(&MODEL[..18], &TAPE), "refused 3\n");
    assert_eq!(runmodel(&MODEL, &[]), "refused 8\n");
    assert_eq!(runmodel(&[0x80, 1], &TAPE), "refused 3\n");
}

#[test]
fn of_each_file_the_first_65536() {
    // A tape of 65,536 bytes: 65,533 times. Bytes after it are never looked at.
    let model = [1, 0, 0, 0, 0, 1, 1, 2, 1, 1, 0, 3, 1];
    let mut tape = vec![0x83, 0xFF, 0x7D]; // 65,533
    tape.resize(65_536, 0);
    assert_eq!(runmodel(&model, &tape), "0 1 1 0\n0 1 2 0\nend 2 0 2 1 1\n");
    tape.extend([1, 2, 3]);
    assert_eq!(runmodel(&model, &tape), "0 1 1 0\n0 1 2 0\nend 2 0 2 1 1\n");
}

#[test]
fn budget_0_gives_end_3_and_no_records() {
    let model = reference::decode::decode_model(&MODEL).unwrap();
    let tape = reference::tape::decode_tape(&TAPE, 2).unwrap();
    let ran = run_limited(&model, &tape, 0, 65_536);
    assert_eq!(ran.outcome.numbers()[..7], [0, 3, 0, 0, 1, 0, 0]);
}

#[test]
fn no_generate_budget_0_gives_end_1() {
    let ran = run_limited(&model(vec![terminate(1)]), &vec![vec![]; 3], 0, 0);
    assert_eq!(ran.outcome.end, 1);
}

#[test]
fn serials_5_and_9_both_woken_both_find_f_in_use() {
    let tape = vec![vec![]; 3];
    let mut machine = Machine::start(Rules::BASE, model(vec![SEIZE, terminate(1)]), tape);
    machine.made = 3;
    machine.last_serial = 20;
    machine.facilities[0].in_use = 1;
    // Woken in the other order: the standing comes from the serials.
    machine.wake(transaction(2, 1, 9));
    machine.wake(transaction(3, 1, 5));
    for _ in 0..2 {
        let taken = machine.take().unwrap();
        assert_eq!(machine.execute(taken), Done::PutBack);
    }
    let ql: Vec<u64> = machine.facilities[0].ql.iter().map(|t| t.serial).collect();
    assert_eq!(ql, [5, 9]);
    assert_eq!(machine.last_serial, 20);
    assert_eq!(machine.facilities[0].waits_begun, 0);
}

#[test]
fn two_leaves_of_1_wake_an_enter_of_2() {
    // Two holders of one unit each until 10 and 12; at 5 a waiter for 2.
    let blocks = vec![
        generate(1),
        enter(1),
        advance(2),
        leave(1),
        terminate(1),
        generate(3),
        enter(2),
        terminate(1),
    ];
    let tape = vec![vec![0, 0], vec![10, 12], vec![5]];
    let ran = run_model(&model(blocks), &tape);
    let waiter: Vec<[u64; 4]> = ran.records.iter().copied().filter(|r| r[1] == 2).collect();
    assert_eq!(
        waiter,
        [[5, 2, 6, 0], [5, 2, 7, 1], [12, 2, 7, 0], [12, 2, 8, 0]]
    );
    // Between the two LEAVEs the waiter was never tried: no turn without a record.
    assert_eq!(ran.outcome.turns, ran.records.len() as u64);
}

#[test]
fn sums_wrap_in_signed_32_bits() {
    let mut model = model(vec![terminate(1)]);
    let one = || plus(Term::Constant(1));
    model.values = vec![sum(vec![plus(Term::Constant(Model::MAX_CONSTANT)), one()])];
    let machine = Machine::start(Rules::BASE, model, vec![vec![]; 3]);
    let nobody = transaction(1, 1, 1);
    assert_eq!(machine.term(&Term::Value(1), &nobody), -2_147_483_648);
    let below = sum(vec![
        plus(Term::MinusConstant(Model::MAX_CONSTANT)),
        minus(Term::Constant(2)),
    ]);
    assert_eq!(machine.sum(&below, &nobody), 2_147_483_647);
}

#[test]
fn a_padded_number_is_refused() {
    assert_eq!(read_number(&[0x80, 0x01], 0, MAX_NUMBER), None);
    let mut padded = vec![0x80];
    padded.extend(MODEL);
    assert_eq!(refusal(&padded, &TAPE), 3);
}

#[test]
fn equal_move_time_priority_1_precedes_an_earlier_priority_0() {
    let blocks = vec![
        generate_at(1, 0),
        terminate(1),
        generate_at(2, 1),
        terminate(1),
    ];
    let ran = run_model(&model(blocks), &vec![vec![4], vec![4], vec![]]);
    assert_eq!(ran.steps(), [(2, 3, 0), (2, 4, 0), (1, 1, 0), (1, 2, 0)]);
}

#[test]
fn after_release_the_same_transaction_may_seize_before_the_woken_waiter() {
    let blocks = vec![
        generate(1),
        SEIZE,
        advance(2),
        RELEASE,
        SEIZE,
        advance(2),
        RELEASE,
        terminate(1),
    ];
    let ran = run_model(&model(blocks), &vec![vec![0, 1], vec![5; 9], vec![]]);
    let expected = [
        [0, 1, 1, 0],
        [0, 1, 2, 0],
        [0, 1, 3, 0],
        [1, 2, 1, 0],
        [1, 2, 2, 1],
        [5, 1, 4, 0],
        [5, 1, 5, 0],
        [5, 1, 6, 0],
        // here 2 was tried and put back without a record
        [10, 1, 7, 0],
        [10, 1, 8, 0],
        [10, 2, 2, 0],
    ];
    assert_eq!(ran.records[..11], expected);
    assert_eq!(ran.facility()[2], 1);
}
