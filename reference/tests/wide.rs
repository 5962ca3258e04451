//! Clocks to 32,000,000,000 (02, item 1).

mod common;
use common::*;
use reference::claims::check_with;
use reference::columns::{from_columns_with, to_columns_with};
use reference::coverage::Coverage;
use reference::generate::fields::{encode_model, encode_tape};
use reference::generate::random::Random;
use reference::generate::{case_with, wide, Size};
use reference::model::{Block, Term};
use reference::number::number_bytes;
use reference::trace::{read_record_with, write_record_with};
use reference::Rules;

const WIDE: Rules = Rules {
    wide_clocks: true,
    ..Rules::BASE
};
const LAST: u64 = 32_000_000_000;
const LONGEST: u64 = 10_000_000_000;

/// A transaction that goes on and on with the times of the second list.
fn walker() -> reference::model::Model {
    model(vec![generate(1), advance(2), goto(2)])
}

#[test]
fn the_last_clock_is_reached_and_one_more_ends_22() {
    let tape = |last: u64| vec![vec![LONGEST], vec![LONGEST, LONGEST, last], vec![]];
    let ran = run_under(WIDE, &walker(), &tape(2_000_000_000), 100, 1_000);
    assert_eq!((ran.outcome.end, ran.outcome.clock), (23, LAST));
    let ran = run_under(WIDE, &walker(), &tape(2_000_000_001), 100, 1_000);
    assert_eq!((ran.outcome.end, ran.outcome.clock), (22, 30_000_000_000));
    // GENERATE likewise.
    let lone = model(vec![generate(1), terminate(1)]);
    let tape = |last: u64| vec![vec![LONGEST, LONGEST, LONGEST, last], vec![], vec![]];
    let ran = run_under(WIDE, &lone, &tape(2_000_000_000), 100, 1_000);
    assert_eq!((ran.outcome.end, ran.outcome.clock), (1, LAST));
    let ran = run_under(WIDE, &lone, &tape(2_000_000_001), 100, 1_000);
    assert_eq!((ran.outcome.end, ran.outcome.clock), (22, 30_000_000_000));
}

#[test]
fn the_clock_term_is_the_low_32_bits_signed() {
    let expected = [
        (2_147_483_647, 2_147_483_647),
        (2_147_483_648, -2_147_483_648),
        (4_294_967_295, -1),
        (4_294_967_296, 0),
        (4_294_967_301, 5),
        (LAST, 1_935_228_928),
    ];
    for (clock, term) in expected {
        let mut machine = machine(vec![terminate(1)]);
        machine.clock = clock;
        assert_eq!(machine.term(&Term::Clock, &transaction(1, 1, 1)), term);
    }
    // A wait on the clock ends when it has gone round.
    let blocks = vec![
        generate(1),
        wait_while(Term::Clock, 3, Term::Constant(0)),
        terminate(1),
        generate(2),
        terminate(0),
    ];
    let tape = vec![vec![4_294_967_290], vec![4_294_967_293, 2, 3], vec![]];
    let ran = run_under(WIDE, &model(blocks), &tape, 100, 1_000);
    let first: Vec<[u64; 4]> = ran.records.iter().copied().filter(|r| r[1] == 1).collect();
    let (before, after) = (4_294_967_290, 4_294_967_298);
    assert_eq!(
        first,
        [
            [before, 1, 1, 0],
            [before, 1, 2, 1],
            [after, 1, 2, 0],
            [after, 1, 3, 0]
        ]
    );
}

#[test]
fn tape_numbers_have_two_levels() {
    let model = encode_model(&model(vec![generate(1), terminate(1)]));
    let asked = |rules: Rules, number: u64| {
        let mut count = number_bytes(number);
        let mut time = number_bytes(1);
        time.extend(number_bytes(number));
        count.push(0x80);
        let [count, time] = [count, time].map(|tape| refusal_under(rules, &model, &tape));
        (count, time)
    };
    // As a count and as a time; what follows is then missing or no number.
    assert_eq!(asked(WIDE, LONGEST), (9, 8));
    assert_eq!(asked(WIDE, LONGEST + 1), (9, 9));
    assert_eq!(asked(WIDE, 4_294_967_296), (9, 8));
    assert_eq!(asked(WIDE, 34_359_738_367), (9, 9));
    assert_eq!(asked(WIDE, 34_359_738_368), (8, 8));
    assert_eq!(asked(Rules::BASE, 1_000_001), (9, 9));
    assert_eq!(asked(Rules::BASE, 4_294_967_295), (9, 9));
    assert_eq!(asked(Rules::BASE, 4_294_967_296), (8, 8));
    // Model numbers keep their size.
    let mut large = number_bytes(4_294_967_296);
    large.push(0);
    assert_eq!(refusal_under(WIDE, &large, &[]), 3);
    assert_eq!(refusal_under(WIDE, &number_bytes(4_294_967_295), &[]), 4);
}

#[test]
fn trace_numbers_have_two_levels() {
    let read = |rules: Rules, numbers: &[u64]| {
        let bytes: Vec<u8> = numbers.iter().flat_map(|n| number_bytes(*n)).collect();
        read_record_with(rules, &bytes, 0).err().unwrap_or(0)
    };
    assert_eq!(read(WIDE, &[LAST, 1, 1, 0]), 0);
    assert_eq!(read(WIDE, &[LAST + 1, 1, 1, 0]), 32);
    assert_eq!(read(WIDE, &[34_359_738_367, 1, 1, 0]), 32);
    assert_eq!(read(WIDE, &[34_359_738_368, 1, 1, 0]), 31);
    assert_eq!(read(WIDE, &[0, 4_294_967_296, 1, 0]), 32);
    assert_eq!(read(WIDE, &[0, 1, 34_359_738_368, 0]), 31);
    assert_eq!(read(Rules::BASE, &[0, 4_294_967_296, 1, 0]), 31);
    let mut rest = [0xEE; 13];
    let largest = [LAST, 100_000_000, 256, 1];
    assert_eq!(write_record_with(WIDE, &mut rest, largest), Ok(12));
    let record = read_record_with(WIDE, &rest, 0).unwrap();
    assert_eq!((record.clock, record.next), (LAST, 12));
    let past = [LAST + 1, 1, 1, 0];
    assert_eq!(write_record_with(WIDE, &mut rest, past), Err(32));
    assert_eq!(write_record_with(Rules::BASE, &mut rest, largest), Err(32));
}

#[test]
fn columns_follow_the_clock_limit() {
    let bytes =
        |numbers: &[u64]| -> Vec<u8> { numbers.iter().flat_map(|n| number_bytes(*n)).collect() };
    let trace = bytes(&[5, 1, 1, 0, LAST, 2, 2, 1]);
    let columns = bytes(&[2, 5, LAST - 5, 1, 2, 1, 2, 0, 1]);
    let mut out = [0; 40];
    assert_eq!(to_columns_with(WIDE, &trace, &mut out), Ok(columns.len()));
    assert_eq!(out[..columns.len()], columns);
    assert_eq!(from_columns_with(WIDE, &columns, &mut out), Ok(trace.len()));
    assert_eq!(out[..trace.len()], trace);
    assert_eq!(to_columns_with(Rules::BASE, &trace, &mut out), Err(51));
    let past = bytes(&[2, 5, LAST - 4, 1, 2, 1, 2, 0, 1]);
    assert_eq!(from_columns_with(WIDE, &past, &mut out), Err(51));
}

#[test]
fn the_events_stand_by_their_whole_time() {
    // 2^32 + 1 comes after 2, although its low 32 bits are less.
    let blocks = vec![generate(1), terminate(1), generate(2), terminate(1)];
    let tape = vec![vec![4_294_967_297], vec![2], vec![]];
    let ran = run_under(WIDE, &model(blocks), &tape, 100, 1_000);
    let clocks: Vec<u64> = ran.records.iter().map(|r| r[0]).collect();
    assert_eq!(clocks, [2, 2, 4_294_967_297, 4_294_967_297]);
}

#[test]
fn sums_of_ticks_are_whole() {
    let blocks = vec![
        generate(1),
        SEIZE,
        ARRIVE,
        advance(2),
        RELEASE,
        terminate(1),
    ];
    let tape = vec![vec![0, 1], vec![LONGEST, LONGEST], vec![]];
    let ran = run_under(WIDE, &model(blocks), &tape, 100, 1_000);
    assert_eq!(ran.outcome.clock, 2 * LONGEST);
    assert_eq!(ran.facility(), [2, 2 * LONGEST, 1, LONGEST - 1, 1]);
    assert_eq!(ran.queue(), [2, 3 * LONGEST, 2]);
}

#[test]
fn runs_of_older_tapes_that_did_not_end_22_keep_their_bytes() {
    let mut random = Random::new(91);
    let mut kept = 0;
    let mut late = 0;
    for number in 0..4_000 {
        let size = if number % 8 == 0 {
            Size::Full
        } else {
            Size::Small
        };
        let case = case_with(Rules::BASE, &mut random, size);
        let before = everything(Rules::BASE, &case);
        if before.0.refusal != 0 {
            continue;
        }
        if before.0.end == 22 {
            late += 1;
        } else {
            assert!(before == everything(WIDE, &case), "case {number}");
            kept += 1;
        }
    }
    assert!(kept > 2_000 && late > 5, "{kept} {late}");
}

#[test]
fn every_trace_that_the_old_reader_takes_the_new_one_takes_alike() {
    let mut random = Random::new(92);
    for _ in 0..4_000 {
        let bytes = reference::generate::traces::trace(Rules::BASE, &mut random);
        let mut position = 0;
        while let Ok(record) = read_record_with(Rules::BASE, &bytes, position) {
            assert_eq!(read_record_with(WIDE, &bytes, position), Ok(record));
            position = record.next;
        }
    }
}

#[test]
fn claims_hold_at_late_clocks() {
    let mut random = Random::new(93);
    let mut last = 0;
    for number in 0..2_500 {
        let case = match number % 5 {
            0 => case_with(WIDE, &mut random, Size::Full),
            1 => wide::case(WIDE, &mut random, Size::Full),
            _ => wide::case(WIDE, &mut random, Size::Small),
        };
        match check_with(WIDE, &case) {
            Ok((outcome, _)) => last = last.max(outcome.clock),
            Err(errors) => panic!("case {number}: {errors:?}\n{case:?}"),
        }
    }
    assert_eq!(last, LAST);
}

#[test]
fn wide_cases_cover_what_the_others_do() {
    let coverage = Coverage::of(WIDE, &mut Random::new(94), Size::Small, 8_000);
    assert_eq!(coverage.last_clock, LAST);
    assert_eq!(coverage.empty_cells(), [""; 0]);
}

#[test]
fn a_year_in_milliseconds() {
    // Every day for a year something comes and stays two hours.
    let blocks = vec![generate(1), SEIZE, advance(2), RELEASE, terminate(1)];
    let day = 86_400_000;
    let mut year = model(blocks);
    year.counter = 1_000;
    let tape = vec![vec![day; 365], vec![7_200_000; 365], vec![]];
    let ran = run_under(WIDE, &year, &tape, 10_000, 65_536);
    assert_eq!((ran.outcome.end, ran.outcome.ended), (1, 365));
    assert_eq!(ran.outcome.clock, 365 * day + 7_200_000);
    let refused = refusal(&encode_model(&year), &encode_tape(&tape));
    assert_eq!(refused, 9);
    assert!(matches!(year.blocks[0], Block::Generate { .. }));
}
