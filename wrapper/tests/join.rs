//! Two pairs joined: bytes, each answer in its place, buffers left as they were.

use covrith::Refusal::{self, JoinRoom, ModelNumber, NotJoined, TapeNumber};
use covrith::{join, simulate, write_joined, End};

/// One crane: ships come and hold it (document 01, the first example, with a counter that it does not reach).
const MODEL: [u8; 19] = [1, 1, 0, 0, 0, 2, 9, 5, 1, 1, 0, 4, 1, 2, 2, 5, 1, 3, 1];
const TAPE: [u8; 6] = [2, 3, 2, 2, 5, 4];
const LATER: [u8; 6] = [2, 4, 1, 2, 3, 6];
const JOINED: [u8; 30] = [
    1, 2, 0, 0, 0, 4, 18, 10, 1, 1, 0, 4, 1, 2, 2, 5, 1, 3, 1, 1, 3, 0, 4, 2, 2, 4, 5, 2, 3, 1,
];

#[test]
fn the_second_is_numbered_on() {
    let (model, tape) = join((&MODEL, &TAPE), (&MODEL, &LATER)).unwrap();
    assert_eq!(model, JOINED);
    assert_eq!(tape, [TAPE, LATER].concat());
}

#[test]
fn the_parts_have_their_records() {
    let (model, tape) = join((&MODEL, &TAPE), (&MODEL, &LATER)).unwrap();
    let run = |model: &[u8], tape: &[u8]| {
        let run = simulate(model, tape, 1_000, 4_096).unwrap();
        assert_eq!(run.end, End::Dry);
        let records = run.records();
        records
            .map(|r| (r.clock, r.transaction, r.block, r.outcome))
            .collect::<Vec<_>>()
    };
    let both = run(&model, &tape);
    for (tape, before) in [(TAPE, 0), (LATER, 5)] {
        let mut own: Vec<_> = both.clone();
        own.retain(|r| r.2 > before && r.2 <= before + 5);
        let mut numbers: Vec<u64> = own.iter().map(|r| r.1).collect();
        numbers.sort_unstable();
        numbers.dedup();
        let rank = |number: u64| 1 + numbers.iter().filter(|n| **n < number).count() as u64;
        let part: Vec<_> = own
            .iter()
            .map(|r| (r.0, rank(r.1), r.2 - before, r.3))
            .collect();
        assert_eq!(part, run(&MODEL, &tape));
    }
}

#[test]
fn refusals_write_nothing() {
    let ask = |first: (&[u8], &[u8]), second: (&[u8], &[u8]), rooms: (usize, usize)| {
        let mut model = vec![7; rooms.0];
        let mut tape = vec![7; rooms.1];
        let answer = write_joined(first, second, &mut model, &mut tape);
        let (m, t) = answer.unwrap_or((0, 0));
        assert!(model[m..].iter().chain(&tape[t..]).all(|byte| *byte == 7));
        answer
    };
    let good = (&MODEL[..], &TAPE[..]);
    let refused = |first, second| ask(first, second, (0, 0)).unwrap_err();
    assert_eq!(ask(good, good, (30, 12)), Ok((30, 12)));
    assert_eq!(ask(good, good, (31, 13)), Ok((30, 12)));
    assert_eq!(ask(good, good, (29, 12)), Err(JoinRoom));
    assert_eq!(ask(good, good, (30, 11)), Err(JoinRoom));
    assert_eq!(refused(good, good), JoinRoom);
    // First pair first, the model before its tape; 61 after all of them and before 62.
    assert_eq!(refused((&[], &[]), (&[], &[])), ModelNumber);
    assert_eq!(refused((&MODEL, &[]), (&[], &[])), TapeNumber);
    assert_eq!(refused(good, (&[], &[])), ModelNumber);
    assert_eq!(refused(good, (&MODEL, &[])), TapeNumber);
    let mut second = MODEL;
    second[0] = 2;
    assert_eq!(refused(good, (&second, &[])), TapeNumber);
    assert_eq!(refused(good, (&second, &TAPE)), NotJoined);
    assert_eq!(NotJoined.number(), 61);
    assert_eq!(Refusal::of(62), Some(JoinRoom));
}

#[test]
fn the_most_that_is_joined() {
    // 127 and 129 blocks: each target and count of the second takes a byte more.
    let blocks = |count: usize| {
        let mut model = vec![1, 0, 0, 0, 0, 0, 1];
        match count {
            0..=127 => model.push(count as u8),
            _ => model.extend([0x81, (count - 128) as u8]),
        }
        model.extend([11, 1].repeat(count));
        model
    };
    let (first, second) = (blocks(127), blocks(129));
    let (model, tape) = join((&first, &[]), (&second, &[])).unwrap();
    assert_eq!((model.len(), tape.len()), (9 + 127 * 2 + 129 * 3, 0));
    assert_eq!(join((&blocks(128), &[]), (&second, &[])), Err(NotJoined));
}
