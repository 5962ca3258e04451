//! Traces by column (02, item 10).

use reference::columns::{from_columns, to_columns};
use reference::generate::random::Random;
use reference::generate::traces::{call, columns, run_trace, trace};
use reference::generate::Size;
use reference::number::number_bytes;
use reference::Rules;

fn bytes(numbers: &[u64]) -> Vec<u8> {
    numbers.iter().flat_map(|n| number_bytes(*n)).collect()
}

/// What a call with much room gives.
fn given(call: fn(&[u8], &mut [u8]) -> Result<usize, u32>, given: &[u8]) -> Result<Vec<u8>, u32> {
    let mut out = vec![0xA5; given.len() * 5 + 10];
    let answer = call(given, &mut out);
    let length = answer.unwrap_or(0);
    assert!(out[length..].iter().all(|byte| *byte == 0xA5));
    out.truncate(length);
    answer.map(|_| out)
}

#[test]
fn the_columns_of_two_records() {
    let trace = bytes(&[300, 1, 1, 0, 305, 2, 7, 1]);
    let columns = bytes(&[2, 300, 5, 1, 2, 1, 7, 0, 1]);
    assert_eq!(given(to_columns, &trace), Ok(columns.clone()));
    assert_eq!(given(from_columns, &columns), Ok(trace));
}

#[test]
fn the_empty_trace_is_the_byte_00() {
    assert_eq!(given(to_columns, &[]), Ok(vec![0]));
    assert_eq!(given(from_columns, &[0]), Ok(vec![]));
    assert_eq!(to_columns(&[], &mut []), Err(52));
    assert_eq!(from_columns(&[0], &mut []), Ok(0));
    assert_eq!(from_columns(&[], &mut []), Err(51));
}

#[test]
fn what_is_no_such_trace() {
    for numbers in [
        vec![5, 1, 1, 0, 4, 1, 2, 0],  // a clock that falls
        vec![5, 1, 1],                 // not whole
        vec![5, 1, 1, 0, 6],           // not whole either
        vec![5, 0, 1, 0],              // no transaction
        vec![5, 1, 257, 0],            // no block
        vec![5, 1, 1, 2],              // no outcome
        vec![40_000_000_000, 1, 1, 0], // no number of a trace
        vec![5, 100_000_001, 1, 0],    // no transaction
    ] {
        assert_eq!(given(to_columns, &bytes(&numbers)), Err(51), "{numbers:?}");
        // 51 is asked before 52.
        assert_eq!(to_columns(&bytes(&numbers), &mut []), Err(51));
    }
    assert_eq!(to_columns(&[0x80, 5, 1, 1, 0], &mut []), Err(51));
    assert_eq!(
        to_columns(&bytes(&[5, 1, 1, 0, 5, 1, 2, 0]), &mut []),
        Err(52)
    );
}

#[test]
fn what_is_no_such_columns() {
    for numbers in [
        vec![1, 5, 1, 1],                             // too few
        vec![1, 5, 1, 1, 0, 0],                       // bytes left over
        vec![0, 0],                                   // the same of none
        vec![2, 5, 1, 1, 0],                          // a count too high
        vec![100_000_001, 5, 1, 1, 0],                // more than a trace may have
        vec![1, 5, 0, 1, 0],                          // no transaction
        vec![1, 5, 1, 257, 0],                        // no block
        vec![1, 5, 1, 1, 2],                          // no outcome
        vec![2, 32_000_000_000, 1, 1, 1, 1, 1, 0, 0], // a sum past the clock limit
    ] {
        assert_eq!(
            given(from_columns, &bytes(&numbers)),
            Err(51),
            "{numbers:?}"
        );
        assert_eq!(from_columns(&bytes(&numbers), &mut []), Err(51));
    }
    assert_eq!(from_columns(&[0x80, 0], &mut []), Err(51));
    assert_eq!(from_columns(&bytes(&[1, 5, 1, 1, 0]), &mut [0; 3]), Err(52));
}

#[test]
fn the_trace_of_every_run_is_taken_and_comes_back() {
    let mut random = Random::new(61);
    for size in [Size::Short, Size::Full] {
        for _ in 0..500 {
            let trace = run_trace(Rules::LANDED, &mut random, size);
            let columns = given(to_columns, &trace).unwrap();
            assert_eq!(given(from_columns, &columns), Ok(trace));
        }
    }
}

#[test]
fn columns_are_taken_exactly_if_some_trace_produces_them() {
    let mut random = Random::new(62);
    let mut taken = [0; 4];
    for _ in 0..4_000 {
        let trace = trace(Rules::LANDED, &mut random);
        if let Ok(columns) = given(to_columns, &trace) {
            assert_eq!(given(from_columns, &columns), Ok(trace));
            taken[0] += 1;
        } else {
            taken[1] += 1;
        }
        let columns = columns(Rules::LANDED, &mut random);
        if let Ok(trace) = given(from_columns, &columns) {
            assert_eq!(given(to_columns, &trace), Ok(columns));
            taken[2] += 1;
        } else {
            taken[3] += 1;
        }
    }
    assert!(taken.iter().all(|count| *count > 400), "{taken:?}");
}

#[test]
fn every_short_row_of_bytes() {
    // All rows of up to five bytes from a few: those taken come back.
    let some = [0, 1, 2, 5, 0x7F, 0x80, 0x81, 0xFF];
    let mut rows: Vec<Vec<u8>> = vec![vec![]];
    let mut taken = 0;
    for _ in 0..6 {
        for row in &rows {
            for (one, other) in [
                (to_columns as Call, from_columns as Call),
                (from_columns, to_columns),
            ] {
                if let Ok(answer) = given(one, row) {
                    assert_eq!(given(other, &answer).as_ref(), Ok(row));
                    taken += 1;
                }
            }
        }
        let longer = |row: &Vec<u8>| some.map(|byte| [row.as_slice(), &[byte]].concat());
        rows = rows.iter().flat_map(longer).collect();
    }
    assert!(taken > 100);
}

type Call = fn(&[u8], &mut [u8]) -> Result<usize, u32>;

#[test]
fn room_is_asked_last_and_nothing_is_written() {
    let mut random = Random::new(63);
    let mut short = 0;
    for _ in 0..2_000 {
        let trace = run_trace(Rules::LANDED, &mut random, Size::Short);
        let needed = given(to_columns, &trace).unwrap().len();
        let call = call(&mut random, trace, needed);
        let mut out = vec![0xA5; call.room];
        let answer = to_columns(&call.bytes, &mut out);
        if call.room < needed {
            assert_eq!(answer, Err(52));
            assert!(out.iter().all(|byte| *byte == 0xA5));
            short += 1;
        } else {
            assert_eq!(answer, Ok(needed));
        }
    }
    assert!(short > 300);
}
