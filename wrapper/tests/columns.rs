//! Traces by column, there and back, and both refusals.

use covrith::Refusal::{ColumnsRoom, NotColumns};
use covrith::{from_columns, simulate, to_columns};

const MODEL: [u8; 19] = [1, 1, 0, 0, 0, 2, 2, 5, 1, 1, 0, 4, 1, 2, 2, 5, 1, 3, 1];
const TAPE: [u8; 6] = [2, 3, 2, 2, 5, 4];

/// Records at clocks 3, 5 and 133: the differences are 3, 2 and 128.
const TRACE: [u8; 13] = [3, 1, 1, 0, 5, 1, 2, 1, 0x81, 5, 2, 1, 0];
const COLUMNS: [u8; 14] = [3, 3, 2, 0x81, 0, 1, 1, 2, 1, 2, 1, 0, 1, 0];

#[test]
fn there_and_back() {
    let mut out = [7; 16];
    assert_eq!(to_columns(&TRACE, &mut out), Ok(14));
    assert_eq!((&out[..14], &out[14..]), (&COLUMNS[..], &[7, 7][..]));
    let mut out = [7; 16];
    assert_eq!(from_columns(&COLUMNS, &mut out), Ok(13));
    assert_eq!((&out[..13], &out[13..]), (&TRACE[..], &[7, 7, 7][..]));
}

#[test]
fn a_run() {
    let run = simulate(&MODEL, &TAPE, 1_000_000, 65_536).unwrap();
    let trace = &run.trace[..];
    let mut columns = vec![0; trace.len() + 4];
    let length = to_columns(trace, &mut columns).unwrap();
    let mut back = vec![0; trace.len()];
    assert_eq!(from_columns(&columns[..length], &mut back), Ok(trace.len()));
    assert_eq!(back, trace);
}

#[test]
fn nothing() {
    assert_eq!(to_columns(&[], &mut []), Err(ColumnsRoom));
    let mut out = [7; 2];
    assert_eq!((to_columns(&[], &mut out), out), (Ok(1), [0, 7]));
    assert_eq!(from_columns(&[0], &mut []), Ok(0));
    assert_eq!(from_columns(&[], &mut []), Err(NotColumns));
}

#[test]
fn refusals() {
    let mut out = [7; 16];
    // a falling clock, a damaged record, left over bytes, a sum past the clock limit, a count without its columns
    assert_eq!(
        to_columns(&[3, 1, 1, 0, 2, 1, 1, 0], &mut out),
        Err(NotColumns)
    );
    assert_eq!(to_columns(&[3, 1, 1, 0, 2], &mut []), Err(NotColumns));
    assert_eq!(from_columns(&[1, 3, 1, 1, 0, 0], &mut out), Err(NotColumns));
    let past = [2, 0xf7, 0x9a, 0xe5, 0x80, 0, 1, 1, 1, 1, 1, 0, 0];
    assert_eq!(from_columns(&past, &mut out), Err(NotColumns));
    assert_eq!(from_columns(&[2, 3, 1, 1, 0], &mut out), Err(NotColumns));
    // too little room, asked last
    assert_eq!(to_columns(&TRACE, &mut out[..13]), Err(ColumnsRoom));
    assert_eq!(from_columns(&COLUMNS, &mut out[..12]), Err(ColumnsRoom));
    assert_eq!(out, [7; 16]);
}
