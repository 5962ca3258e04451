//! Streams of draws (02, item 3).

use reference::streams::{power, start, starts, starts_text, step, MODULUS, STREAM_LENGTH};

#[test]
fn the_published_check() {
    let mut state = 1;
    for _ in 0..10_000 {
        state = step(state);
    }
    assert_eq!(state, 1_043_618_065);
    assert_eq!(power(16_807, 10_000), 1_043_618_065);
}

#[test]
fn single_steps_lead_from_each_start_to_the_next() {
    let starts = starts();
    assert_eq!(starts.len(), 512);
    let mut state = 1;
    for number in &starts {
        assert_eq!(*number, state);
        for _ in 0..STREAM_LENGTH {
            state = step(state);
        }
    }
}

#[test]
fn each_start_is_the_power_that_the_paper_names() {
    for (stream, number) in starts().iter().enumerate() {
        assert_eq!(start(stream as u32), Ok(*number));
    }
}

#[test]
fn a_stream_above_511_is_41() {
    assert!(start(511).is_ok());
    for stream in [512, 513, 65_536, u32::MAX] {
        assert_eq!(start(stream), Err(41));
    }
}

#[test]
fn states_stay_within_the_modulus() {
    assert_eq!(step(MODULUS as u32 - 1), MODULUS as u32 - 16_807);
    assert!(starts()
        .iter()
        .all(|s| (1..MODULUS).contains(&u64::from(*s))));
    let distinct: std::collections::BTreeSet<u32> = starts().into_iter().collect();
    assert_eq!(distinct.len(), 512);
}

#[test]
fn the_program_prints_one_number_to_a_line() {
    let text = starts_text();
    assert!(text.starts_with("1\n") && text.ends_with('\n'));
    let numbers: Vec<u32> = text.lines().map(|line| line.parse().unwrap()).collect();
    assert_eq!(numbers, starts());
}
