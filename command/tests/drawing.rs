//! Draws that could mislead, each with what helps: streams that run into each other, lists that shift each other, a whole part that is
//! lower than its mean, a first draw of 0.

use command::drawing::{bytes, draw, notes, read, streams};
use modeltext::distribution::Drawn;
use std::path::Path;

struct Tape {
    lists: Vec<Drawn>,
    streams: Vec<u32>,
    times: Vec<Vec<u64>>,
}

fn tape(text: &str, number: u64) -> Tape {
    let path = Path::new("distributions.txt");
    let lists = read(path, text).unwrap();
    let streams = streams(path, &lists, number).unwrap();
    let times = draw(path, &lists, &streams).unwrap();
    Tape {
        lists,
        streams,
        times,
    }
}

impl Tape {
    fn notes(&self) -> Vec<String> {
        notes(&self.lists, &self.streams, &self.times)
    }
}

fn mean(times: &[u64]) -> f64 {
    times.iter().sum::<u64>() as f64 / times.len() as f64
}

#[test]
fn a_long_stream_runs_into_the_next_and_says_so() {
    let text = "a: exponential 20, 60000 times\nb: exponential 20, 60000 times\nc: exponential 20, 60000 times\n";
    let (zero, one) = (tape(text, 0), tape(text, 1));
    assert_eq!(zero.times[1][40_000..], one.times[0][..20_000]);
    assert_eq!(zero.times[2][..40_000], one.times[0][20_000..]);
    assert!(zero.notes()[0].contains("stream 0 draws 180000 numbers"));
    assert!(zero.notes()[0].contains("what follows is stream 1 once more"));
    // a stream for each list: tapes are four streams apart, and nothing is drawn twice
    let own = "a: exponential 20, 60000 times, stream 1\nb: exponential 20, 60000 times, stream 2\nc: exponential 20, 60000 times, stream 3\n";
    let (zero, one) = (tape(own, 0), tape(own, 1));
    assert_eq!(
        (&zero.streams[..], &one.streams[..]),
        (&[1, 2, 3][..], &[5, 6, 7][..])
    );
    assert!(zero.notes().is_empty() && one.notes().is_empty());
    // the last stream runs into none
    let long = tape(text, 511);
    assert!(long.notes().is_empty(), "{:?}", long.notes());
    let long: String = (0..16)
        .map(|i| format!("l{i}: exponential 20, 65535 times\n"))
        .collect();
    assert!(tape(&long, 5).notes()[0].contains("what follows is streams 6 to 15 once more"));
}

#[test]
fn one_more_arrival_shifts_no_list_of_another_stream() {
    let (few, more) = (
        "a: exponential 20, 100 times\nb: normal 9 2, 50 times",
        "a: exponential 20, 101 times\nb: normal 9 2, 50 times",
    );
    assert_ne!(tape(few, 3).times[1], tape(more, 3).times[1]);
    let own = |text: &str| format!("{text}, stream 1");
    let (few, more) = (tape(&own(few), 3), tape(&own(more), 3));
    assert_eq!(few.times[1], more.times[1]);
    assert_eq!(few.times[0], more.times[0][..100]);
    // a list with a stream of its own gets what that stream draws alone
    assert_eq!(few.streams, [6, 7]);
    assert_eq!(tape("b: normal 9 2, 50 times", 7).times[0], few.times[1]);
}

#[test]
fn whole_parts_keep_the_mean() {
    let times = |text: &str| tape(&format!("a: {text}, 60000 times"), 7);
    let spread = times("spread 3 +- 2");
    assert!((mean(&spread.times[0]) - 2.5).abs() < 0.02);
    assert!(spread.notes()[0].contains("with mean 2.5; `uniform 1 5` has 1 to 5 with mean 3"));
    for (text, wanted) in [
        ("uniform 1 5", 3.0),
        ("exponential 3", 3.0),
        ("normal 3 1", 3.0),
    ] {
        let tape = times(text);
        assert!((mean(&tape.times[0]) - wanted).abs() < 0.05, "{text}");
        assert!(tape.notes().is_empty());
    }
}

#[test]
fn the_first_draw_of_stream_0_is_told() {
    let text = "f: fixed 3, 9 times\na: exponential 20, 9 times\n";
    let zero = tape(text, 0);
    assert_eq!(zero.times[1][0], 0);
    assert_eq!(zero.notes(), ["the first draw of stream 0 is u = 0: `a` begins with 0; other streams (--stream 1) begin anywhere"]);
    assert!(tape(text, 1).notes().is_empty());
}

#[test]
fn a_factor_multiplies_what_was_drawn() {
    let (one, many) = (
        tape("a: exponential 20, 500 times", 2),
        tape("a: exponential 20, times 60000, 500 times", 2),
    );
    let multiplied: Vec<u64> = one.times[0].iter().map(|t| t * 60_000).collect();
    assert_eq!(many.times[0], multiplied);
    // lists are laid end to end, times of five bytes too
    let laid = bytes(&[vec![3, 10_000_000_000], vec![]]);
    assert_eq!(laid, [2, 3, 0xa5, 0xa0, 0xaf, 0xc8, 0, 0]);
}

#[test]
fn without_streams_the_bytes_are_those_of_one_call() {
    let text =
        "a: exponential 20, 900 times\nf: fixed 7, 3 times\nb: spread 12.5 +- 4, 900 times\n";
    let drawn = tape(text, 9);
    let lists: Vec<engine::List> = drawn.lists.iter().map(command::drawing::list).collect();
    assert_eq!(bytes(&drawn.times), engine::make_tape(9, &lists).unwrap());
}
