//! Tapes from distributions (02, item 4).

use reference::generate::distributions::{call, good_call, points};
use reference::generate::random::Random;
use reference::maker::{draw, interpolated, make_tape, parts_of, segment, Distribution};
use reference::number::number_bytes;
use reference::streams::{start, step};
use reference::tape::decode_tape;

fn bytes(numbers: &[u64]) -> Vec<u8> {
    numbers.iter().flat_map(|n| number_bytes(*n)).collect()
}

fn made(stream: u32, lists: &[u32], numbers: &[f64]) -> Result<Vec<u8>, u32> {
    let mut tape = vec![0xA5; 400_000];
    let answer = make_tape(stream, lists, numbers, &mut tape);
    let length = answer.unwrap_or(0);
    assert!(tape[length..].iter().all(|byte| *byte == 0xA5));
    tape.truncate(length);
    answer.map(|_| tape)
}

#[test]
fn a_fixed_time_is_its_whole_part_and_draws_nothing() {
    // Between two spreads, a fixed time: the second goes on where the first stopped.
    let numbers = [100.0, 100.0, 2.75];
    let tape = made(0, &[1, 2, 0, 0, 0, 3, 2, 0, 1, 1, 0, 0], &numbers).unwrap();
    let mut state = 1;
    let mut next = || {
        state = step(state);
        200 * draw(state) / 65_536
    };
    let (one, two, three) = (next(), next(), next());
    assert_eq!(tape, bytes(&[2, one, two, 3, 2, 2, 2, 1, three]));
}

#[test]
fn a_draw_steps_first() {
    // From 1 the first state is 16,807: (16,807 - 1) / 32,768 is 0.
    assert_eq!(draw(16_807), 0);
    assert_eq!(made(0, &[1, 1, 0, 0], &[10.0, 4.0]), Ok(bytes(&[1, 6])));
    // Then 282,475,249: 8,620.
    assert_eq!(draw(step(16_807)), 8_620);
    let half = 282_475_248 / 32_768 * 128 / 65_536;
    assert_eq!(half, 16);
    assert_eq!(
        made(0, &[1, 2, 0, 0], &[64.0, 64.0]),
        Ok(bytes(&[2, 0, half]))
    );
    assert_eq!(draw(2_147_483_646), 65_535);
    assert_eq!(draw(1), 0);
}

#[test]
fn streams_begin_at_their_starts() {
    for stream in [0, 1, 7, 511] {
        let state = step(start(stream).unwrap());
        let time = 1_000_000 * draw(state) / 65_536;
        let tape = made(stream, &[1, 1, 0, 0], &[500_000.0, 500_000.0]);
        assert_eq!(tape, Ok(bytes(&[1, time])));
    }
}

#[test]
fn a_curve_goes_through_its_points() {
    let points = vec![(0, 64), (32_768, 192), (65_536, 640)]; // 0:1 0.5:3 1:10
    let curve = Distribution::Curve(points.clone());
    assert_eq!(curve.time(0), 1);
    assert_eq!(curve.time(16_384), 2);
    assert_eq!(curve.time(32_767), 2);
    assert_eq!(curve.time(32_768), 3);
    assert_eq!(curve.time(49_152), 6); // 6.5
    assert_eq!(curve.time(65_535), 9);
    let given = [0.0, 1.0, 0.5, 3.0, 1.0, 10.0];
    assert_eq!(Distribution::given(2, &given, 3), Some(curve));
    assert_eq!(segment(&points, 32_768), &points[1..]);
}

#[test]
fn the_answers_in_their_order() {
    let good = [0.0, 1.0, 0.5, 3.0, 1.0, 10.0];
    let answer = |stream: u32, lists: &[u32], numbers: &[f64], room: usize| {
        let mut tape = vec![0xA5; room];
        let answer = make_tape(stream, lists, numbers, &mut tape);
        assert!(answer.is_ok() || tape.iter().all(|byte| *byte == 0xA5));
        answer.err().unwrap_or(0)
    };
    let curve = [2, 1, 0, 3];
    assert_eq!(answer(511, &curve, &good, 2), 0);
    assert_eq!(answer(512, &curve, &good, 2), 41);
    assert_eq!(answer(512, &[9], &[], 0), 41);
    assert_eq!(answer(512, &[], &[], 0), 41);
    assert_eq!(answer(0, &[], &[], 0), 0);
    assert_eq!(answer(0, &curve, &good, 1), 43);
    assert_eq!(answer(0, &[3, 1, 0, 0], &good, 0), 42); // unknown kind
    assert_eq!(answer(0, &[2, 65_536, 0, 3], &good, 0), 42);
    assert_eq!(answer(0, &[2, 1, 1, 3], &good, 0), 42); // past the end
    assert_eq!(answer(0, &[2, 1, u32::MAX, 3], &good, 0), 42);
    assert_eq!(answer(0, &[2, 1, 0], &good, 0), 42);
    assert_eq!(answer(0, &[0, 1, 0, 1], &good, 9), 42); // points of a fixed time
    assert_eq!(answer(0, &[0, 0, 0, 0].repeat(16), &good, 16), 0);
    assert_eq!(answer(0, &[0, 0, 0, 0].repeat(17), &good, 99), 42);
    // A later list is asked 42 before 43 of the whole; count 0 does not help.
    assert_eq!(answer(0, &[2, 1, 0, 3, 0, 0, 6, 0], &good, 0), 42);
}

#[test]
fn damaged_doubles() {
    let fixed = |time: f64| made(0, &[0, 0, 0, 0], &[time]).err().unwrap_or(0);
    for time in [0.0, -0.0, 1.0 / 64.0, 999_999.984_375, 1_000_000.0] {
        assert_eq!(fixed(time), 0, "{time}");
    }
    let tiny = f64::from_bits(1);
    for time in [
        f64::NAN,
        f64::INFINITY,
        f64::NEG_INFINITY,
        -1.0,
        -tiny,
        tiny,
        f64::MIN_POSITIVE,
        1.0 / 128.0,
        1_000_000.015_625,
        f64::MAX,
        9_007_199_254_740_992.0,
        f64::from_bits(1.0f64.to_bits() + 1),
    ] {
        assert_eq!(fixed(time), 42, "{time}");
    }
    let spread = |mean: f64, half: f64| made(0, &[1, 0, 0, 0], &[mean, half]).err().unwrap_or(0);
    assert_eq!(spread(500_000.0, 500_000.0), 0);
    assert_eq!(spread(500_000.015_625, 0.0), 42);
    assert_eq!(spread(10.0, 10.015_625), 42);
    assert_eq!(spread(10.0, -0.0), 0);
    assert_eq!(spread(f64::NAN, 0.0), 42);
    assert_eq!(spread(10.0, f64::NAN), 42);
    let curve = |numbers: &[f64]| {
        let points = numbers.len() as u32 / 2;
        made(0, &[2, 0, 0, points], numbers).err().unwrap_or(0)
    };
    assert_eq!(curve(&[0.0, 5.0, 1.0, 5.0]), 0);
    assert_eq!(curve(&[-0.0, 5.0, 1.0, 5.0]), 0);
    assert_eq!(curve(&[0.0, 5.0]), 42);
    assert_eq!(curve(&[0.0, 5.0, 1.0, 4.984_375]), 42); // a falling time
    assert_eq!(curve(&[0.0, 5.0, 0.5, 5.0, 0.5, 6.0, 1.0, 7.0]), 42);
    assert_eq!(curve(&[1.0 / 65_536.0, 5.0, 1.0, 5.0]), 42); // not from 0
    assert_eq!(curve(&[0.0, 5.0, 65_535.0 / 65_536.0, 5.0]), 42); // not to 1
    assert_eq!(curve(&[0.0, 5.0, 1.0 / 131_072.0, 5.0, 1.0, 5.0]), 42);
    assert_eq!(curve(&[0.0, 5.0, 2.0, 5.0]), 42);
    assert_eq!(curve(&[0.0, 5.0, f64::NAN, 5.0, 1.0, 5.0]), 42);
    let many = |points: u64| -> Vec<f64> {
        let u = |at: u64| {
            if at + 1 == points {
                1.0
            } else {
                at as f64 / 65_536.0
            }
        };
        (0..points).flat_map(|at| [u(at), at as f64]).collect()
    };
    assert_eq!(curve(&many(24)), 0);
    assert_eq!(curve(&many(25)), 42);
}

#[test]
fn parts_are_taken_from_the_bits() {
    for parts in [0, 1, 2, 63, 64, 65, 4_095, 63_999_999, 64_000_000] {
        assert_eq!(parts_of(parts as f64 / 64.0, 64, 64_000_000), Some(parts));
        assert_eq!(
            parts_of(parts as f64 / 65_536.0, 64, 64_000_000),
            (parts % 1_024 == 0).then_some(parts / 1_024)
        );
    }
    assert_eq!(parts_of(64_000_001.0 / 64.0, 64, 64_000_000), None);
}

/// The double of the paper, computed in doubles.
fn hardware((u0, time0): (u64, u64), (u1, time1): (u64, u64), u: u64) -> f64 {
    let one = |u: u64| u as f64 / 65_536.0;
    let time = |parts: u64| parts as f64 / 64.0;
    time(time0) + ((time(time1) - time(time0)) * (one(u) - one(u0))) / (one(u1) - one(u0))
}

#[test]
fn the_interpolated_double_is_that_of_the_hardware_and_near_the_line() {
    let mut random = Random::new(71);
    for _ in 0..3_000 {
        let points = points(&mut random);
        for _ in 0..100 {
            let u = if random.one_in(4) {
                let near = random.pick(&points).0 + random.below(3);
                near.saturating_sub(1).min(65_535)
            } else {
                random.below(65_536)
            };
            let segment = segment(&points, u);
            let ((u0, time0), (u1, time1)) = (segment[0], segment[1]);
            let binary = interpolated(segment[0], segment[1], u);
            let double = hardware(segment[0], segment[1], u);
            let value = binary.digits as f64 / 2f64.powi(binary.scale as i32);
            assert_eq!(value, double);
            assert_eq!(binary.whole(), double as u64);
            // The exact line, in parts of 1 / (64 × (u1 - u0)).
            let parts = 64 * (u1 - u0);
            let line = time0 * (u1 - u0) + (time1 - time0) * (u - u0);
            assert_eq!(binary.whole(), line / parts);
            // Within one millionth, over whole numbers.
            let (line, parts) = (i128::from(line), i128::from(parts));
            let one = 1i128 << binary.scale;
            let apart = (binary.digits as i128 * parts - line * one).abs();
            assert!(apart
                .checked_mul(1_000_000)
                .is_some_and(|a| a <= parts * one));
            let time = i128::from(binary.whole());
            assert!(line * 1_000_000 >= (time * 1_000_000 - 1) * parts);
            assert!(line * 1_000_000 < (time * 1_000_000 + 1_000_001) * parts);
        }
    }
}

#[test]
fn spreads_are_those_of_doubles_without_rounding() {
    let mut random = Random::new(72);
    for _ in 0..100_000 {
        let mean = random.between(0, 32_000_000);
        let half = random.between(0, mean);
        let u = random.below(65_536);
        let double = mean as f64 / 64.0 - half as f64 / 64.0
            + 2.0 * (half as f64 / 64.0) * (u as f64 / 65_536.0);
        let spread = Distribution::Spread { mean, half };
        assert_eq!(spread.time(u), double as u64);
    }
}

#[test]
fn tapes_are_accepted_for_as_many_lists() {
    let mut random = Random::new(73);
    for _ in 0..300 {
        let call = good_call(&mut random);
        let mut tape = vec![0; call.room];
        let length = make_tape(call.stream, &call.lists, &call.numbers, &mut tape).unwrap();
        let lists = decode_tape(&tape[..length], call.lists.len() as u32 / 4).unwrap();
        for (list, given) in lists.iter().zip(call.lists.chunks(4)) {
            assert_eq!(list.len(), given[1] as usize);
            assert!(list.iter().all(|time| *time <= 1_000_000));
        }
    }
}

#[test]
fn random_calls_meet_every_answer_and_refused_ones_write_nothing() {
    let mut random = Random::new(74);
    let mut met = std::collections::BTreeMap::new();
    for _ in 0..4_000 {
        let call = call(&mut random);
        let mut tape = vec![0xA5; call.room];
        let answer = make_tape(call.stream, &call.lists, &call.numbers, &mut tape);
        *met.entry(answer.err().unwrap_or(0)).or_insert(0) += 1;
        let length = answer.unwrap_or(0);
        assert!(tape[length..].iter().all(|byte| *byte == 0xA5));
    }
    assert!(
        [0, 41, 42, 43].iter().all(|answer| met[answer] > 50),
        "{met:?}"
    );
}
