//! Tapes from distributions: extremes, each damaged double with its answer, buffers left as they were.

use covrith::tape::arguments;
use covrith::Distribution::{Curve, Fixed, Spread};
use covrith::Refusal::{NoStream, NotDistribution, TapeRoom};
use covrith::{make_tape, simulate, sys, write_tape, Distribution, List, Refusal};

fn one(distribution: Distribution, count: u32) -> Result<Vec<u8>, Refusal> {
    make_tape(
        3,
        &[List {
            distribution,
            count,
        }],
    )
}

fn spread(mean: f64, half: f64) -> Distribution {
    Spread { mean, half }
}

/// The numbers of a tape's bytes.
fn numbers(tape: &[u8]) -> Vec<u64> {
    let mut all = Vec::new();
    let mut value = 0;
    for byte in tape {
        value = value * 128 + u64::from(byte & 127);
        if byte & 128 == 0 {
            all.push(value);
            value = 0;
        }
    }
    all
}

#[test]
fn extremes() {
    let times = |distribution| numbers(&one(distribution, 65_535).unwrap())[1..].to_vec();
    assert_eq!(times(Fixed(1_000_000.0)), vec![1_000_000; 65_535]);
    assert_eq!(times(Fixed(2.75)), vec![2; 65_535]);
    assert_eq!(times(Fixed(-0.0)), vec![0; 65_535]);
    let wide = times(spread(500_000.0, 500_000.0));
    assert!(wide.iter().all(|time| *time < 1_000_000) && wide.iter().any(|time| *time > 999_000));
    assert!(times(spread(9.0, 0.0)).iter().all(|time| *time == 9));
    assert!(times(Curve(vec![(0.0, 5.0), (1.0, 5.0)]))
        .iter()
        .all(|time| *time == 5));
    assert!(times(Curve(vec![(-0.0, -0.0), (1.0, -0.0)]))
        .iter()
        .all(|time| *time == 0));
    let near = Curve(vec![
        (0.0, 0.0),
        (1.0 / 65_536.0, 1_000_000.0),
        (1.0, 1_000_000.0),
    ]);
    assert!(times(near)
        .iter()
        .all(|time| *time == 1_000_000 || *time == 0));
    let most = (0..24)
        .map(|k| (f64::from(k * k) / 1_024.0, f64::from(k)))
        .collect::<Vec<_>>();
    let mut most: Vec<_> = most.into_iter().take(23).collect();
    most.push((1.0, 1_000_000.0));
    assert_eq!(times(Curve(most)).len(), 65_535);
}

#[test]
fn damaged_doubles() {
    let damaged = [
        f64::NAN,
        f64::INFINITY,
        f64::NEG_INFINITY,
        -1.0 / 64.0,
        1.0 / 128.0,
        0.1,
        5e-324,
        1_000_000.015625,
        1e300,
    ];
    for x in damaged {
        assert_eq!(one(Fixed(x), 1), Err(NotDistribution), "{x}");
        assert_eq!(one(spread(x, 0.0), 0), Err(NotDistribution), "{x}");
        assert_eq!(one(spread(1_000.0, x), 1), Err(NotDistribution), "{x}");
        let late = Curve(vec![(0.0, x), (1.0, 1e6)]);
        assert_eq!(one(late, 1), Err(NotDistribution), "{x}");
        // 1/128 is a u, but no time; 1/131,072 is no u
        let u = if x == 1.0 / 128.0 { x / 1_024.0 } else { x };
        let torn = Curve(vec![(0.0, 0.0), (u, 1.0), (1.0, 1.0)]);
        assert_eq!(one(torn, 1), Err(NotDistribution), "{u}");
    }
    for curve in [
        vec![],
        vec![(0.0, 1.0)],
        vec![(0.0, 1.0), (0.5, 1.0)],
        vec![(1.0 / 65_536.0, 1.0), (1.0, 1.0)],
        vec![(0.0, 1.0), (0.0, 1.0), (1.0, 1.0)],
        vec![(0.0, 2.0), (1.0, 1.0)],
        vec![(0.0, 1.0), (1.0 / 131_072.0, 1.0), (1.0, 1.0)],
        (0..25).map(|k| (f64::from(k) / 24.0, 1.0)).collect(),
    ] {
        assert_eq!(
            one(Curve(curve.clone()), 1),
            Err(NotDistribution),
            "{curve:?}"
        );
    }
    assert_eq!(one(spread(4.0, 4.015625), 1), Err(NotDistribution));
    assert_eq!(one(spread(500_000.015625, 1.0), 1), Err(NotDistribution));
    assert_eq!(one(Fixed(1.0), 65_536), Err(NotDistribution));
    let many = vec![
        List {
            distribution: Fixed(1.0),
            count: 0
        };
        17
    ];
    assert_eq!(make_tape(0, &many), Err(NotDistribution));
    assert_eq!(make_tape(0, &many[..16]), Ok(vec![0; 16]));
    assert_eq!(make_tape(0, &[]), Ok(vec![]));
}

#[test]
fn order_of_refusals_and_untouched_bytes() {
    let good = [List {
        distribution: spread(12.5, 4.0),
        count: 3,
    }];
    let bad = [List {
        distribution: Fixed(f64::NAN),
        count: 3,
    }];
    let mut tape = [7; 6];
    assert_eq!(write_tape(512, &bad, &mut tape), Err(NoStream));
    assert_eq!(write_tape(0, &bad, &mut tape[..0]), Err(NotDistribution));
    assert_eq!(write_tape(0, &good, &mut tape[..3]), Err(TapeRoom));
    assert_eq!(tape, [7; 6]);
    assert_eq!(write_tape(0, &good, &mut tape), Ok(4));
    assert_eq!(tape, [3, 8, 9, 14, 7, 7]);
}

#[test]
fn lists_as_the_header_has_them() {
    let answer = |lists: &[u32], doubles: &[f64]| {
        let (mut tape, mut written) = ([7u8; 8], 9);
        // SAFETY: slices that are valid for their lengths, and one number.
        let answer = unsafe {
            sys::covrith_make_tape(
                0,
                lists.as_ptr(),
                lists.len(),
                doubles.as_ptr(),
                doubles.len(),
                tape.as_mut_ptr(),
                8,
                &mut written,
            )
        };
        (answer, written, tape)
    };
    assert_eq!(
        answer(&[0, 2, 0, 0], &[7.0]),
        (0, 3, [2, 7, 7, 7, 7, 7, 7, 7])
    );
    for lists in [
        &[0, 1, 0][..],       // no multiple of four
        &[3, 1, 0, 0],        // another kind
        &[0, 1, 1, 0],        // past the end
        &[1, 1, 0, 0],        // its second double past the end
        &[0, 1, 0, 1],        // points of a fixed time
        &[0, 1, u32::MAX, 0], // far past the end
        &[2, 1, u32::MAX, 24],
        &[2, 1, 0, u32::MAX],
    ] {
        assert_eq!(answer(lists, &[7.0]), (42, 0, [7; 8]), "{lists:?}");
    }
}

#[test]
fn a_model_takes_the_tape() {
    let model = [1, 1, 0, 0, 0, 2, 2, 5, 1, 1, 0, 4, 1, 2, 2, 5, 1, 3, 1];
    let lists = [
        List {
            distribution: Curve(vec![(0.0, 0.0), (1.0, 1_000_000.0)]),
            count: 100,
        },
        List {
            distribution: spread(500_000.0, 500_000.0),
            count: 100,
        },
    ];
    assert_eq!(arguments(&lists).0, [2, 100, 0, 2, 1, 100, 4, 0]);
    for stream in 0..512 {
        assert!(simulate(&model, &make_tape(stream, &lists).unwrap(), 100, 65_536).is_ok());
    }
}
