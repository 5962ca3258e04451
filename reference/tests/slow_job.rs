//! How far one slow job reaches (02, item 14), on random tapes.

mod common;
use common::*;
use reference::decode::decode_model_with;
use reference::generate::fields::{encode_model, encode_tape};
use reference::generate::random::Random;
use reference::model::{Block, Model, Term};
use reference::report::REPORT_BYTES;
use reference::run::{run_with, WORK_NUMBERS};
use reference::stored::first_example;
use reference::tape::Tape;
use reference::trace::TraceReader;
use reference::Rules;

/// The block program of 01's first example.
fn program(edition: u32, counter: u32) -> Model {
    let mut model = decode_model_with(Rules::BASE, &first_example().model).unwrap();
    model.edition = edition;
    model.counter = counter;
    model
}

/// The clocks of the TERMINATEs, in order.
fn ends(model: &Model, tape: &Tape, budget: u64, trace_len: usize) -> Vec<u64> {
    let mut trace = vec![0; trace_len];
    let outcome = run_with(
        Rules::ALL,
        &encode_model(model),
        &encode_tape(tape),
        budget,
        WORK_NUMBERS,
        &mut trace,
        &mut [0; REPORT_BYTES],
    );
    assert_eq!(outcome.refusal, 0);
    let mut reader = TraceReader::with(Rules::ALL, &trace[..outcome.trace_bytes as usize]);
    let mut clocks = Vec::new();
    while let Ok(record) = reader.next_record() {
        if record.block == 5 && record.outcome == 0 {
            clocks.push(record.clock);
        }
    }
    clocks
}

/// The delay of each TERMINATE that both runs reach.
fn delays(before: &[u64], after: &[u64]) -> Vec<i64> {
    let pairs = before.iter().zip(after);
    pairs.map(|(b, a)| *a as i64 - *b as i64).collect()
}

/// The ends by the recurrence: the k-th service begins once the k-th has come
/// and the one before has ended. As many as both lists have times for.
fn recurrence(tape: &Tape) -> Vec<u64> {
    let (mut comes, mut leaves) = (0, 0);
    let pairs = tape[0].iter().zip(&tape[1]);
    let ends = pairs.map(|(gap, service)| {
        comes += gap;
        leaves = leaves.max(comes) + service;
        leaves
    });
    ends.collect()
}

fn raise(tape: &Tape, at: usize, d: u64) -> Tape {
    let mut raised = tape.clone();
    raised[1][at] += d;
    raised
}

fn times(random: &mut Random, count: u64, span: u64) -> Vec<u64> {
    (0..count).map(|_| random.between(0, span)).collect()
}

#[test]
fn no_end_comes_earlier_and_none_more_than_d_later() {
    let mut random = Random::new(161);
    let mut seen = [0u64; 3]; // no delay, some, all of d
    for _ in 0..6_000 {
        let span = *random.pick(&[0, 1, 3, 10, 100, 1_000_000, 2_000_000_000]);
        let most = *random.pick(&[3, 12, 40]);
        let (arrivals, services) = (random.between(0, most), random.between(1, most));
        let tape = vec![
            times(&mut random, arrivals, span),
            times(&mut random, services, span),
        ];
        let at = random.below(services) as usize;
        let room = Rules::ALL.max_sample() - tape[1][at];
        let d = match random.below(4) {
            0 => random.between(0, 2),
            1 => random.between(0, span * 3 + 1).min(room),
            2 => random.between(0, span + 1).min(room),
            _ => random.between(0, room),
        };
        // Any counter, reached or not; each run has its own lengths.
        let counter = random.number(1, services as u32 + 9);
        let model = program(random.number(1, 2), counter);
        let mut run = |tape: &Tape| {
            let budget = *random.pick(&[1_000_000, 1_000_000, 50, 7]);
            let room = *random.pick(&[65_536, 65_536, 200, 30]);
            let found = ends(&model, tape, budget, room);
            assert_eq!(found, recurrence(tape)[..found.len()], "{tape:?}");
            found
        };
        let (before, after) = (run(&tape), run(&raise(&tape, at, d)));
        for delay in delays(&before, &after) {
            assert!((0..=d as i64).contains(&delay), "{tape:?} {at} {d}");
            let kind = match delay {
                0 => 0,
                delay if delay < d as i64 => 1,
                _ => 2,
            };
            seen[kind] += 1;
        }
    }
    assert!(seen.iter().all(|count| *count > 200), "{seen:?}");
}

#[test]
fn every_small_tape() {
    // Three jobs, times 0..2, each time raised by 1 or 2: nothing else to try.
    let digits = |number: u64| (0..6).map(move |at| number / 3u64.pow(at) % 3);
    for number in 0..3u64.pow(6) {
        let all: Vec<u64> = digits(number).collect();
        let tape = vec![all[..3].to_vec(), all[3..].to_vec()];
        let model = program(1 + (number % 2) as u32, 9);
        let before = ends(&model, &tape, 1_000, 1_000);
        for at in 0..3 {
            for d in 1..=2 {
                let after = ends(&model, &raise(&tape, at, d), 1_000, 1_000);
                let late = delays(&before, &after);
                assert!(late.iter().all(|delay| (0..=d as i64).contains(delay)));
            }
        }
    }
}

#[test]
fn a_delay_of_exactly_d_of_0_and_one_that_fades() {
    let delays_of = |arrivals: Vec<u64>, services: Vec<u64>, at: usize, d: u64| {
        let model = program(1, 99);
        let tape = vec![arrivals, services];
        let run = |tape: &Tape| ends(&model, tape, 1_000, 1_000);
        delays(&run(&tape), &run(&raise(&tape, at, d)))
    };
    // All wait for each other.
    assert_eq!(delays_of(vec![0, 0, 0], vec![5, 5, 5], 0, 4), [4, 4, 4]);
    // The second job comes long after the first is done.
    assert_eq!(delays_of(vec![0, 50], vec![5, 5], 0, 4), [4, 0]);
    // The gap before the second takes 3 of 4 ticks.
    assert_eq!(delays_of(vec![0, 8, 2], vec![5, 5, 5], 0, 4), [4, 1, 1]);
}

/// Two facilities, each with a line of its own: who finds the first in use goes
/// to the second. Both draw their times from the second list.
fn two_lines() -> Model {
    let mut model = model(vec![
        generate(1),
        Block::If {
            comparison: compare(Term::FacilityInUse(1), 1, Term::Constant(1)),
            target: 7,
        },
        SEIZE,
        advance(2),
        RELEASE,
        terminate(1),
        Block::Seize { facility: 2 },
        advance(2),
        Block::Release { facility: 2 },
        terminate(1),
    ]);
    model.facilities = 2;
    model
}

/// One line before two servers.
fn one_line() -> Model {
    model(vec![
        generate(1),
        enter(1),
        advance(2),
        leave(1),
        terminate(1),
    ])
}

/// The clocks of the TERMINATEs, in order, of a model with any blocks.
fn all_ends(model: &Model, tape: &Tape) -> Vec<u64> {
    let ran = run_under(Rules::ALL, model, tape, 1_000, 4_000);
    let is_end = |block: u64| matches!(model.blocks[block as usize - 1], Block::Terminate { .. });
    let ends = ran.records.iter().filter(|r| is_end(r[2]));
    ends.map(|r| r[0]).collect()
}

/// Every list of this many numbers from low to high.
fn every(count: usize, low: u64, high: u64) -> Vec<Vec<u64>> {
    (0..count).fold(vec![Vec::new()], |lists, _| {
        let longer = |list: &Vec<u64>, last| [list.clone(), vec![last]].concat();
        let more = |list: Vec<u64>| (low..=high).map(move |last| longer(&list, last));
        lists.into_iter().flat_map(more).collect()
    })
}

/// Searches all tapes of so many jobs with small times, one time raised by 1 or
/// 2, for an end that comes earlier. No job comes at the clock of an end, so no
/// tie decides. The one with the smallest sum of times: tape, position, d.
fn earlier_end(model: &Model, jobs: usize) -> Option<(Tape, usize, u64)> {
    let (mut smallest, mut found) = (u64::MAX, None);
    for gaps in every(jobs - 1, 1, 2) {
        for services in every(jobs, 1, 4) {
            let gaps = [vec![0], gaps.clone()].concat();
            let come = gaps.iter().scan(0, |clock, gap| {
                *clock += gap;
                Some(*clock)
            });
            let come: Vec<u64> = come.collect();
            let tape = vec![gaps, services, Vec::new()];
            let before = all_ends(model, &tape);
            for at in 0..jobs {
                for d in 1..=2 {
                    let after = all_ends(model, &raise(&tape, at, d));
                    let tie = before.iter().chain(&after).any(|end| come.contains(end));
                    let earlier = delays(&before, &after).iter().any(|delay| *delay < 0);
                    let size = tape.iter().flatten().sum::<u64>() + d;
                    if earlier && !tie && size < smallest {
                        smallest = size;
                        found = Some((tape.clone(), at, d));
                    }
                }
            }
        }
    }
    found
}

#[test]
fn with_two_lines_a_later_job_may_end_earlier() {
    // docs/SLOW-JOB.md and crates/slowjob/specs/Examples.antt show this one.
    let tape = vec![vec![0, 2, 2, 1], vec![1, 4, 3, 1], Vec::new()];
    let found = earlier_end(&two_lines(), 4);
    assert_eq!(found, Some((tape.clone(), 0, 2)));
    assert_eq!(all_ends(&two_lines(), &tape), [1, 6, 7, 8]);
    assert_eq!(all_ends(&two_lines(), &raise(&tape, 0, 2)), [3, 6, 7, 7]);
}

#[test]
fn no_such_tape_of_three_jobs_and_none_with_one_line() {
    assert_eq!(earlier_end(&two_lines(), 3), None);
    assert_eq!(earlier_end(&one_line(), 3), None);
    assert_eq!(earlier_end(&one_line(), 4), None);
}
