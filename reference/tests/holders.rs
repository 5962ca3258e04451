//! Only the holder releases (02, item 6).

mod common;
use common::*;
use reference::account::Account;
use reference::blocks::Done;
use reference::claims::{check_with, Claims};
use reference::coverage::Coverage;
use reference::generate::random::Random;
use reference::generate::{case_with, holders, Size};
use reference::machine::Machine;
use reference::model::{Block, Term};
use reference::run::{door, Watcher};
use reference::Rules;

const HOLDERS: Rules = Rules {
    holders: true,
    ..Rules::BASE
};

fn held_machine(blocks: Vec<Block>, holder: Option<u64>) -> Machine {
    let mut machine = Machine::start(HOLDERS, model(blocks), vec![vec![]; 3]);
    machine.made = 5;
    machine.facilities[0].holder = holder;
    machine.facilities[0].in_use = u32::from(holder.is_some());
    machine
}

#[test]
fn seize_writes_the_holder_and_release_clears_it() {
    let mut machine = held_machine(vec![SEIZE, RELEASE, terminate(1)], None);
    assert_eq!(machine.execute(transaction(3, 1, 1)), Done::Entered);
    assert_eq!(machine.facilities[0].holder, Some(3));
    let moving = machine.moving.take().unwrap();
    assert_eq!(machine.execute(moving), Done::Entered);
    assert_eq!(machine.facilities[0].holder, None);
}

#[test]
fn release_asks_24_then_27() {
    let release = vec![RELEASE, terminate(1)];
    let mut machine = held_machine(release.clone(), None);
    assert_eq!(machine.execute(transaction(3, 1, 1)), Done::Stopped(24));
    let mut machine = held_machine(release.clone(), Some(2));
    assert_eq!(machine.execute(transaction(3, 1, 1)), Done::Stopped(27));
    assert_eq!(machine.moving.as_ref().map(|t| t.number), Some(3));
    assert_eq!(machine.facilities[0].holder, Some(2));
    let mut machine = held_machine(release.clone(), Some(3));
    assert_eq!(machine.execute(transaction(3, 1, 1)), Done::Entered);
    // Without the request anybody releases.
    let mut machine = held_machine(release, Some(2));
    machine.rules = Rules::BASE;
    assert_eq!(machine.execute(transaction(3, 1, 1)), Done::Entered);
}

#[test]
fn terminate_asks_28_before_the_counter_falls() {
    let mut machine = held_machine(vec![terminate(200)], Some(3));
    assert_eq!(machine.execute(transaction(3, 1, 1)), Done::Stopped(28));
    assert_eq!((machine.counter, machine.ended), (100, 0));
    let mut machine = held_machine(vec![terminate(200)], Some(2));
    assert_eq!(machine.execute(transaction(3, 1, 1)), Done::Finished);
}

#[test]
fn a_stopped_turn_counts_and_writes_no_record() {
    let blocks = vec![
        generate(1),
        SEIZE,
        split(1, 5),
        advance(2),
        RELEASE,
        terminate(1),
    ];
    let ran = run_under(
        HOLDERS,
        &model(blocks),
        &vec![vec![0], vec![9], vec![]],
        100,
        1_000,
    );
    // The copy, 2, tries to release what 1 holds.
    assert_eq!(ran.outcome.end, 27);
    assert_eq!(ran.steps(), [(1, 1, 0), (1, 2, 0), (1, 3, 0), (1, 4, 0)]);
    assert_eq!(ran.outcome.turns, 5);
    assert_eq!(ran.living(), [(1, 4), (2, 6)]);
    assert_eq!((ran.outcome.made, ran.outcome.ended), (2, 0));
    let blocks = vec![generate(1), SEIZE, advance(2), terminate(100)];
    let ran = run_under(
        HOLDERS,
        &model(blocks),
        &vec![vec![0], vec![9], vec![]],
        100,
        1_000,
    );
    assert_eq!((ran.outcome.end, ran.outcome.clock), (28, 9));
    assert_eq!((ran.outcome.turns, ran.records.len()), (4, 3));
    assert_eq!(ran.living(), [(1, 6)]);
    assert_eq!(ran.facility(), [1, 9, 0, 0, 0]);
}

#[test]
fn the_ws_scheme_does_not_follow_27_and_28() {
    // 1 waits until something is at the last block's clock; the stopping turn leaves it there.
    for last in [RELEASE, terminate(1)] {
        let blocks = vec![
            generate(1),
            wait_while(Term::Clock, 3, Term::Constant(7)),
            terminate(1),
            generate(2),
            SEIZE,
            split(1, 8),
            goto(9),
            RELEASE,
            advance(3),
            last,
            terminate(1),
        ];
        let tape = vec![vec![0], vec![1], vec![6, 6]];
        let ran = run_under(HOLDERS, &model(blocks), &tape, 100, 1_000);
        assert!([27, 28].contains(&ran.outcome.end));
        assert!(ran.living().contains(&(1, 3)));
    }
}

#[test]
fn the_claims_find_a_facility_without_its_holder() {
    let start = Machine::start(
        HOLDERS,
        model(vec![generate(1), SEIZE, terminate(1)]),
        vec![vec![1], vec![], vec![]],
    );
    let complaints = |change: &dyn Fn(&mut Machine)| {
        let mut machine = start.clone();
        change(&mut machine);
        let mut claims = Claims::new(&start);
        claims.before_turn(&machine, &[]);
        claims.errors.len()
    };
    assert_eq!(complaints(&|_| {}), 0);
    assert!(complaints(&|m| m.facilities[0].in_use = 1) > 0);
    assert!(complaints(&|m| m.facilities[0].holder = Some(1)) > 0);
    assert!(
        complaints(&|m| {
            m.facilities[0].holder = Some(7);
            m.facilities[0].in_use = 1;
        }) > 0
    );
}

#[test]
fn models_that_release_only_their_own_give_the_trace_they_gave() {
    only_their_own(101, HOLDERS, 2_000);
    only_their_own(104, Rules::ALL, 2_000);
}

/// Runs without the questions 27 and 28 are those with them, if the records tell
/// of nobody who would have been stopped.
fn only_their_own(seed: u64, rules: Rules, count: u64) {
    let without = Rules {
        holders: false,
        ..rules
    };
    let mut random = Random::new(seed);
    let mut counts = [0; 2];
    for number in 0..count {
        let case = match number % 4 {
            0 => case_with(rules, &mut random, Size::Full),
            1 => holders::case(rules, &mut random, Size::Small),
            _ => case_with(rules, &mut random, Size::Small),
        };
        let Ok(start) = door(
            without,
            &case.model,
            &case.tape,
            case.work_len,
            case.report_len,
        ) else {
            continue;
        };
        let before = everything(without, &case);
        let mut account = Account::new(without, &start.model, &start.tape);
        account.read(&before.1[..before.0.trace_bytes as usize]);
        let after = everything(rules, &case);
        if account.own_only {
            assert!(before == after, "case {number}");
            counts[0] += 1;
        } else {
            assert!([27, 28].contains(&after.0.end), "case {number}");
            counts[1] += 1;
        }
    }
    assert!(counts[0] > 500 && counts[1] > 100, "{counts:?}");
}

#[test]
fn claims_hold_with_holders() {
    let mut random = Random::new(102);
    for number in 0..2_000 {
        let case = match number % 4 {
            0 => case_with(HOLDERS, &mut random, Size::Full),
            1 => holders::case(HOLDERS, &mut random, Size::Full),
            _ => holders::case(HOLDERS, &mut random, Size::Small),
        };
        if let Err(errors) = check_with(HOLDERS, &case) {
            panic!("case {number}: {errors:?}\n{case:?}");
        }
    }
}

#[test]
fn cases_with_holders_cover_27_and_28() {
    let coverage = Coverage::of(HOLDERS, &mut Random::new(103), Size::Small, 6_000);
    // The last clock of document 01 is seldom reached in few turns.
    let empty = coverage.empty_cells();
    assert!(empty.iter().all(|cell| cell.contains("22")), "{empty:?}");
    assert!(coverage.ends[&27] > 50 && coverage.ends[&28] > 50);
}
