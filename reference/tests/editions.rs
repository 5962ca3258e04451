//! Runs under the 1996 rules, edition 2 (02, item 12).

mod common;
use common::*;
use reference::blocks::Done;
use reference::claims::check_with;
use reference::coverage::Coverage;
use reference::generate::fields::encode_model;
use reference::generate::random::Random;
use reference::generate::{case_with, editions, Case, Size};
use reference::machine::{insert, insert_waiter, Machine};
use reference::model::{Block, Model};
use reference::Rules;

const BOTH: Rules = Rules {
    highest_edition: 2,
    ..Rules::BASE
};

fn second(blocks: Vec<Block>) -> Model {
    Model {
        edition: 2,
        ..model(blocks)
    }
}

fn start(model: Model) -> Machine {
    let mut machine = Machine::start(BOTH, model, vec![vec![]; 3]);
    machine.made = 99;
    machine.last_serial = 99;
    machine
}

#[test]
fn the_first_number_selects_the_edition() {
    let ask = |rules: Rules, edition: u32| {
        let mut model = model(vec![terminate(1)]);
        model.edition = edition;
        refusal_under(rules, &encode_model(&model), &[0, 0, 0])
    };
    assert_eq!([0, 1, 2, 3].map(|e| ask(BOTH, e)), [4, 0, 0, 4]);
    assert_eq!([0, 1, 2, 3].map(|e| ask(Rules::BASE, e)), [4, 0, 4, 4]);
}

#[test]
fn a_returner_goes_to_the_very_front() {
    let mut list = Vec::new();
    for (number, priority) in [(1, 5), (2, 0), (3, 5), (4, 2)] {
        insert_waiter(2, &mut list, waiter(number, 1, priority));
    }
    assert_eq!(numbers(&list), [1, 3, 4, 2]);
    let mut returner = waiter(9, 1, 0);
    returner.returning = true;
    insert_waiter(2, &mut list, returner);
    assert_eq!(numbers(&list), [9, 1, 3, 4, 2]);
    // From the back, behind the first met of equal or higher priority: not
    // behind the last of its own priority when a returner has broken the order.
    insert_waiter(2, &mut list, waiter(10, 1, 6));
    assert_eq!(numbers(&list), [10, 9, 1, 3, 4, 2]);
    insert_waiter(2, &mut list, waiter(11, 1, 0));
    insert_waiter(2, &mut list, waiter(12, 1, 1));
    assert_eq!(numbers(&list), [10, 9, 1, 3, 4, 12, 2, 11]);
    let mut broken = vec![waiter(1, 1, 0), waiter(2, 1, 3)];
    insert_waiter(2, &mut broken, waiter(3, 1, 1));
    assert_eq!(numbers(&broken), [1, 2, 3]);
    let mut broken = vec![waiter(1, 1, 3), waiter(2, 1, 0), waiter(3, 1, 2)];
    insert_waiter(2, &mut broken, waiter(4, 1, 1));
    assert_eq!(numbers(&broken), [1, 2, 3, 4]);
}

#[test]
fn two_returners_are_turned_round() {
    let ql = |edition: u32| {
        let mut model = model(vec![SEIZE, terminate(1)]);
        model.edition = edition;
        let mut machine = start(model);
        machine.facilities[0].in_use = 1;
        machine.wake(transaction(2, 1, 5));
        machine.wake(transaction(3, 1, 9));
        for _ in 0..2 {
            let taken = machine.take().unwrap();
            assert_eq!(machine.execute(taken), Done::PutBack);
        }
        numbers(&machine.facilities[0].ql)
    };
    assert_eq!(ql(1), [2, 3]);
    assert_eq!(ql(2), [3, 2]);
}

#[test]
fn rel_and_wsl_are_common_to_both() {
    let mut machine = start(second(vec![
        wait_while(
            reference::model::Term::Constant(1),
            1,
            reference::model::Term::Constant(1),
        ),
        terminate(1),
    ]));
    insert(&mut machine.wsl, waiter(1, 1, 0));
    let mut returner = waiter(7, 1, 0);
    returner.returning = true;
    assert_eq!(machine.execute(returner), Done::PutBack);
    assert_eq!(numbers(&machine.wsl), [1, 7]);
    machine.wake(waiter(5, 1, 0));
    machine.wake(waiter(3, 1, 0));
    assert_eq!(numbers(&machine.rel), [3, 5]);
}

/// Who is woken by a LEAVE of these units, with waiters of these units in order.
fn woken(units: u32, waiting: &[u32], several: bool) -> Vec<u64> {
    let mut blocks = vec![leave(units), terminate(1)];
    for units in waiting {
        blocks.push(enter(*units));
    }
    blocks.push(if several { enter(2) } else { enter(1) });
    blocks.push(terminate(1));
    let mut model = second(blocks);
    model.capacities = vec![9];
    let mut machine = start(model);
    machine.storages[0].in_use = 9;
    for (at, _) in waiting.iter().enumerate() {
        let waiter = waiter(at as u64 + 1, at as u32 + 3, 0);
        machine.storages[0].ql.push(waiter);
    }
    assert_eq!(machine.execute(transaction(50, 1, 50)), Done::Entered);
    let woken = numbers(&machine.rel);
    let left = machine.storages[0].ql.len();
    assert_eq!(woken.len() + left, waiting.len());
    woken
}

#[test]
fn leave_of_case_a_wakes_the_first() {
    assert_eq!(woken(1, &[1, 1, 1], false), [1]);
    assert_eq!(woken(1, &[], false), [0u64; 0]);
}

#[test]
fn leave_of_one_unit_wakes_the_first_of_one_unit() {
    assert_eq!(woken(1, &[2, 1, 1], true), [2]);
    assert_eq!(woken(1, &[2, 3], true), [0u64; 0]);
    assert_eq!(woken(1, &[1, 1], true), [1]);
}

#[test]
fn leave_of_several_goes_from_the_front() {
    assert_eq!(woken(3, &[3, 1], true), [1]); // equal: it goes and all is done
    assert_eq!(woken(3, &[4, 3], true), [2]); // less: the next
    assert_eq!(woken(3, &[2, 2, 1, 1], true), [1, 3]); // more: taken off, and on
    assert_eq!(woken(4, &[1, 5, 2, 3, 1, 1], true), [1, 3, 5]);
    assert_eq!(woken(2, &[3, 3], true), [0u64; 0]);
    assert_eq!(woken(5, &[1, 1], true), [1, 2]);
}

#[test]
fn leave_never_looks_at_free_units() {
    // Many are free, yet a LEAVE of 1 wakes only the first of one unit.
    let blocks = vec![leave(1), terminate(1), enter(1), enter(2), terminate(1)];
    for (edition, expected) in [(1, vec![1, 2, 3]), (2, vec![2])] {
        let mut model = model(blocks.clone());
        model.edition = edition;
        model.capacities = vec![9];
        let mut machine = start(model);
        machine.storages[0].in_use = 1;
        for (number, block) in [(1, 4), (2, 3), (3, 3)] {
            machine.storages[0].ql.push(waiter(number, block, 0));
        }
        machine.execute(transaction(50, 1, 50));
        assert_eq!(numbers(&machine.rel), expected);
    }
}

#[test]
fn zero_waiters_fails_in_edition_2() {
    // Two LEAVEs of 1 never wake an ENTER of 2.
    let blocks = vec![
        generate(1),
        enter(1),
        advance(2),
        leave(1),
        terminate(1),
        generate(3),
        enter(2),
        terminate(1),
    ];
    let tape = vec![vec![0, 0], vec![10, 12], vec![5]];
    let first = run_under(BOTH, &model(blocks.clone()), &tape, 100, 1_000);
    assert_eq!(first.living(), []);
    let ran = run_under(BOTH, &second(blocks), &tape, 100, 1_000);
    assert_eq!(ran.outcome.end, 1);
    assert_eq!(ran.living(), [(2, 1)]);
    assert_eq!(ran.storage()[2], 1);
}

#[test]
fn the_order_among_equals_fails_in_edition_2() {
    // The holder gives back twice within a tick: both waiters are woken and put back.
    let blocks = vec![
        generate(1),
        SEIZE,
        advance(2),
        RELEASE,
        SEIZE,
        RELEASE,
        SEIZE,
        advance(2),
        RELEASE,
        terminate(1),
        generate(3),
        SEIZE,
        advance(2),
        RELEASE,
        terminate(1),
    ];
    let tape = vec![vec![0], vec![10; 9], vec![1, 1]];
    let served = |model: &Model| {
        let ran = run_under(BOTH, model, &tape, 100, 1_000);
        let seized = |step: &&(u64, u64, u64)| step.1 == 12 && step.2 == 0;
        ran.steps()
            .iter()
            .filter(seized)
            .map(|step| step.0)
            .collect::<Vec<u64>>()
    };
    assert_eq!(served(&model(blocks.clone())), [2, 3]);
    assert_eq!(served(&second(blocks)), [3, 2]);
}

#[test]
fn edition_1_runs_are_what_they_were() {
    let mut random = Random::new(131);
    let mut accepted = 0;
    for number in 0..1_500 {
        let case = case_with(Rules::BASE, &mut random, Size::Small);
        let before = everything(Rules::BASE, &case);
        if before.0.refusal == 0 {
            assert!(before == everything(BOTH, &case), "case {number}");
            accepted += 1;
        }
    }
    assert!(accepted > 800);
}

#[test]
fn the_editions_differ_on_cases_made_for_it() {
    let mut random = Random::new(132);
    let mut other = 0;
    for _ in 0..1_000 {
        let case = editions::case(BOTH, &mut random, Size::Small);
        let turned = |edition: u8| {
            let mut model = case.model.clone();
            model[0] = edition;
            let case = Case {
                model,
                ..case.clone()
            };
            everything(BOTH, &case)
        };
        other += u64::from(turned(1) != turned(2));
    }
    assert!(other > 100, "{other}");
}

#[test]
fn claims_hold_over_both_editions() {
    for (rules, seed) in [(BOTH, 133), (Rules::ALL, 134)] {
        let mut random = Random::new(seed);
        for number in 0..700 {
            let case = match number % 4 {
                0 => case_with(rules, &mut random, Size::Full),
                1 => editions::case(rules, &mut random, Size::Full),
                _ => editions::case(rules, &mut random, Size::Small),
            };
            if let Err(errors) = check_with(rules, &case) {
                panic!("case {number}: {errors:?}\n{case:?}");
            }
        }
    }
}

#[test]
fn cases_of_both_editions_cover_all_cells() {
    let coverage = Coverage::of(BOTH, &mut Random::new(135), Size::Small, 5_000);
    let empty = coverage.empty_cells();
    assert!(empty.iter().all(|cell| cell.contains("22")), "{empty:?}");
    assert!(coverage.editions[1] * 5 > coverage.editions[0]);
}
