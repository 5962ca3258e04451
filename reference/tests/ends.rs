//! Every end of a run, and the order in which they are asked for.

mod common;
use common::*;
use reference::machine::{Event, Machine};
use reference::model::{Block, Term};
use reference::run::{LAST_SERIAL_LIMIT, TURN_LIMIT};
use reference::tape::Tape;
use reference::Rules;

fn lists(first: Vec<u64>, second: Vec<u64>) -> Tape {
    vec![first, second, vec![]]
}

fn none() -> Tape {
    lists(vec![], vec![])
}

#[test]
fn end_1_before_the_first_turn_if_no_list_has_a_time() {
    let ran = run_model(&model(vec![generate(1), terminate(1)]), &none());
    assert_eq!(ran.outcome.numbers()[..7], [0, 1, 0, 0, 0, 0, 0]);
}

#[test]
fn end_1_with_waiters_that_nobody_will_wake() {
    let blocks = vec![generate(1), SEIZE, terminate(1)];
    let ran = run_model(&model(blocks), &lists(vec![2, 3, 4], vec![]));
    // The first seized and ended: what it held stays in use.
    assert_eq!(ran.outcome.end, 1);
    assert_eq!((ran.outcome.made, ran.outcome.ended), (3, 1));
    assert_eq!(ran.living(), [(2, 1), (3, 1)]);
    // In use from 2 to the last clock 9; 2 waited from 5 on.
    assert_eq!(ran.facility(), [1, 7, 2, 4, 1]);
}

#[test]
fn end_2_at_or_below_0() {
    for (counter, amount, end) in [(3, 1, 2), (3, 3, 2), (3, 65_535, 2), (65_535, 1, 1)] {
        let mut model = model(vec![generate(1), terminate(amount)]);
        model.counter = counter;
        let ran = run_model(&model, &lists(vec![1, 1, 1], vec![]));
        assert_eq!(ran.outcome.end, end);
        let ended = if amount == 1 { 3 } else { 1 };
        assert_eq!(ran.outcome.ended, ended);
        assert_eq!(ran.records.last().unwrap()[2], 2, "its record is written");
    }
}

#[test]
fn terminate_0_never_ends_the_run() {
    let mut model = model(vec![generate(1), terminate(0)]);
    model.counter = 1;
    let ran = run_model(&model, &lists(vec![0; 500], vec![]));
    assert_eq!(ran.outcome.end, 1);
    assert_eq!(ran.outcome.ended, 500);
}

#[test]
fn end_3_when_the_budget_is_used() {
    let model = model(vec![goto(1), generate(1), ARRIVE, goto(3)]);
    for budget in 0..20 {
        let ran = run_limited(&model, &lists(vec![5], vec![]), budget, 400);
        assert_eq!(ran.outcome.end, 3);
        assert_eq!(ran.outcome.turns, budget);
        assert_eq!(ran.records.len() as u64, budget);
    }
}

#[test]
fn end_4_with_fewer_than_12_bytes_left() {
    let model = model(vec![generate(1), ARRIVE, goto(2)]);
    for (length, turns) in [(0, 0), (11, 0), (12, 1), (15, 1), (16, 2), (19, 2), (20, 3)] {
        let ran = run_limited(&model, &lists(vec![5], vec![]), 1_000, length);
        assert_eq!(ran.outcome.end, 4);
        assert_eq!(ran.outcome.turns, turns);
        assert_eq!(ran.outcome.trace_bytes, turns * 4);
    }
}

#[test]
fn end_4_is_asked_even_if_the_turn_would_write_nothing() {
    let mut machine = Machine::start(Rules::BASE, model(vec![SEIZE, terminate(1)]), none());
    machine.made = 2;
    machine.facilities[0].in_use = 1;
    machine.wake(transaction(2, 1, 9));
    let run = |length: usize| {
        let mut trace = vec![0; length];
        let mut report = vec![0; 10_240];
        let nobody = &mut reference::run::Nobody;
        reference::run::run_from(machine.clone(), 9, &mut trace, &mut report, nobody)
    };
    assert_eq!((run(11).end, run(11).turns), (4, 0));
    assert_eq!((run(12).end, run(12).turns), (1, 1));
}

#[test]
fn the_order_is_1_26_3_4() {
    let mut machine = Machine::start(Rules::BASE, model(vec![terminate(1)]), none());
    machine.last_serial = LAST_SERIAL_LIMIT + 1;
    assert_eq!(run_state(machine.clone(), 0).outcome.end, 1);
    machine.made = 1;
    machine.moving = Some(transaction(1, 1, 1));
    assert_eq!(run_state(machine.clone(), 0).outcome.end, 26);
    machine.last_serial = LAST_SERIAL_LIMIT;
    let mut report = vec![0; 10_240];
    let nobody = &mut reference::run::Nobody;
    let outcome = reference::run::run_from(machine.clone(), 0, &mut [], &mut report, nobody);
    assert_eq!(outcome.end, 3);
    let outcome = reference::run::run_from(machine, 1, &mut [], &mut report, nobody);
    assert_eq!(outcome.end, 4);
}

#[test]
fn end_26_by_serials_or_by_turns() {
    // Each PRIORITY gives one serial.
    let blocks = vec![priority(1), goto(1)];
    let mut machine = Machine::start(Rules::BASE, model(blocks), none());
    machine.made = 1;
    machine.moving = Some(transaction(1, 1, 1));
    machine.last_serial = LAST_SERIAL_LIMIT - 1;
    let ran = run_state(machine.clone(), 1_000_000_000);
    assert_eq!((ran.outcome.end, ran.outcome.turns), (26, 3));
    machine.last_serial = 1;
    machine.turns = TURN_LIMIT - 3;
    let ran = run_state(machine, 1_000_000_000);
    assert_eq!((ran.outcome.end, ran.outcome.turns), (26, TURN_LIMIT));
    assert_eq!(ran.records.len(), 3);
}

#[test]
fn end_21_split_makes_all_or_none() {
    // 1 + 255 * 4 = 1,021 living; the moving one is counted.
    for (copies, end) in [(3, 2), (4, 21)] {
        let mut model = model(vec![
            generate(1),
            split(255, 7),
            split(255, 7),
            split(255, 7),
            split(255, 7),
            split(copies, 7),
            terminate(100),
        ]);
        model.lists = 1;
        let ran = run_model(&model, &vec![vec![9]]);
        assert_eq!(ran.outcome.end, end);
        if end == 21 {
            assert_eq!((ran.outcome.made, ran.outcome.turns), (1_021, 6));
            assert_eq!(ran.records.len(), 5);
            let living = ran.living();
            assert_eq!(living.len(), 1_021);
            assert_eq!(living[0], (1, 6));
            assert!(living[1..].iter().all(|(_, place)| *place == 5));
        } else {
            assert_eq!((ran.outcome.made, ran.outcome.ended), (1_024, 1));
        }
    }
}

/// A machine in which one transaction waits on the FEL for block 1 at 10, the
/// clock stands at `clock`, and this many live.
fn about_to(block: Block, tape: Tape, clock: u64, living: u64) -> Machine {
    let mut machine = Machine::start(
        Rules::BASE,
        model(vec![goto(2), block, terminate(1)]),
        none(),
    );
    machine.tape = tape;
    machine.clock = clock;
    machine.made = living;
    machine.fel.push(Event {
        move_time: clock + 10,
        transaction: transaction(1, 2, 1),
    });
    machine
}

#[test]
fn generate_asks_21_then_22_but_not_of_a_spent_list() {
    let late = Rules::BASE.max_clock() - 10;
    let end = |times: Vec<u64>, clock: u64, living: u64| {
        let machine = about_to(generate(1), lists(times, vec![]), clock, living);
        run_state(machine, 1).outcome.end
    };
    assert_eq!(end(vec![1], late, 1_024), 21);
    assert_eq!(end(vec![1], late, 1_023), 22);
    assert_eq!(end(vec![0], late, 1_023), 3);
    assert_eq!(end(vec![0], 0, 1_024), 21);
    assert_eq!(end(vec![], late, 1_024), 3);
}

#[test]
fn advance_asks_23_then_22() {
    let late = Rules::BASE.max_clock() - 15;
    for (times, end) in [(vec![], 23), (vec![6], 22), (vec![5], 3), (vec![0], 3)] {
        let machine = about_to(advance(2), lists(vec![], times), late, 1);
        assert_eq!(run_state(machine, 1).outcome.end, end);
    }
}

#[test]
fn end_24_and_25() {
    for (block, in_use, end) in [
        (RELEASE, 0, 24),
        (RELEASE, 1, 3),
        (leave(1), 0, 24),
        (leave(2), 1, 24),
        (leave(2), 2, 3),
        (leave(1), 2, 3),
        (DEPART, 0, 25),
        (DEPART, 1, 3),
    ] {
        let mut machine = about_to(block, none(), 0, 1);
        machine.facilities[0].in_use = in_use.min(1);
        machine.storages[0].in_use = in_use;
        machine.queues[0].content = u64::from(in_use);
        assert_eq!(run_state(machine, 1).outcome.end, end);
    }
}

#[test]
fn the_taking_stays_when_a_question_stops_the_turn() {
    let mut machine = about_to(RELEASE, none(), 100, 2);
    machine.queues[0].content = 3;
    machine.last_serial = 50;
    machine.fel.push(Event {
        move_time: 110,
        transaction: transaction(2, 3, 2),
    });
    let ran = run_state(machine, 9);
    assert_eq!(ran.outcome.end, 24);
    assert_eq!((ran.outcome.clock, ran.outcome.turns), (110, 1));
    assert_eq!(ran.records.len(), 0);
    assert_eq!(ran.living(), [(1, 6), (2, 5)]);
    assert_eq!(ran.queue(), [0, 30, 3]);
}

#[test]
fn no_ws_scheme_after_a_stop_or_end_2() {
    // 1 waits while the clock is below 5; 2 comes at 7 and stops, or ends the run.
    for (block, end, places) in [
        (RELEASE, 24, vec![(1, 3), (2, 6)]),
        (terminate(100), 2, vec![(1, 3)]),
        (ARRIVE, 3, vec![(1, 5), (2, 6)]),
    ] {
        let blocks = vec![
            generate(1),
            wait_while(Term::Clock, 3, Term::Constant(5)),
            terminate(1),
            goto(6),
            goto(4),
            block,
            terminate(1),
        ];
        let mut machine = Machine::start(Rules::BASE, model(blocks), lists(vec![1], vec![]));
        machine.made += 1;
        machine.fel.push(Event {
            move_time: 7,
            transaction: transaction(2, 6, 50),
        });
        let ran = run_state(machine, 3);
        assert_eq!(ran.outcome.end, end);
        assert_eq!(ran.living(), places);
    }
}
