//! Waiting and waking.

mod common;
use common::*;
use reference::blocks::Done;
use reference::machine::{insert, Machine};
use reference::model::Term;

#[test]
fn seize_waits_release_wakes_one() {
    let mut machine = machine(vec![SEIZE, RELEASE, terminate(1)]);
    assert_eq!(execute(&mut machine), Done::Entered);
    assert_eq!(machine.moving.take().unwrap().next_block, 2);
    for number in 2..=3 {
        let done = machine.execute(waiter(number, 1, 0));
        assert_eq!(done, Done::BeganToWait);
    }
    assert_eq!(numbers(&machine.facilities[0].ql), [2, 3]);
    assert_eq!(machine.facilities[0].ql[0].serial, 1);
    assert_eq!(machine.execute(waiter(1, 2, 0)), Done::Entered);
    assert_eq!(machine.facilities[0].in_use, 0);
    assert_eq!(numbers(&machine.rel), [2]);
    assert!(machine.rel[0].returning);
    assert_eq!(machine.rel[0].serial, 1);
    assert_eq!(machine.facilities[0].entries, 1);
    assert_eq!(machine.facilities[0].waits_begun, 2);
    // Entering clears the mark.
    machine.moving = None;
    let woken = machine.take().unwrap();
    assert_eq!(machine.execute(woken), Done::Entered);
    assert!(!machine.moving.as_ref().unwrap().returning);
}

#[test]
fn leave_wakes_every_waiter_that_fits_alone() {
    let blocks = vec![leave(1), enter(1), enter(2), terminate(1)];
    let mut machine = machine(blocks);
    machine.storages[0].capacity = 3;
    machine.storages[0].in_use = 3;
    for (number, block) in [(2, 3), (3, 2), (4, 2), (5, 3)] {
        insert(&mut machine.storages[0].ql, waiter(number, block, 0));
    }
    assert_eq!(execute(&mut machine), Done::Entered);
    // One unit is free: both ENTERs of 1 go, though only one will enter.
    assert_eq!(numbers(&machine.rel), [3, 4]);
    assert_eq!(numbers(&machine.storages[0].ql), [2, 5]);
    machine.moving = None;
    let first = machine.take().unwrap();
    assert_eq!(machine.execute(first), Done::Entered);
    machine.moving = None;
    let second = machine.take().unwrap();
    assert_eq!(machine.execute(second), Done::PutBack);
    assert_eq!(numbers(&machine.storages[0].ql), [2, 4, 5]);
    assert_eq!(machine.storages[0].entries, 1);
    assert_eq!(machine.storages[0].waits_begun, 0);
}

#[test]
fn status_codes() {
    let mut machine = machine(vec![terminate(1)]);
    let codes = |server: &reference::machine::Server, codes: [u32; 2]| {
        codes.map(|code| server.code_true(code))
    };
    assert_eq!(codes(&machine.facilities[0], [1, 2]), [false, true]);
    machine.facilities[0].in_use = 1;
    assert_eq!(codes(&machine.facilities[0], [1, 2]), [true, false]);
    for (in_use, empty, full) in [(0, true, false), (1, false, false), (2, false, true)] {
        machine.storages[0].in_use = in_use;
        assert_eq!(codes(&machine.storages[0], [3, 4]), [empty, !empty]);
        assert_eq!(codes(&machine.storages[0], [5, 6]), [full, !full]);
    }
}

#[test]
fn a_status_wait_lets_the_first_of_its_wel_follow() {
    let mut machine = machine(vec![wait_status(5), terminate(1)]);
    machine.storages[0].in_use = 2;
    assert_eq!(execute(&mut machine), Done::BeganToWait);
    assert_eq!(machine.execute(waiter(2, 1, 1)), Done::BeganToWait);
    assert_eq!(numbers(&machine.storages[0].wel[4]), [2, 1]);
    // A pass, also by one who never waited, moves the first.
    machine.storages[0].in_use = 1;
    assert_eq!(machine.execute(waiter(3, 1, 0)), Done::Entered);
    assert_eq!(numbers(&machine.rel), [2]);
    assert_eq!(numbers(&machine.storages[0].wel[4]), [1]);
    assert_eq!(machine.moving.as_ref().unwrap().next_block, 2);
}

#[test]
fn entering_4_to_7_offers_each_wel_of_the_server_its_chance() {
    // Waiters on all codes of the facility and of the storage.
    let fill = |machine: &mut Machine| {
        for code in 1..=6usize {
            let server = if code <= 2 {
                &mut machine.facilities[0]
            } else {
                &mut machine.storages[0]
            };
            insert(&mut server.wel[code - 1], waiter(code as u64 * 10, 1, 0));
            insert(
                &mut server.wel[code - 1],
                waiter(code as u64 * 10 + 1, 1, 0),
            );
        }
    };
    // After the effect these codes are not true; one each goes.
    for (block, before, woken) in [
        (SEIZE, 0, vec![20]),
        (RELEASE, 1, vec![10]),
        (enter(1), 0, vec![30, 50]),
        (enter(2), 0, vec![30, 60]),
        (leave(1), 2, vec![30, 50]),
        (leave(2), 2, vec![40, 50]),
    ] {
        let mut machine = machine(vec![block.clone(), terminate(1)]);
        fill(&mut machine);
        machine.facilities[0].in_use = before.min(1);
        machine.storages[0].in_use = before;
        assert_eq!(execute(&mut machine), Done::Entered);
        assert_eq!(numbers(&machine.rel), woken, "{block:?}");
    }
    // Waiting offers nothing.
    let mut machine = machine(vec![SEIZE, terminate(1)]);
    fill(&mut machine);
    machine.facilities[0].in_use = 1;
    assert_eq!(execute(&mut machine), Done::BeganToWait);
    assert!(machine.rel.is_empty());
}

#[test]
fn comparisons_wait_on_the_wsl_with_own_parameters() {
    let block = wait_while(Term::Parameter(1), 5, Term::Content(1));
    let mut machine = machine(vec![block, ARRIVE, terminate(1)]);
    for (number, parameter) in [(1, 2), (2, 1), (3, 2)] {
        let mut waiter = waiter(number, 1, 0);
        waiter.parameters[0] = parameter;
        assert_eq!(machine.execute(waiter), Done::BeganToWait);
    }
    machine.ws_scheme();
    assert_eq!(numbers(&machine.wsl), [1, 2, 3]);
    machine.queues[0].content = 1;
    machine.ws_scheme();
    assert_eq!(numbers(&machine.wsl), [1, 3]);
    assert_eq!(numbers(&machine.rel), [2]);
    machine.queues[0].content = 2;
    machine.ws_scheme();
    assert_eq!(numbers(&machine.rel), [1, 2, 3]);
    // Turned round again before its turn: put back, in its old standing.
    machine.queues[0].content = 0;
    for _ in 0..3 {
        let taken = machine.take().unwrap();
        assert_eq!(machine.execute(taken), Done::PutBack);
    }
    assert_eq!(numbers(&machine.wsl), [1, 2, 3]);
}
