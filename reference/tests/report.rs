//! The report: sums, longest lengths and the places of the living.

mod common;
use common::*;
use reference::machine::{insert, Event, Machine};
use reference::model::Term;
use reference::report::{read_report, report_numbers};
use reference::Rules;

#[test]
fn all_six_places_by_rising_number() {
    let mut machine = Machine::start(Rules::BASE, model(vec![terminate(1)]), vec![vec![]; 3]);
    machine.made = 9;
    machine.ended = 2;
    machine.clock = 300;
    insert(&mut machine.storages[0].ql, transaction(8, 1, 1));
    insert(&mut machine.facilities[0].ql, transaction(3, 1, 2));
    insert(&mut machine.storages[0].wel[5], transaction(2, 1, 3));
    insert(&mut machine.wsl, transaction(9, 1, 4));
    insert(&mut machine.rel, transaction(4, 1, 5));
    machine.fel.push(Event {
        move_time: 301,
        transaction: transaction(5, 1, 6),
    });
    machine.moving = Some(transaction(6, 1, 7));
    let mut expected = vec![300, 9, 2];
    expected.extend([0; 5 + 5 + 3]);
    expected.push(7);
    expected.extend([2, 2, 3, 1, 4, 5, 5, 4, 6, 6, 8, 1, 9, 3]);
    assert_eq!(report_numbers(&machine), expected);
}

#[test]
fn sums_and_longest_of_a_storage_and_a_queue() {
    // Four come at 0 and want 1 unit of 2 for 10 ticks each.
    let blocks = vec![
        generate(1),
        ARRIVE,
        enter(1),
        DEPART,
        advance(2),
        leave(1),
        terminate(1),
    ];
    let ran = run_model(&model(blocks), &vec![vec![0; 4], vec![10; 4], vec![]]);
    assert_eq!(ran.outcome.clock, 20);
    // 4 entries of 10 ticks; 2 waits of 10 ticks; at most 2 waiting.
    assert_eq!(ran.storage(), [4, 40, 2, 20, 2]);
    // 4 arrivals; two in the queue for 10 ticks; 2 at a clock move.
    assert_eq!(ran.queue(), [4, 20, 2]);
}

#[test]
fn unit_ticks_count_units() {
    let blocks = vec![generate(1), enter(2), advance(2), leave(2), terminate(1)];
    let ran = run_model(&model(blocks), &vec![vec![3], vec![7], vec![]]);
    assert_eq!(ran.storage(), [1, 14, 0, 0, 0]);
}

#[test]
fn longest_is_sampled_at_clock_moves_by_0_ticks_too() {
    // Two arrive at 0; the second waits only while the clock does not move.
    let blocks = vec![
        generate(1),
        SEIZE,
        advance(2),
        advance(2),
        RELEASE,
        terminate(1),
    ];
    let ran = run_model(&model(blocks), &vec![vec![0, 0], vec![0; 4], vec![]]);
    assert_eq!(ran.outcome.clock, 0);
    assert_eq!(ran.facility(), [2, 0, 1, 0, 1]);
}

#[test]
fn nothing_is_sampled_at_the_end_of_the_run() {
    let blocks = vec![generate(1), ARRIVE, SEIZE, wait_status(1), terminate(1)];
    let ran = run_model(&model(blocks), &vec![vec![4], vec![], vec![]]);
    assert_eq!(ran.outcome.end, 1);
    assert_eq!(ran.facility(), [1, 0, 0, 0, 0]);
    assert_eq!(ran.queue(), [1, 0, 0]);
    assert_eq!(ran.living(), [(1, 2)]);
}

#[test]
fn a_put_back_waiter_still_counts_as_one_wait() {
    let blocks = vec![
        generate(1),
        SEIZE,
        advance(2),
        RELEASE,
        wait_while(Term::Clock, 3, Term::Constant(0)),
        goto(2),
    ];
    let ran = run_limited(
        &model(blocks),
        &vec![vec![0, 1], vec![5; 3], vec![]],
        1_000,
        1_000,
    );
    // 1 holds from 0 to 5, 5 to 10 and 10 to 15, 2 waits from 1 on; then the list is spent.
    assert_eq!(ran.outcome.end, 23);
    assert_eq!(ran.outcome.clock, 15);
    assert_eq!(ran.facility(), [4, 15, 1, 14, 1]);
}

#[test]
fn report_bytes_come_back_as_numbers() {
    assert_eq!(read_report(&[]), Some(vec![]));
    assert_eq!(read_report(&[5, 0x81, 0, 0]), Some(vec![5, 128, 0]));
    assert_eq!(read_report(&[5, 0x81]), None);
    assert_eq!(read_report(&[0x80, 0x01]), None);
}

#[test]
fn the_largest_report_fits() {
    // 1,024 living with four-byte numbers, 64 servers and 32 queues.
    let mut big = model(vec![terminate(1)]);
    big.facilities = 32;
    big.capacities = vec![65_535; 32];
    big.queues = 32;
    let mut machine = Machine::start(Rules::BASE, big, vec![vec![]; 3]);
    machine.clock = 2_000_000_000;
    machine.made = 100_000_000;
    machine.ended = 100_000_000 - 1_024;
    for server in machine.facilities.iter_mut().chain(&mut machine.storages) {
        server.entries = 100_000_000;
        server.unit_ticks = 65_535 * 2_000_000_000;
        server.waits_begun = 100_000_000;
        server.ticks_waited = 1_024 * 2_000_000_000;
        server.longest = 1_024;
    }
    for queue in &mut machine.queues {
        queue.arrivals = 100_000_000;
        queue.content_ticks = 100_000_000 * 2_000_000_000;
        queue.longest = 100_000_000;
    }
    for number in 0..1_024 {
        insert(
            &mut machine.rel,
            transaction(100_000_000 - number, 1, number),
        );
    }
    let ran = run_state(machine, 0);
    assert_eq!(ran.outcome.end, 3);
    assert!(ran.outcome.report_bytes <= 10_240);
}

#[test]
fn the_living_stand_by_rising_number_whatever_their_lists() {
    let mut machine = machine(vec![SEIZE, enter(2), wait_status(1), terminate(1)]);
    machine.made = 9;
    machine.ended = 3;
    machine.facilities[0].in_use = 1;
    insert(&mut machine.rel, waiter(9, 4, 5));
    insert(&mut machine.rel, waiter(2, 4, 0));
    insert(&mut machine.facilities[0].ql, waiter(7, 1, 0));
    insert(&mut machine.facilities[0].wel[0], waiter(3, 3, 0));
    insert(&mut machine.storages[0].ql, waiter(5, 2, 0));
    machine.moving = Some(transaction(4, 4, 1));
    let ran = run_state(machine, 0);
    let living = [(2, 5), (3, 2), (4, 6), (5, 1), (7, 1), (9, 5)];
    assert_eq!(ran.living(), living);
}
