//! What each kind of block does.

mod common;
use common::*;
use reference::blocks::Done;
use reference::machine::{insert, Machine};
use reference::model::{Block, Term};
use reference::Rules;

#[test]
fn lists_are_sorted_by_priority_then_serial() {
    let mut list = Vec::new();
    for (number, priority) in [(4, 0), (2, 1), (9, 1), (1, 0), (3, 127)] {
        insert(&mut list, waiter(number, 1, priority));
    }
    assert_eq!(numbers(&list), [3, 2, 9, 1, 4]);
}

#[test]
fn the_start_uses_shared_lists_in_block_order() {
    let blocks = vec![
        generate_at(1, 0),
        terminate(1),
        generate_at(1, 3),
        terminate(1),
        generate_at(1, 9),
        terminate(1),
    ];
    let machine = Machine::start(Rules::BASE, model(blocks), vec![vec![7, 7], vec![], vec![]]);
    assert_eq!(machine.made, 2);
    let fel: Vec<_> = machine
        .fel
        .iter()
        .map(|e| (e.move_time, e.transaction.number, e.transaction.serial))
        .collect();
    assert_eq!(fel, [(7, 2, 2), (7, 1, 1)]);
    assert_eq!(machine.used[0], 2);
}

#[test]
fn a_clock_move_gives_fresh_serials_in_fel_order() {
    let mut machine = machine(vec![terminate(1)]);
    for (number, priority, time) in [(1, 0, 5), (2, 2, 5), (3, 0, 5), (4, 0, 6)] {
        let mut transaction = waiter(number, 1, priority);
        transaction.returning = true;
        machine.to_fel(transaction, time);
    }
    assert_eq!(machine.last_serial, 4);
    let taken = machine.take().unwrap();
    assert_eq!((taken.number, taken.serial, taken.returning), (2, 5, false));
    assert_eq!(machine.clock, 5);
    let rel: Vec<_> = machine.rel.iter().map(|t| (t.number, t.serial)).collect();
    assert_eq!(rel, [(1, 6), (3, 7)]);
    assert_eq!(machine.fel.len(), 1);
}

#[test]
fn the_taking_prefers_the_moving_one_then_rel() {
    let mut machine = machine(vec![terminate(1)]);
    machine.to_fel(waiter(3, 1, 0), 0);
    insert(&mut machine.rel, waiter(2, 1, 99));
    machine.moving = Some(waiter(1, 1, 0));
    for number in 1..=3 {
        assert_eq!(machine.take().unwrap().number, number);
    }
    assert_eq!(machine.take(), None);
}

#[test]
fn generate_and_advance() {
    let mut machine = machine(vec![generate_at(1, 6), advance(1), terminate(1)]);
    machine.tape[0] = vec![5, 0];
    machine.clock = 10;
    assert_eq!(execute(&mut machine), Done::Entered);
    assert_eq!(machine.made, 2);
    let made = &machine.fel[0].transaction;
    assert_eq!((made.number, made.priority, made.next_block), (2, 6, 1));
    assert_eq!(machine.fel[0].move_time, 15);
    let moving = machine.take().unwrap();
    assert_eq!(moving.next_block, 2);
    // Time 0 is a stay on the FEL too.
    assert_eq!(machine.execute(moving), Done::Entered);
    assert!(machine.moving.is_none());
    assert_eq!(machine.fel[0].move_time, 10);
    let delayed = &machine.fel[0].transaction;
    assert_eq!((delayed.next_block, delayed.serial), (3, 2));
    assert_eq!(machine.next_time(1), None);
    // The spent list makes none.
    let made = machine.made;
    assert_eq!(execute(&mut machine), Done::Entered);
    assert_eq!(machine.made, made);
    assert_eq!(machine.entries, [2, 1, 0]);
}

#[test]
fn if_goto_let_priority_split() {
    let jump = |relation: u32| Block::If {
        comparison: compare(Term::Clock, relation, Term::Constant(0)),
        target: 3,
    };
    for (relation, next) in [(1, 3), (2, 2), (3, 2), (4, 3), (5, 2), (6, 3)] {
        let mut machine = machine(vec![jump(relation), ARRIVE, terminate(1)]);
        assert_eq!(execute(&mut machine), Done::Entered);
        assert_eq!(machine.moving.unwrap().next_block, next);
    }
    let mut jumping = machine(vec![goto(3), ARRIVE, terminate(1)]);
    assert_eq!(execute(&mut jumping), Done::Entered);
    assert_eq!(jumping.moving.unwrap().next_block, 3);

    // A term is read before the block's own entry counts.
    let mut letting = machine(vec![let_parameter(4, Term::Entries(1)), terminate(1)]);
    letting.entries[0] = 6;
    assert_eq!(execute(&mut letting), Done::Entered);
    assert_eq!(letting.moving.unwrap().parameters, [0, 0, 0, 6]);
    assert_eq!(letting.entries[0], 7);

    let mut rising = machine(vec![priority(9), terminate(1)]);
    rising.last_serial = 30;
    assert_eq!(execute(&mut rising), Done::Entered);
    assert!(rising.moving.is_none());
    let risen = &rising.rel[0];
    assert_eq!((risen.priority, risen.serial, risen.next_block), (9, 31, 2));

    let mut splitting = machine(vec![split(3, 2), terminate(1)]);
    splitting.made = 5;
    splitting.last_serial = 8;
    let mut original = waiter(1, 1, 4);
    original.parameters = [1, -2, 3, -4];
    original.returning = true;
    assert_eq!(splitting.execute(original), Done::Entered);
    let copies: Vec<_> = splitting.rel.iter().map(|t| (t.number, t.serial)).collect();
    assert_eq!(copies, [(6, 9), (7, 10), (8, 11)]);
    for copy in &splitting.rel {
        assert_eq!(copy.parameters, [1, -2, 3, -4]);
        assert_eq!(
            (copy.priority, copy.next_block, copy.returning),
            (4, 2, false)
        );
    }
    assert_eq!(splitting.moving.unwrap().number, 1);
}

#[test]
fn arrive_and_depart() {
    let mut machine = machine(vec![ARRIVE, DEPART, terminate(1)]);
    assert_eq!(execute(&mut machine), Done::Entered);
    assert_eq!(execute(&mut machine), Done::Entered);
    assert_eq!(
        (machine.queues[0].content, machine.queues[0].arrivals),
        (2, 2)
    );
    assert_eq!(machine.execute(waiter(1, 2, 0)), Done::Entered);
    assert_eq!(
        (machine.queues[0].content, machine.queues[0].arrivals),
        (1, 2)
    );
}

#[test]
fn every_term() {
    let mut machine = machine(vec![terminate(1), terminate(1)]);
    machine.clock = 2_000_000_000;
    machine.entries = vec![3, 4];
    machine.queues[0].content = 5;
    machine.storages[0].capacity = 9;
    machine.storages[0].in_use = 7;
    machine.facilities[0].in_use = 1;
    let both = compare(Term::Clock, 5, Term::MinusConstant(1));
    machine.model.values = vec![
        sum(vec![plus(Term::Parameter(2)), minus(Term::Content(1))]),
        sum(vec![
            minus(Term::Value(1)),
            plus(Term::Value(1)),
            minus(Term::Clock),
        ]),
    ];
    let mut own = transaction(1, 1, 1);
    own.parameters = [10, -20, 30, -40];
    for (term, value) in [
        (Term::Constant(2_147_483_647), 2_147_483_647),
        (Term::MinusConstant(2_147_483_647), -2_147_483_647),
        (Term::Parameter(4), -40),
        (Term::Clock, 2_000_000_000),
        (Term::Entries(2), 4),
        (Term::Content(1), 5),
        (Term::UnitsInUse(1), 7),
        (Term::UnitsFree(1), 2),
        (Term::FacilityInUse(1), 1),
        (Term::Value(1), -25),
        (Term::Value(2), -2_000_000_000),
        (Term::Comparison(Box::new(both)), 1),
        (Term::Bracket(sum(vec![minus(Term::Constant(8))])), -8),
    ] {
        assert_eq!(machine.term(&term, &own), value, "{term:?}");
    }
}
