//! The claims of demand 3 over random runs, and that their checks can fail.

mod common;
use common::*;
use reference::account::Account;
use reference::claims::{check_with, Claims};
use reference::generate::random::Random;
use reference::generate::{case_with, Size};
use reference::machine::{insert, Machine};
use reference::model::{Model, Term};
use reference::run::Watcher;
use reference::trace::write_record_with;
use reference::Rules;

fn check_many(rules: Rules, seed: u64, count: u64, size: Size) {
    let mut random = Random::new(seed);
    let mut asked = 0;
    for number in 0..count {
        let case = case_with(rules, &mut random, size);
        match check_with(rules, &case) {
            Ok((_, times)) => asked += times,
            Err(errors) => panic!("seed {seed}, case {number}: {errors:?}\n{case:?}"),
        }
    }
    assert!(asked > count, "waiters were asked {asked} times");
}

#[test]
fn claims_hold_over_small_cases() {
    check_many(Rules::BASE, 11, 6_000, Size::Small);
}

#[test]
fn claims_hold_over_full_cases() {
    check_many(Rules::BASE, 12, 1_500, Size::Full);
}

/// The account of these records, each clock, transaction, block, outcome.
fn account(model: &Model, first_list: Vec<u64>, records: &[[u64; 4]]) -> Account {
    let mut trace = vec![0; 1_000];
    let mut used = 0;
    for record in records {
        used += write_record_with(Rules::BASE, &mut trace[used..], *record).unwrap();
    }
    let mut account = Account::new(Rules::BASE, model, &vec![first_list, vec![], vec![]]);
    account.read(&trace[..used]);
    account
}

#[test]
fn the_account_counts_from_records_alone() {
    let model = model(vec![generate(1), split(3, 3), SEIZE, terminate(1)]);
    let records = [
        [5, 1, 1, 0], // makes 2
        [5, 1, 2, 0], // makes 3, 4, 5
        [5, 1, 3, 0],
        [5, 1, 4, 0], // ends 1
        [5, 3, 3, 1],
        [5, 4, 3, 1],
        [9, 2, 1, 0], // its list is spent
    ];
    let account = account(&model, vec![5, 4], &records);
    assert!(account.errors.is_empty());
    assert_eq!((account.made, account.ended), (5, 1));
    assert_eq!(
        account.living.iter().copied().collect::<Vec<_>>(),
        [2, 3, 4, 5]
    );
    // In use and two waiting for 4 ticks; longest is sampled at clock moves only.
    assert_eq!(account.report_numbers()[..8], [9, 5, 1, 1, 4, 2, 8, 0]);
}

#[test]
fn the_account_finds_overtaking() {
    let blocks = vec![
        generate(1),
        SEIZE,
        RELEASE,
        terminate(1),
        priority(1),
        goto(2),
    ];
    let model = model(blocks);
    let begin = [
        [0, 1, 1, 0],
        [0, 1, 2, 0],
        [1, 2, 1, 0],
        [1, 2, 2, 1],
        [2, 3, 1, 0],
        [2, 3, 2, 1],
        [3, 1, 3, 0],
    ];
    let ends = |record: [u64; 4], before: &[[u64; 4]]| {
        let records = [before, &[record]].concat();
        account(&model, vec![0, 1, 1, 1], &records).errors
    };
    assert!(ends([3, 2, 2, 0], &begin).is_empty());
    assert_eq!(ends([3, 3, 2, 0], &begin).len(), 1);
    // With a higher priority it may go first.
    let mut higher = begin.to_vec();
    higher.insert(5, [2, 3, 5, 0]);
    assert!(ends([3, 3, 2, 0], &higher).is_empty());
}

#[test]
fn the_account_finds_records_that_cannot_be() {
    let model = model(vec![generate(1), SEIZE, RELEASE, DEPART, terminate(1)]);
    let errors = |records: &[[u64; 4]]| account(&model, vec![0], records).errors.len();
    assert_eq!(errors(&[[0, 1, 1, 0], [0, 1, 2, 0]]), 0);
    assert_eq!(errors(&[[0, 2, 1, 0]]), 1); // not made
    assert_eq!(errors(&[[0, 1, 5, 0], [0, 1, 1, 0]]), 1); // ended before
    assert_eq!(errors(&[[0, 1, 2, 0], [0, 1, 2, 0]]), 1); // seized twice
    assert_eq!(errors(&[[0, 1, 3, 0]]), 1); // nothing to release
    assert_eq!(errors(&[[0, 1, 4, 0]]), 1); // nothing in the queue
    assert_eq!(errors(&[[5, 1, 1, 0], [4, 1, 2, 0]]), 1); // the clock fell
    assert_eq!(errors(&[[0, 1, 1, 1]]), 1); // GENERATE makes nobody wait
    assert_eq!(errors(&[[0, 1, 6, 0]]), 1); // no such block
}

/// What the claims say of a state before a turn.
fn complaints(machine: &Machine) -> usize {
    let start = Machine::start(Rules::BASE, machine.model.clone(), machine.tape.clone());
    let mut claims = Claims::new(&start);
    claims.before_turn(machine, &[]);
    claims.errors.len()
}

#[test]
fn the_claims_find_a_waiter_able_to_go() {
    let blocks = vec![
        generate(1),
        SEIZE,
        enter(2),
        wait_status(1),
        wait_while(Term::Clock, 3, Term::Constant(5)),
        terminate(1),
    ];
    let mut start = Machine::start(Rules::BASE, model(blocks), vec![vec![1], vec![], vec![]]);
    let lone = start.fel.remove(0).transaction;
    let waiting = |block: u32, change: &dyn Fn(&mut Machine)| {
        let mut machine = start.clone();
        let mut waiter = lone.clone();
        waiter.next_block = block;
        match block {
            2 => insert(&mut machine.facilities[0].ql, waiter),
            3 => insert(&mut machine.storages[0].ql, waiter),
            4 => insert(&mut machine.facilities[0].wel[0], waiter),
            _ => insert(&mut machine.wsl, waiter),
        }
        change(&mut machine);
        complaints(&machine)
    };
    assert_eq!(waiting(2, &|_| {}), 1);
    assert_eq!(waiting(2, &|m| m.facilities[0].in_use = 1), 0);
    assert_eq!(waiting(3, &|_| {}), 1);
    assert_eq!(waiting(3, &|m| m.storages[0].in_use = 1), 0);
    assert_eq!(waiting(4, &|_| {}), 1);
    assert_eq!(waiting(4, &|m| m.facilities[0].in_use = 1), 0);
    assert_eq!(waiting(5, &|m| m.clock = 5), 1);
    assert_eq!(waiting(5, &|m| m.clock = 4), 0);
}

#[test]
fn the_claims_find_one_who_stands_twice_or_nowhere() {
    let blocks = vec![generate(1), terminate(1)];
    let start = Machine::start(Rules::BASE, model(blocks), vec![vec![1], vec![], vec![]]);
    assert_eq!(complaints(&start), 0);
    let mut twice = start.clone();
    insert(&mut twice.rel, start.fel[0].transaction.clone());
    assert_eq!(complaints(&twice), 2); // two lists, and more living than made
    let mut nowhere = start.clone();
    nowhere.fel.clear();
    assert_eq!(complaints(&nowhere), 2);
    let mut unsorted = start;
    let later = unsorted.fel[0].clone();
    unsorted.clock = later.move_time + 1;
    assert_eq!(complaints(&unsorted), 1);
}
