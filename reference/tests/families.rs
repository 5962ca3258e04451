//! ASSEMBLE, kind 18 (02, item 8).

mod common;
use common::*;
use reference::account::Account;
use reference::blocks::Done;
use reference::claims::{check_with, Claims};
use reference::coverage::Coverage;
use reference::generate::random::Random;
use reference::generate::{case_with, families, Size};
use reference::machine::{Gatherer, Machine};
use reference::model::Block;
use reference::run::Watcher;
use reference::trace::write_record_with;
use reference::Rules;

const ASSEMBLE: Rules = Rules {
    assemble: true,
    holders: true,
    ..Rules::BASE
};

fn assemble(count: u32) -> Block {
    Block::Assemble { count }
}

#[test]
fn the_first_waits_the_later_ones_end_and_the_first_goes_on() {
    // 1 with copies 2 and 3; 1 comes first as it moves on.
    let blocks = vec![generate(1), split(2, 3), assemble(3), terminate(5)];
    let ran = run_under(
        ASSEMBLE,
        &model(blocks),
        &vec![vec![7], vec![], vec![]],
        99,
        999,
    );
    assert_eq!(
        ran.steps(),
        [
            (1, 1, 0),
            (1, 2, 0),
            (1, 3, 1),
            (2, 3, 0),
            (3, 3, 0),
            (1, 4, 0)
        ]
    );
    assert_eq!((ran.outcome.made, ran.outcome.ended), (3, 3));
    assert_eq!(ran.outcome.turns, 6);
    assert_eq!(ran.outcome.end, 1);
}

#[test]
fn a_gatherer_stands_in_place_7_and_the_count_begins_again() {
    // Five come to an ASSEMBLE 2: two pairs and one more.
    let blocks = vec![
        generate(1),
        split(4, 3),
        assemble(2),
        advance(2),
        terminate(1),
    ];
    let tape = vec![vec![0], vec![5, 5, 5], vec![]];
    let ran = run_under(ASSEMBLE, &model(blocks), &tape, 99, 999);
    let at_block_3: Vec<(u64, u64)> = ran
        .steps()
        .iter()
        .filter(|step| step.1 == 3)
        .map(|step| (step.0, step.2))
        .collect();
    assert_eq!(at_block_3, [(1, 1), (2, 0), (3, 1), (4, 0), (5, 1)]);
    assert_eq!(ran.living(), [(5, 7)]);
    assert_eq!((ran.outcome.made, ran.outcome.ended), (5, 4));
}

#[test]
fn families_do_not_mix_but_copies_of_copies_belong() {
    let blocks = vec![generate(1), assemble(2), terminate(1)];
    let tape = vec![vec![0, 0, 0], vec![], vec![]];
    let ran = run_under(ASSEMBLE, &model(blocks), &tape, 99, 999);
    assert_eq!(ran.living(), [(1, 7), (2, 7), (3, 7)]);
    // 1 makes 2, which makes 3: all of one family.
    let blocks = vec![
        generate(1),
        split(1, 4),
        goto(5),
        split(1, 5),
        assemble(3),
        terminate(1),
    ];
    let tape = vec![vec![0], vec![], vec![]];
    let ran = run_under(ASSEMBLE, &model(blocks), &tape, 99, 999);
    assert_eq!((ran.outcome.made, ran.outcome.ended), (3, 3));
}

#[test]
fn each_block_counts_for_itself() {
    let blocks = vec![
        generate(1),
        split(1, 4),
        assemble(2),
        assemble(2),
        terminate(1),
    ];
    let tape = vec![vec![0], vec![], vec![]];
    let ran = run_under(ASSEMBLE, &model(blocks), &tape, 99, 999);
    assert_eq!(ran.living(), [(1, 7), (2, 7)]);
    assert_eq!(ran.outcome.end, 1);
}

#[test]
fn the_first_takes_fresh_serials_and_is_not_returning() {
    let blocks = vec![assemble(2), terminate(1)];
    let mut machine = Machine::start(ASSEMBLE, model(blocks), vec![vec![]; 3]);
    machine.made = 2;
    machine.last_serial = 10;
    let mut first = transaction(1, 1, 3);
    first.priority = 4;
    assert_eq!(machine.execute(first), Done::BeganToWait);
    let gatherer = &machine.gatherers[&1][0];
    assert_eq!((gatherer.transaction.serial, gatherer.come), (11, 1));
    let mut second = transaction(2, 1, 5);
    second.family = 1;
    assert_eq!(machine.execute(second), Done::Entered);
    assert!(machine.gatherers[&1].is_empty() && machine.moving.is_none());
    let first = &machine.rel[0];
    assert_eq!((first.number, first.serial, first.next_block), (1, 12, 2));
    assert_eq!((first.priority, first.returning), (4, false));
    assert_eq!((machine.entries[0], machine.ended), (1, 1));
    assert_eq!(machine.counter, 100);
}

#[test]
fn a_later_one_that_holds_ends_the_run_with_28() {
    let blocks = vec![assemble(2), terminate(1)];
    let mut machine = Machine::start(ASSEMBLE, model(blocks), vec![vec![]; 3]);
    machine.made = 2;
    machine.facilities[0].in_use = 1;
    machine.facilities[0].holder = Some(1);
    // The first may hold one.
    assert_eq!(machine.execute(transaction(1, 1, 1)), Done::BeganToWait);
    machine.facilities[0].holder = Some(2);
    let mut later = transaction(2, 1, 2);
    later.family = 1;
    assert_eq!(machine.execute(later.clone()), Done::Stopped(28));
    assert_eq!(machine.ended, 0);
    assert_eq!(machine.moving.take().map(|t| t.number), Some(2));
    machine.rules.holders = false;
    assert_eq!(machine.execute(later), Done::Entered);
}

#[test]
fn the_numbers_of_kind_18() {
    let ask = |rules: Rules, block: &[u8]| {
        let mut bytes = vec![1, 0, 0, 0, 0, 0, 1, 2];
        bytes.extend(block);
        refusal_under(rules, &bytes, &[])
    };
    assert_eq!(ask(ASSEMBLE, &[18, 2, 3, 1]), 0);
    assert_eq!(ask(ASSEMBLE, &[18, 0x81, 0x7F, 3, 1]), 0); // 255
    assert_eq!(ask(ASSEMBLE, &[18, 0x82, 0x00, 3, 1]), 4); // 256
    assert_eq!(ask(ASSEMBLE, &[18, 1, 3, 1]), 4);
    assert_eq!(ask(ASSEMBLE, &[18]), 3);
    assert_eq!(ask(Rules::BASE, &[18, 2, 3, 1]), 4);
    assert_eq!(ask(ASSEMBLE, &[17, 1, 1, 1]), 4);
    assert_eq!(ask(ASSEMBLE, &[3, 1, 18, 2]), 7); // not as the last block
}

#[test]
fn the_account_tells_families_from_records() {
    let blocks = vec![generate(1), split(2, 3), assemble(2), terminate(1)];
    let model = model(blocks);
    let account = |records: &[[u64; 4]]| {
        let mut trace = vec![0; 1_000];
        let mut used = 0;
        for record in records {
            used += write_record_with(ASSEMBLE, &mut trace[used..], *record).unwrap();
        }
        let mut account = Account::new(ASSEMBLE, &model, &vec![vec![0, 0], vec![], vec![]]);
        account.read(&trace[..used]);
        account
    };
    // 2 is of another family; 3 and 4 are copies of 1.
    let start = [[0, 1, 1, 0], [0, 1, 2, 0], [0, 3, 3, 1]];
    let with = |rest: &[[u64; 4]]| account(&[&start, rest].concat());
    assert!(with(&[[0, 4, 3, 0], [0, 1, 3, 1]]).errors.is_empty());
    assert_eq!(with(&[[0, 4, 3, 1]]).errors.len(), 1);
    assert_eq!(with(&[[0, 4, 3, 0], [0, 1, 3, 0]]).errors.len(), 1);
    let other = with(&[[0, 2, 3, 1], [0, 4, 3, 0]]);
    assert!(other.errors.is_empty());
    assert_eq!((other.made, other.ended), (4, 1));
}

#[test]
fn the_claims_find_two_gatherers_of_a_family() {
    let blocks = vec![generate(1), assemble(2), terminate(1)];
    let start = Machine::start(ASSEMBLE, model(blocks), vec![vec![1], vec![], vec![]]);
    let mut machine = start.clone();
    let mut first = machine.fel.remove(0).transaction;
    first.next_block = 2;
    let gatherer = |come: u32| Gatherer {
        transaction: first.clone(),
        come,
    };
    let complaints = |list: Vec<Gatherer>| {
        let mut machine = machine.clone();
        machine.gatherers.insert(2, list);
        let mut trace = [0; 12];
        let used = write_record_with(ASSEMBLE, &mut trace, [0, 1, 2, 1]).unwrap();
        let mut claims = Claims::new(&start);
        claims.before_turn(&machine, &trace[..used]);
        claims.errors.len()
    };
    assert_eq!(complaints(vec![gatherer(1)]), 0);
    assert_eq!(complaints(vec![gatherer(2)]), 1);
    assert!(complaints(vec![gatherer(1), gatherer(1)]) > 1);
    assert!(complaints(vec![]) > 1);
}

#[test]
fn claims_hold_over_families() {
    for (rules, seed) in [(ASSEMBLE, 121), (Rules::through(8), 122)] {
        let mut random = Random::new(seed);
        for number in 0..700 {
            let case = match number % 4 {
                0 => case_with(rules, &mut random, Size::Full),
                1 => families::case(rules, &mut random, Size::Full),
                _ => families::case(rules, &mut random, Size::Small),
            };
            if let Err(errors) = check_with(rules, &case) {
                panic!("case {number}: {errors:?}\n{case:?}");
            }
        }
    }
}

#[test]
fn cases_with_families_cover_them() {
    let coverage = Coverage::of(ASSEMBLE, &mut Random::new(123), Size::Small, 5_000);
    let empty = coverage.empty_cells();
    assert!(empty.iter().all(|cell| cell.contains("22")), "{empty:?}");
    assert!(coverage.met(18, Done::Stopped(28)) > 10);
    assert_eq!(coverage.most_living, 1_024);
}
