//! Joined waits, kind 17 (02, item 7).

mod common;
use common::*;
use reference::account::Account;
use reference::blocks::Done;
use reference::claims::check_with;
use reference::coverage::Coverage;
use reference::generate::fields::encode_model;
use reference::generate::random::Random;
use reference::generate::{case_with, joined, Size};
use reference::machine::{insert, Machine};
use reference::model::{Block, Model};
use reference::trace::write_record_with;
use reference::Rules;

const JOINED: Rules = Rules {
    joined: true,
    ..Rules::BASE
};

fn status(code: u32, server: u32) -> Block {
    Block::WaitIfStatus { code, server }
}

fn joined_wait(code: u32, server: u32, back: u32) -> Block {
    Block::WaitJoined { code, server, back }
}

fn two_facilities(blocks: Vec<Block>) -> Model {
    let mut model = model(blocks);
    model.facilities = 2;
    model
}

/// Storm, tug and ship: who takes facility 1 or 2 keeps it for a time of list 3.
fn port(ship: Vec<Block>) -> Model {
    let hold = |list: u32, facility: u32| {
        vec![
            generate(list),
            Block::Seize { facility },
            advance(3),
            Block::Release { facility },
            terminate(0),
        ]
    };
    let mut blocks = hold(1, 1);
    blocks.extend(hold(2, 2));
    blocks.push(generate(4));
    blocks.extend(ship);
    blocks.push(terminate(1));
    let mut model = two_facilities(blocks);
    model.lists = 4;
    model
}

#[test]
fn a_ship_leaves_when_storm_and_tug_both_allow_it() {
    // Tug busy 0..5, storm 3..8, ship at 1: it passes the storm at 1, waits for the
    // tug, finds the storm at 5 and goes at 8.
    let ship = vec![status(1, 1), joined_wait(1, 2, 1)];
    let tape = vec![vec![3], vec![0], vec![5, 5], vec![1]];
    let ran = run_under(JOINED, &port(ship), &tape, 100, 1_000);
    let ship: Vec<[u64; 4]> = ran.records.iter().copied().filter(|r| r[1] == 3).collect();
    assert_eq!(
        ship,
        [
            [1, 3, 11, 0],
            [1, 3, 12, 0],
            [1, 3, 13, 1],
            [5, 3, 12, 1], // back, without a record of its own
            [8, 3, 12, 0],
            [8, 3, 13, 0],
            [8, 3, 14, 0],
        ]
    );
    // Each turn but the going back wrote a record.
    assert_eq!(ran.outcome.turns, ran.records.len() as u64 + 1);
    // With two plain waits it would have left into the storm.
    let plain = vec![status(1, 1), status(1, 2)];
    let ran = run_under(JOINED, &port(plain), &tape, 100, 1_000);
    assert!(ran.records.contains(&[5, 3, 14, 0]));
}

/// A machine whose taken transaction stands at block 2, joined with block 1.
fn at_joined(entered: u64) -> (Machine, reference::machine::Transaction) {
    let blocks = vec![status(1, 1), joined_wait(1, 2, 1), terminate(1)];
    let mut machine = Machine::start(JOINED, two_facilities(blocks), vec![vec![]; 3]);
    machine.made = 9;
    machine.clock = 10;
    let mut moving = transaction(1, 2, 1);
    moving.groups.insert(1, entered);
    moving.returning = true;
    (machine, moving)
}

#[test]
fn it_goes_back_if_it_entered_the_group_earlier() {
    let (mut machine, moving) = at_joined(9);
    machine.last_serial = 20;
    insert(&mut machine.facilities[1].wel[0], waiter(5, 2, 0));
    insert(&mut machine.facilities[1].wel[0], waiter(6, 2, 0));
    assert_eq!(machine.execute(moving), Done::WentBack);
    let moved = machine.moving.clone().unwrap();
    assert_eq!((moved.next_block, moved.returning), (1, false));
    assert_eq!(numbers(&machine.rel), [5]);
    assert_eq!(numbers(&machine.facilities[1].wel[0]), [6]);
    assert_eq!(machine.entries, [0, 0, 0]);
    assert_eq!(machine.last_serial, 20);
    // It then enters the first block anew: the stamp is of now.
    assert_eq!(machine.execute(moved), Done::Entered);
    assert_eq!(machine.moving.unwrap().groups[&1], 10);
}

#[test]
fn equal_clocks_are_the_same_clock() {
    let (mut machine, moving) = at_joined(10);
    insert(&mut machine.facilities[1].wel[0], waiter(5, 2, 0));
    assert_eq!(machine.execute(moving), Done::Entered);
    assert_eq!(machine.moving.as_ref().unwrap().next_block, 3);
    assert_eq!(numbers(&machine.rel), [5]);
}

#[test]
fn the_condition_is_asked_first() {
    let (mut machine, moving) = at_joined(3);
    machine.facilities[1].in_use = 1;
    assert_eq!(machine.execute(moving), Done::PutBack);
    assert_eq!(numbers(&machine.facilities[1].wel[0]), [1]);
    let (mut machine, mut moving) = at_joined(3);
    machine.facilities[1].in_use = 1;
    moving.returning = false;
    assert_eq!(machine.execute(moving), Done::BeganToWait);
}

#[test]
fn kinds_8_and_17_share_a_wel() {
    let blocks = vec![
        status(1, 1),
        joined_wait(1, 1, 1),
        terminate(1),
        RELEASE,
        terminate(1),
    ];
    let mut machine = Machine::start(JOINED, model(blocks), vec![vec![]; 3]);
    machine.facilities[0].in_use = 1;
    for (number, block) in [(1, 2), (2, 1)] {
        machine.execute(transaction(number, block, number));
    }
    assert_eq!(numbers(&machine.facilities[0].wel[0]), [1, 2]);
    machine.execute(transaction(3, 4, 9));
    assert_eq!(numbers(&machine.rel), [1]);
}

#[test]
fn going_back_into_calm_weather_takes_one_turn() {
    let ship = vec![status(1, 1), joined_wait(1, 2, 1)];
    let tape = vec![vec![30], vec![0], vec![5, 5], vec![1]];
    let ran = run_under(JOINED, &port(ship), &tape, 100, 1_000);
    assert!(ran.records.contains(&[5, 3, 13, 0]));
    assert_eq!(ran.outcome.turns, ran.records.len() as u64 + 1);
}

#[test]
fn broken_groups_are_refused_with_7() {
    let ask = |blocks: Vec<Block>| {
        let mut model = two_facilities(blocks);
        model.lists = 0;
        refusal_under(JOINED, &encode_model(&model), &[])
    };
    let s = status(1, 1);
    let j = |back: u32| joined_wait(1, 2, back);
    let end = terminate(1);
    assert_eq!(ask(vec![s.clone(), j(1), end.clone()]), 0);
    assert_eq!(ask(vec![j(1), end.clone()]), 7); // no block before
    assert_eq!(ask(vec![s.clone(), j(2), end.clone()]), 7); // one too few
    assert_eq!(ask(vec![SEIZE, j(1), end.clone()]), 7); // another kind
    assert_eq!(ask(vec![s.clone(), j(1), j(1), end.clone()]), 7); // kind 17 inside
    let two = vec![s.clone(), s.clone(), j(2), end.clone()];
    assert_eq!(ask(two.clone()), 0);
    let aimed = |target: u32| {
        let sorts = [
            goto(target),
            split(1, target),
            Block::If {
                comparison: compare(
                    reference::model::Term::Clock,
                    1,
                    reference::model::Term::Constant(0),
                ),
                target,
            },
        ];
        sorts.map(|block| {
            let mut blocks = two.clone();
            blocks.extend([block, terminate(1)]);
            ask(blocks)
        })
    };
    assert_eq!(aimed(1), [0; 3]);
    assert_eq!(aimed(2), [7; 3]);
    assert_eq!(aimed(3), [7; 3]);
    assert_eq!(aimed(4), [0; 3]);
    // Without a target into it, seven are well; the first may be an eighth's.
    let mut seven = vec![s.clone(); 8];
    seven.extend([j(7), end.clone()]);
    assert_eq!(ask(seven), 0);
    // Two groups behind each other.
    assert_eq!(
        ask(vec![
            s.clone(),
            j(1),
            s.clone(),
            s.clone(),
            j(2),
            end.clone()
        ]),
        0
    );
    assert_eq!(ask(vec![s.clone(), j(1), s, j(2), end]), 7);
}

#[test]
fn the_numbers_of_kind_17() {
    let head = [1, 2, 0, 0, 0, 0, 1, 3, 8, 1, 1]; // two facilities, three blocks
    let ask = |rules: Rules, rest: &[u8]| {
        let mut bytes = head.to_vec();
        bytes.extend(rest);
        refusal_under(rules, &bytes, &[])
    };
    assert_eq!(ask(JOINED, &[17, 1, 2, 1, 3, 1]), 0);
    assert_eq!(ask(Rules::BASE, &[17, 1, 2, 1, 3, 1]), 4);
    assert_eq!(ask(JOINED, &[17, 7]), 4);
    assert_eq!(ask(JOINED, &[17, 1, 3]), 4);
    assert_eq!(ask(JOINED, &[17, 1, 2, 0]), 4);
    assert_eq!(ask(JOINED, &[17, 1, 2, 8]), 4);
    assert_eq!(ask(JOINED, &[17, 1, 2, 7, 3, 1]), 7);
    assert_eq!(ask(JOINED, &[17, 3, 1]), 4); // no storages
    assert_eq!(ask(JOINED, &[17, 1, 2]), 3);
    assert_eq!(ask(JOINED, &[18]), 4);
}

#[test]
fn the_account_finds_one_who_enters_without_its_group() {
    let blocks = vec![
        generate(1),
        status(1, 1),
        status(2, 2),
        joined_wait(1, 2, 2),
        terminate(1),
    ];
    let model = two_facilities(blocks);
    let errors = |records: &[[u64; 4]]| {
        let mut trace = vec![0; 1_000];
        let mut used = 0;
        for record in records {
            used += write_record_with(JOINED, &mut trace[used..], *record).unwrap();
        }
        let mut account = Account::new(JOINED, &model, &vec![vec![0], vec![], vec![]]);
        account.read(&trace[..used]);
        account.errors.len()
    };
    let start = [[0, 1, 1, 0], [4, 1, 2, 0]];
    let with = |rest: &[[u64; 4]]| errors(&[&start, rest].concat());
    assert_eq!(with(&[[4, 1, 3, 0], [4, 1, 4, 0]]), 0);
    assert_eq!(with(&[[5, 1, 3, 0], [5, 1, 4, 0]]), 1);
    assert_eq!(with(&[[4, 1, 3, 0], [5, 1, 4, 0]]), 1);
    assert_eq!(with(&[[4, 1, 4, 0]]), 1);
    assert_eq!(
        with(&[[5, 1, 3, 0], [5, 1, 2, 0], [5, 1, 3, 0], [5, 1, 4, 0]]),
        0
    );
}

#[test]
fn claims_hold_with_joined_waits() {
    for (rules, seed) in [(JOINED, 111), (Rules::through(7), 112)] {
        let mut random = Random::new(seed);
        for number in 0..1_000 {
            let case = match number % 4 {
                0 => case_with(rules, &mut random, Size::Full),
                1 => joined::case(rules, &mut random, Size::Full),
                _ => joined::case(rules, &mut random, Size::Small),
            };
            if let Err(errors) = check_with(rules, &case) {
                panic!("case {number}: {errors:?}\n{case:?}");
            }
        }
    }
}

#[test]
fn cases_with_joined_waits_cover_them() {
    let coverage = Coverage::of(JOINED, &mut Random::new(113), Size::Small, 5_000);
    let empty = coverage.empty_cells();
    assert!(empty.iter().all(|cell| cell.contains("22")), "{empty:?}");
    assert!(coverage.met(17, Done::WentBack) > 500);
    assert!(coverage.met(17, Done::PutBack) > 50);
}

#[test]
fn models_without_the_new_kind_keep_their_bytes() {
    let mut random = Random::new(114);
    for number in 0..600 {
        let case = case_with(Rules::BASE, &mut random, Size::Small);
        let before = everything(Rules::BASE, &case);
        if before.0.refusal == 0 {
            assert!(before == everything(JOINED, &case), "case {number}");
        }
    }
}
