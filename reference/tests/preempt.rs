//! PREEMPT and RETURN, kinds 19 and 20 (02, item 11).

mod common;
use common::*;
use reference::account::Account;
use reference::blocks::Done;
use reference::claims::{check_with, Claims};
use reference::coverage::Coverage;
use reference::generate::random::Random;
use reference::generate::{case_with, preempt, Size};
use reference::machine::{Event, Interrupted, Machine};
use reference::model::Block;
use reference::run::Watcher;
use reference::trace::write_record_with;
use reference::Rules;

const PREEMPT_RULES: Rules = Rules {
    preempt: true,
    holders: true,
    ..Rules::BASE
};
const PREEMPT: Block = Block::Preempt { facility: 1 };
const RETURN: Block = Block::Return { facility: 1 };

/// A machine at clock 10 whose facility is held by 2, which stands on the FEL
/// with 7 ticks left at this priority, if any.
fn held(blocks: Vec<Block>, preempted: bool, priority: Option<u32>) -> Machine {
    let mut machine = Machine::start(PREEMPT_RULES, model(blocks), vec![vec![]; 3]);
    machine.made = 9;
    machine.clock = 10;
    machine.last_serial = 50;
    machine.facilities[0].in_use = 1;
    machine.facilities[0].holder = Some(2);
    machine.facilities[0].preempted = preempted;
    if let Some(priority) = priority {
        machine.fel.push(Event {
            move_time: 17,
            transaction: waiter(2, 2, priority),
        });
    }
    machine
}

#[test]
fn preempt_enters_an_idle_facility() {
    let mut machine = Machine::start(
        PREEMPT_RULES,
        model(vec![PREEMPT, terminate(1)]),
        vec![vec![]; 3],
    );
    assert_eq!(machine.execute(waiter(3, 1, 0)), Done::Entered);
    let facility = &machine.facilities[0];
    assert_eq!((facility.in_use, facility.holder), (1, Some(3)));
    assert!(facility.preempted && machine.interrupted.is_empty());
    assert_eq!(facility.entries, 1);
    assert_eq!(machine.moving.unwrap().next_block, 2);
}

#[test]
fn preempt_interrupts_a_holder_of_lower_priority_on_the_fel() {
    let blocks = vec![PREEMPT, terminate(1)];
    let mut machine = held(blocks.clone(), false, Some(4));
    assert_eq!(machine.execute(waiter(3, 1, 5)), Done::Entered);
    assert!(machine.fel.is_empty());
    assert_eq!(machine.interrupted.len(), 1);
    let one = &machine.interrupted[0];
    assert_eq!((one.facility, one.remaining), (1, 7));
    assert_eq!(one.transaction.number, 2);
    assert_eq!(machine.facilities[0].holder, Some(3));
    // Equal priority, nobody on the FEL, a preempted facility: it waits.
    for (preempted, priority) in [(false, Some(5)), (false, None), (true, Some(0))] {
        let mut machine = held(blocks.clone(), preempted, priority);
        assert_eq!(machine.execute(waiter(3, 1, 5)), Done::BeganToWait);
        assert_eq!(numbers(&machine.facilities[0].ql), [3]);
        assert_eq!(machine.facilities[0].waits_begun, 1);
        assert_eq!(machine.facilities[0].holder, Some(2));
    }
}

#[test]
fn return_gives_back_to_the_interrupted_holder() {
    let mut machine = held(vec![RETURN, terminate(1)], true, None);
    machine.facilities[0].holder = Some(3);
    machine.facilities[0].ql.push(waiter(5, 1, 0));
    machine.interrupted.push(Interrupted {
        facility: 1,
        remaining: 7,
        transaction: waiter(2, 2, 0),
    });
    assert_eq!(machine.execute(waiter(3, 1, 5)), Done::Entered);
    let facility = &machine.facilities[0];
    assert_eq!((facility.in_use, facility.holder), (1, Some(2)));
    assert!(!facility.preempted && machine.interrupted.is_empty());
    assert_eq!(facility.entries, 0);
    // Nobody on the QL is woken; the holder stands on the FEL with a fresh serial.
    assert_eq!(numbers(&facility.ql), [5]);
    assert!(machine.rel.is_empty());
    let event = &machine.fel[0];
    assert_eq!((event.move_time, event.transaction.serial), (17, 51));
}

#[test]
fn return_without_an_interrupted_one_acts_as_release() {
    let mut machine = held(vec![RETURN, terminate(1)], true, None);
    machine.facilities[0].holder = Some(3);
    machine.facilities[0].ql.push(waiter(5, 1, 0));
    machine.facilities[0].wel[0].push(waiter(6, 1, 0));
    assert_eq!(machine.execute(waiter(3, 1, 5)), Done::Entered);
    let facility = &machine.facilities[0];
    assert_eq!((facility.in_use, facility.holder), (0, None));
    assert!(!facility.preempted);
    assert_eq!(numbers(&machine.rel), [5, 6]);
}

#[test]
fn the_questions_of_return() {
    let blocks = vec![RETURN, terminate(1)];
    let mut idle = held(blocks.clone(), false, None);
    idle.facilities[0].in_use = 0;
    idle.facilities[0].holder = None;
    assert_eq!(idle.execute(waiter(3, 1, 0)), Done::Stopped(24));
    // Seized, by its own holder too; preempted by another.
    let mut seized = held(blocks.clone(), false, None);
    assert_eq!(seized.execute(waiter(2, 1, 0)), Done::Stopped(27));
    let mut another = held(blocks.clone(), true, None);
    assert_eq!(another.execute(waiter(3, 1, 0)), Done::Stopped(27));
    // 22 after 27, with the clock limit itself allowed.
    let late = |remaining: u64, number: u64| {
        let mut machine = held(blocks.clone(), true, None);
        machine.interrupted.push(Interrupted {
            facility: 1,
            remaining,
            transaction: waiter(7, 2, 0),
        });
        machine.execute(waiter(number, 1, 0))
    };
    let limit = Rules::BASE.max_clock() - 10;
    assert_eq!(late(limit, 2), Done::Entered);
    assert_eq!(late(limit + 1, 2), Done::Stopped(22));
    assert_eq!(late(limit + 1, 3), Done::Stopped(27));
}

#[test]
fn release_of_a_preempted_facility_is_27_even_by_its_holder() {
    let blocks = vec![RELEASE, terminate(1)];
    let mut machine = held(blocks.clone(), true, None);
    assert_eq!(machine.execute(waiter(2, 1, 0)), Done::Stopped(27));
    // Also where request 6's questions are not asked.
    let mut machine = held(blocks.clone(), true, None);
    machine.rules.holders = false;
    assert_eq!(machine.execute(waiter(2, 1, 0)), Done::Stopped(27));
    let mut machine = held(blocks.clone(), false, None);
    machine.rules.holders = false;
    assert_eq!(machine.execute(waiter(3, 1, 0)), Done::Entered);
    let mut machine = held(blocks, false, None);
    assert_eq!(machine.execute(waiter(2, 1, 0)), Done::Entered);
}

#[test]
fn terminate_with_a_preempted_facility_is_28() {
    let mut machine = held(vec![terminate(1)], true, None);
    assert_eq!(machine.execute(waiter(2, 1, 0)), Done::Stopped(28));
}

#[test]
fn a_crane_taken_over_and_given_back() {
    // 1 seizes at 0 for 10; 2 takes over at 4 for 3; 1 goes on from 7 with 6 left.
    let blocks = vec![
        generate(1),
        SEIZE,
        advance(2),
        RELEASE,
        terminate(1),
        generate_at(3, 1),
        PREEMPT,
        advance(2),
        RETURN,
        terminate(1),
    ];
    let tape = vec![vec![0], vec![10, 3], vec![4]];
    let ran = run_under(PREEMPT_RULES, &model(blocks.clone()), &tape, 100, 1_000);
    assert_eq!(
        ran.records,
        [
            [0, 1, 1, 0],
            [0, 1, 2, 0],
            [0, 1, 3, 0],
            [4, 2, 6, 0],
            [4, 2, 7, 0],
            [4, 2, 8, 0],
            [7, 2, 9, 0],
            [7, 2, 10, 0],
            [13, 1, 4, 0],
            [13, 1, 5, 0],
        ]
    );
    // Two entries, in use all the time.
    assert_eq!(ran.facility(), [2, 13, 0, 0, 0]);
    // Stopped in between: the interrupted one is in place 8.
    let ran = run_under(PREEMPT_RULES, &model(blocks), &tape, 6, 1_000);
    assert_eq!(ran.living(), [(1, 8), (2, 4)]);
}

#[test]
fn a_holder_with_0_ticks_left_can_be_interrupted() {
    // 2 waits until the facility is in use; 1 seizes it and stays 0 ticks.
    let blocks = vec![
        generate_at(1, 0),
        SEIZE,
        advance(2),
        RELEASE,
        terminate(1),
        generate_at(3, 1),
        wait_status(2),
        PREEMPT,
        RETURN,
        terminate(1),
    ];
    let tape = vec![vec![5], vec![0], vec![1]];
    let ran = run_under(PREEMPT_RULES, &model(blocks), &tape, 100, 1_000);
    let expected = [
        (2, 6, 0),
        (2, 7, 1),
        (1, 1, 0),
        (1, 2, 0),
        (1, 3, 0),
        (2, 7, 0),
        (2, 8, 0),
        (2, 9, 0),
        (2, 10, 0),
        (1, 4, 0),
        (1, 5, 0),
    ];
    assert_eq!(ran.steps(), expected);
    assert_eq!(ran.outcome.clock, 5);
}

#[test]
fn a_preempt_may_overtake_an_equal_seize() {
    // 2 waits to SEIZE and 3, later, at PREEMPT, of equal priority. The holder, now
    // of lower priority, gives the facility back twice and keeps it: 2 is put
    // back, 3 takes it over. So the order is claimed where no PREEMPT names it.
    let blocks = vec![
        generate_at(1, 1),
        SEIZE,
        advance(2),
        priority(0),
        RELEASE,
        SEIZE,
        RELEASE,
        SEIZE,
        advance(2),
        RELEASE,
        terminate(1),
        generate_at(3, 1),
        SEIZE,
        RELEASE,
        terminate(1),
        generate_at(4, 1),
        PREEMPT,
        RETURN,
        terminate(1),
    ];
    let mut model = model(blocks);
    model.lists = 4;
    let tape = vec![vec![0], vec![10, 10], vec![1], vec![2]];
    let ran = run_under(PREEMPT_RULES, &model, &tape, 200, 2_000);
    let steps = ran.steps();
    let place = |block: u64, outcome: u64| {
        steps
            .iter()
            .position(|s| s.1 == block && s.2 == outcome)
            .unwrap()
    };
    assert!(place(13, 1) < place(17, 1));
    assert!(place(17, 0) < place(13, 0));
}

#[test]
fn the_numbers_of_kinds_19_and_20() {
    let ask = |rules: Rules, facilities: u8, block: &[u8]| {
        let mut bytes = vec![1, facilities, 0, 0, 0, 0, 1, 2];
        bytes.extend(block);
        refusal_under(rules, &bytes, &[])
    };
    for kind in [19, 20] {
        assert_eq!(ask(PREEMPT_RULES, 1, &[kind, 1, 3, 1]), 0);
        assert_eq!(ask(PREEMPT_RULES, 1, &[kind, 2]), 4);
        assert_eq!(ask(PREEMPT_RULES, 1, &[kind, 0]), 4);
        assert_eq!(ask(PREEMPT_RULES, 0, &[kind, 1]), 4);
        assert_eq!(ask(PREEMPT_RULES, 1, &[kind]), 3);
        assert_eq!(ask(Rules::BASE, 1, &[kind, 1, 3, 1]), 4);
    }
    assert_eq!(ask(Rules::ALL, 1, &[21, 1]), 4);
}

#[test]
fn the_account_finds_what_cannot_be_taken_over() {
    let blocks = vec![
        generate_at(1, 0),
        SEIZE,
        PREEMPT,
        RETURN,
        advance(2),
        priority(3),
        terminate(1),
    ];
    let model = model(blocks);
    let errors = |records: &[[u64; 4]]| {
        let mut trace = vec![0; 1_000];
        let mut used = 0;
        for record in records {
            used += write_record_with(PREEMPT_RULES, &mut trace[used..], *record).unwrap();
        }
        let mut account =
            Account::new(PREEMPT_RULES, &model, &vec![vec![0, 0, 0], vec![1], vec![]]);
        account.read(&trace[..used]);
        account.errors.len()
    };
    let start = [[0, 1, 1, 0], [0, 1, 2, 0], [0, 2, 1, 0], [0, 2, 6, 0]];
    let with = |rest: &[[u64; 4]]| errors(&[&start, rest].concat());
    assert_eq!(with(&[[1, 2, 3, 0], [2, 2, 4, 0], [3, 1, 5, 0]]), 0);
    assert_eq!(with(&[[1, 2, 3, 0], [1, 1, 5, 0]]), 1); // 1 is interrupted
    assert_eq!(with(&[[1, 3, 3, 0]]), 1); // of equal priority
    assert_eq!(with(&[[1, 2, 3, 0], [1, 3, 6, 0], [1, 3, 3, 0]]), 1); // again
    assert_eq!(with(&[[1, 1, 4, 0]]), 1); // RETURN of a seized one
}

#[test]
fn the_claims_find_one_interrupted_who_belongs_nowhere() {
    let start = Machine::start(
        PREEMPT_RULES,
        model(vec![generate(1), PREEMPT, terminate(1)]),
        vec![vec![1], vec![], vec![]],
    );
    let mut machine = start.clone();
    let lone = machine.fel.remove(0).transaction;
    machine.interrupted.push(Interrupted {
        facility: 1,
        remaining: 1,
        transaction: lone,
    });
    let mut claims = Claims::new(&start);
    claims.before_turn(&machine, &[]);
    assert_eq!(claims.errors.len(), 1);
}

#[test]
fn claims_hold_with_preempting() {
    for (rules, seed) in [(PREEMPT_RULES, 141), (Rules::ALL, 142)] {
        let mut random = Random::new(seed);
        for number in 0..1_200 {
            let case = match number % 6 {
                0 => case_with(rules, &mut random, Size::Full),
                1 => preempt::case(rules, &mut random, Size::Full),
                _ => preempt::case(rules, &mut random, Size::Small),
            };
            if let Err(errors) = check_with(rules, &case) {
                panic!("case {number}: {errors:?}\n{case:?}");
            }
        }
    }
}

#[test]
fn cases_with_preempting_cover_it() {
    let coverage = Coverage::of(Rules::ALL, &mut Random::new(143), Size::Small, 12_000);
    assert_eq!(coverage.empty_cells(), [""; 0]);
    let mut random = Random::new(145);
    let mut coverage = Coverage::default();
    coverage.rules = Rules::ALL;
    for _ in 0..300 {
        let case = preempt::case(Rules::ALL, &mut random, Size::Full);
        let mut trace = vec![0; case.trace_len];
        let mut report = vec![0; case.report_len];
        coverage.run(&case, &mut trace, &mut report);
    }
    assert_eq!(coverage.most_interrupted, 2);
}

#[test]
fn all_requests_keep_the_runs_of_older_models() {
    // Models of document 01 that end neither with 22, 27 nor 28 nor differ in holders.
    let mut random = Random::new(144);
    let without = Rules {
        holders: false,
        ..Rules::ALL
    };
    let mut kept = 0;
    for number in 0..1_500 {
        let case = case_with(Rules::BASE, &mut random, Size::Small);
        let before = everything(Rules::BASE, &case);
        if before.0.refusal == 0 && before.0.end != 22 {
            assert!(before == everything(without, &case), "case {number}");
            kept += 1;
        }
    }
    assert!(kept > 800);
}
