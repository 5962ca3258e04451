//! Two plants as one model (02, item 13).

mod common;
use common::*;
use reference::decode::decode_model_with;
use reference::generate::fields::{encode_model, encode_tape};
use reference::generate::pairs::{call, clockless};
use reference::generate::random::Random;
use reference::join::{join_models, join_with, part_records, uses_clock};
use reference::model::{Block, Model, Term};
use reference::tape::Tape;
use reference::Rules;
use std::collections::BTreeMap;

type Pair = (Vec<u8>, Vec<u8>);

fn bytes(model: &Model, tape: &Tape) -> Pair {
    (encode_model(model), encode_tape(tape))
}

fn join(first: &Pair, second: &Pair, rooms: (usize, usize)) -> Result<Pair, u32> {
    let mut model = vec![0xA5; rooms.0];
    let mut tape = vec![0xA5; rooms.1];
    let answer = join_with(
        Rules::ALL,
        (&first.0, &first.1),
        (&second.0, &second.1),
        &mut model,
        &mut tape,
    );
    let lengths = answer.unwrap_or((0, 0));
    let rest = model[lengths.0..].iter().chain(&tape[lengths.1..]);
    assert!(rest.copied().all(|byte| byte == 0xA5));
    model.truncate(lengths.0);
    tape.truncate(lengths.1);
    answer.map(|_| (model, tape))
}

const MUCH: (usize, usize) = (20_000, 200_000);

/// One of everything that is numbered.
fn plant() -> (Model, Tape) {
    let blocks = vec![
        generate(1),
        SEIZE,
        advance(2),
        RELEASE,
        enter(2),
        leave(1),
        wait_status(1),
        wait_status(6),
        wait_while(Term::Content(1), 5, Term::Entries(3)),
        Block::If {
            comparison: compare(Term::Value(2), 1, Term::FacilityInUse(1)),
            target: 2,
        },
        let_parameter(1, Term::UnitsFree(1)),
        split(2, 13),
        ARRIVE,
        DEPART,
        Block::WaitIfStatus { code: 3, server: 1 },
        Block::WaitJoined {
            code: 2,
            server: 1,
            back: 1,
        },
        Block::Assemble { count: 2 },
        Block::Preempt { facility: 1 },
        Block::Return { facility: 1 },
        priority(4),
        goto(2),
    ];
    let mut model = model(blocks);
    let inner = Term::Bracket(sum(vec![plus(Term::Value(1)), minus(Term::UnitsInUse(1))]));
    let two = Term::Comparison(Box::new(compare(inner, 2, Term::Entries(21))));
    model.values = vec![
        sum(vec![plus(Term::MinusConstant(0)), minus(Term::Content(1))]),
        sum(vec![minus(two), plus(Term::Parameter(3))]),
    ];
    (model, vec![vec![1, 2], vec![3], vec![]])
}

#[test]
fn the_second_is_numbered_on() {
    let (model, tape) = plant();
    let joined = join_models(&model, &model).unwrap();
    assert_eq!((joined.facilities, joined.queues, joined.lists), (2, 2, 6));
    assert_eq!((joined.counter, joined.capacities.len()), (200, 2));
    assert_eq!(joined.blocks[..21], model.blocks);
    assert_eq!(joined.values[..2], model.values);
    let second = &joined.blocks[21..];
    assert_eq!(second[0], generate(4));
    assert_eq!(second[1], Block::Seize { facility: 2 });
    assert_eq!(second[2], advance(5));
    assert_eq!(second[3], Block::Release { facility: 2 });
    assert_eq!(
        second[4],
        Block::Enter {
            storage: 2,
            units: 2
        }
    );
    assert_eq!(second[6], Block::WaitIfStatus { code: 1, server: 2 });
    assert_eq!(second[7], Block::WaitIfStatus { code: 6, server: 2 });
    assert_eq!(
        second[8],
        wait_while(Term::Content(2), 5, Term::Entries(24))
    );
    assert_eq!(
        second[9],
        Block::If {
            comparison: compare(Term::Value(4), 1, Term::FacilityInUse(2)),
            target: 23,
        }
    );
    assert_eq!(second[10], let_parameter(1, Term::UnitsFree(2)));
    assert_eq!(second[11], split(2, 34));
    assert_eq!(second[12], Block::Arrive { queue: 2 });
    assert_eq!(
        second[15],
        Block::WaitJoined {
            code: 2,
            server: 2,
            back: 1
        }
    );
    assert_eq!(second[16], Block::Assemble { count: 2 });
    assert_eq!(second[17], Block::Preempt { facility: 2 });
    assert_eq!(second[18], Block::Return { facility: 2 });
    assert_eq!(second[19..], [priority(4), goto(23)]);
    let inner = Term::Bracket(sum(vec![plus(Term::Value(3)), minus(Term::UnitsInUse(2))]));
    let two = Term::Comparison(Box::new(compare(inner, 2, Term::Entries(42))));
    assert_eq!(
        joined.values[2..],
        [
            sum(vec![plus(Term::MinusConstant(0)), minus(Term::Content(2))]),
            sum(vec![minus(two), plus(Term::Parameter(3))]),
        ]
    );
    // The bytes: a minus constant 0 stays one, tapes are laid end to end.
    let pair = bytes(&model, &tape);
    let (joined_model, joined_tape) = join(&pair, &pair, MUCH).unwrap();
    assert_eq!(joined_model, encode_model(&joined));
    assert_eq!(joined_tape, [&pair.1[..], &pair.1].concat());
    assert_eq!(refusal_under(Rules::ALL, &joined_model, &joined_tape), 0);
}

#[test]
fn the_answers_in_their_order() {
    let (model, tape) = plant();
    let good = bytes(&model, &tape);
    let bad_model = (vec![0x80], good.1.clone());
    let bad_both = (vec![0], vec![0x80]);
    let bad_tape = (good.0.clone(), vec![0x80]);
    let short_tape = (good.0.clone(), [&good.1[..], &[7]].concat());
    let ask = |first: &Pair, second: &Pair| join(first, second, (0, 0)).unwrap_err();
    assert_eq!(ask(&bad_model, &bad_tape), 3);
    assert_eq!(ask(&bad_both, &bad_model), 4);
    assert_eq!(ask(&bad_tape, &bad_model), 8);
    assert_eq!(ask(&good, &bad_model), 3);
    assert_eq!(ask(&good, &bad_tape), 8);
    assert_eq!(ask(&good, &short_tape), 10);
    assert_eq!(ask(&short_tape, &bad_model), 10);
    assert_eq!(ask(&good, &good), 62);
    let (long, laid) = join(&good, &good, MUCH).unwrap();
    assert!(join(&good, &good, (long.len(), laid.len())).is_ok());
    assert_eq!(join(&good, &good, (long.len() - 1, laid.len())), Err(62));
    assert_eq!(join(&good, &good, (long.len(), laid.len() - 1)), Err(62));
    // 61 after the second's tape, before 62.
    let mut other = model.clone();
    other.edition = 2;
    let other = bytes(&other, &tape);
    assert_eq!(ask(&good, &other), 61);
    assert_eq!(ask(&other, &other), 62);
    assert_eq!(ask(&good, &(other.0, vec![0x80])), 8);
}

#[test]
fn counts_past_their_limits_are_61() {
    let plain = model(vec![terminate(1)]);
    let lists = vec![vec![]; 3];
    let ask = |change: &dyn Fn(&mut Model, &mut Tape)| {
        let mut large = plain.clone();
        let mut tape = lists.clone();
        change(&mut large, &mut tape);
        let (small, large) = (bytes(&plain, &lists), bytes(&large, &tape));
        let [one, two] = [join(&small, &large, MUCH), join(&large, &small, MUCH)];
        assert_eq!(one.clone().err(), two.err());
        one.err().unwrap_or(0)
    };
    assert_eq!(ask(&|_, _| {}), 0);
    assert_eq!(ask(&|m, _| m.facilities = 31), 0);
    assert_eq!(ask(&|m, _| m.facilities = 32), 61);
    assert_eq!(ask(&|m, _| m.capacities = vec![1; 31]), 0);
    assert_eq!(ask(&|m, _| m.capacities = vec![1; 32]), 61);
    assert_eq!(ask(&|m, _| m.queues = 31), 0);
    assert_eq!(ask(&|m, _| m.queues = 32), 61);
    let value = |count: usize| vec![sum(vec![plus(Term::Constant(1))]); count];
    assert_eq!(ask(&|m, _| m.values = value(8)), 0);
    let set_lists = |count: u32| {
        move |m: &mut Model, tape: &mut Tape| {
            m.lists = count;
            *tape = vec![vec![]; count as usize];
        }
    };
    assert_eq!(ask(&set_lists(13)), 0);
    assert_eq!(ask(&set_lists(14)), 61);
    assert_eq!(ask(&|m, _| m.counter = 65_435), 0);
    assert_eq!(ask(&|m, _| m.counter = 65_436), 61);
    assert_eq!(ask(&|m, _| m.blocks = vec![terminate(1); 255]), 0);
    assert_eq!(ask(&|m, _| m.blocks = vec![terminate(1); 256]), 61);
    let mut eight = plain.clone();
    eight.values = value(8);
    let mut one = plain.clone();
    one.values = value(1);
    assert!(join_models(&eight, &one).is_none());
    assert!(join_models(&one, &eight).is_none());
}

/// A dry run's records, or `None`.
fn dry(model: &Model, tape: &Tape) -> Option<Vec<[u64; 4]>> {
    let ran = run_under(Rules::ALL, model, tape, 20_000, 120_000);
    (ran.outcome.end == 1).then_some(ran.records)
}

#[test]
fn the_parts_of_a_dry_joined_run_are_the_runs_alone() {
    let mut random = Random::new(151);
    let mut held = 0;
    let mut records = 0;
    let mut plants: Vec<(Model, Tape, Vec<[u64; 4]>)> = Vec::new();
    for _ in 0..2_500 {
        let (model, tape) = clockless(Rules::ALL, &mut random);
        assert!(!uses_clock(&model));
        if let Some(alone) = dry(&model, &tape) {
            plants.push((model, tape, alone));
        }
    }
    for number in 1..plants.len() {
        let (first, second) = (&plants[number - 1], &plants[number]);
        let several = |model: &Model| model.edition == 2 && model.moves_several_units();
        if several(&first.0) != several(&second.0) {
            continue;
        }
        let Some(joined) = join_models(&first.0, &second.0) else {
            continue;
        };
        let tape = [&first.1[..], &second.1].concat();
        let Some(both) = dry(&joined, &tape) else {
            continue;
        };
        let middle = first.0.blocks.len() as u64;
        let last = joined.blocks.len() as u64;
        assert!(part_records(&both, 0..middle) == first.2, "pair {number}");
        assert!(
            part_records(&both, middle..last) == second.2,
            "pair {number}"
        );
        held += 1;
        records += both.len();
    }
    assert!(held > 200 && records > 5_000, "{held} pairs, {records}");
}

#[test]
fn a_clock_term_breaks_the_conclusion() {
    // A wait on the clock is asked again only after a turn; the other plant has turns.
    let waits = vec![
        generate(1),
        wait_while(Term::Clock, 3, Term::Constant(5)),
        terminate(0),
    ];
    let first = (model(waits), vec![vec![0, 10], vec![], vec![]]);
    let second = (
        model(vec![generate(1), terminate(0)]),
        vec![vec![7], vec![], vec![]],
    );
    assert!(uses_clock(&first.0));
    let alone = dry(&first.0, &first.1).unwrap();
    let joined = join_models(&first.0, &second.0).unwrap();
    let both = dry(&joined, &[first.1, second.1].concat()).unwrap();
    let part = part_records(&both, 0..3);
    assert_eq!(alone[2], [10, 2, 1, 0]);
    assert_eq!(part[2], [7, 1, 2, 0]);
}

/// What a joined model of these would pass: the edition or a limit.
fn obstacles(first: &Model, second: &Model) -> Vec<&'static str> {
    let past = |one: usize, other: usize, limit: u32| one + other > limit as usize;
    let whole = |one: u32, other: u32, limit: u32| past(one as usize, other as usize, limit);
    let (a, b) = (first, second);
    let found = [
        ("edition", a.edition != b.edition),
        (
            "facilities",
            whole(a.facilities, b.facilities, Model::MAX_FACILITIES),
        ),
        (
            "storages",
            past(a.capacities.len(), b.capacities.len(), Model::MAX_STORAGES),
        ),
        ("queues", whole(a.queues, b.queues, Model::MAX_QUEUES)),
        (
            "values",
            past(a.values.len(), b.values.len(), Model::MAX_VALUES),
        ),
        ("lists", whole(a.lists, b.lists, Model::MAX_LISTS)),
        ("counter", whole(a.counter, b.counter, Model::MAX_COUNTER)),
        (
            "blocks",
            past(a.blocks.len(), b.blocks.len(), Model::MAX_BLOCKS),
        ),
    ];
    let is = found.iter().filter(|(_, is)| *is);
    is.map(|(name, _)| *name).collect()
}

#[test]
fn random_calls_meet_every_answer_and_joined_pairs_are_accepted() {
    let mut random = Random::new(152);
    let mut met = BTreeMap::new();
    let mut causes = BTreeMap::new();
    for _ in 0..6_000 {
        let call = call(Rules::ALL, &mut random);
        let rooms = (call.model_room, call.tape_room);
        let answer = join(&call.first, &call.second, rooms);
        let most = call.first.0.len() + 2 * call.second.0.len();
        let laid = call.first.1.len() + call.second.1.len();
        match &answer {
            Ok((model, tape)) => {
                assert_eq!(refusal_under(Rules::ALL, model, tape), 0);
                assert!(model.len() <= most && tape.len() == laid);
            }
            Err(61) => {
                let decoded = |pair: &Pair| decode_model_with(Rules::ALL, &pair.0).unwrap();
                let found = obstacles(&decoded(&call.first), &decoded(&call.second));
                assert!(!found.is_empty());
                if let [alone] = found[..] {
                    *causes.entry(alone).or_insert(0) += 1;
                }
            }
            Err(62) => {
                let (model, tape) = join(&call.first, &call.second, (most, laid)).unwrap();
                let short = (rooms.0 < model.len(), rooms.1 < tape.len());
                let name = match short {
                    (true, true) => "both rooms",
                    (true, false) => "room of the model",
                    (false, true) => "room of the tape",
                    (false, false) => panic!("62 with room for both"),
                };
                *causes.entry(name).or_insert(0) += 1;
            }
            Err(_) => {}
        }
        *met.entry(answer.err().unwrap_or(0)).or_insert(0) += 1;
    }
    for answer in [0, 3, 4, 5, 6, 7, 8, 9, 10, 61, 62] {
        assert!(met.contains_key(&answer), "{answer}: {met:?}");
    }
    assert!(met[&0] > 500 && met[&61] > 100 && met[&62] > 100, "{met:?}");
    // Each cause of 61 alone, and 62 by either room alone and by both.
    assert!(causes.len() == 11, "{causes:?}");
}
