//! The 1996 rules (02, item 12), each case with what the papers give: refusal,
//! end, clock, turns, records and made; then who ended, in that order.

use super::first_example;
use crate::generate::fields::{encode_model, encode_tape};
use crate::generate::Case;
use crate::model::{Block, Model};

/// Refusal, end, clock, turns, records, made.
pub type Wanted = [u64; 6];

pub type Given = (Case, Wanted, Vec<u64>);

pub fn cases() -> Vec<Given> {
    let mut cases = editions();
    cases.extend(turned_round());
    cases.extend(broken_order());
    cases.extend(woken());
    cases.extend(never_woken());
    cases.extend(other_requests());
    cases
}

fn of(edition: u32, capacity: u32, blocks: Vec<Block>, tape: &[Vec<u64>]) -> Case {
    let model = Model {
        edition,
        facilities: 2,
        capacities: vec![capacity],
        queues: 0,
        values: Vec::new(),
        lists: tape.len() as u32,
        counter: 100,
        blocks,
    };
    Case {
        model: encode_model(&model),
        tape: encode_tape(&tape.to_vec()),
        ..first_example()
    }
}

fn generate(list: u32, priority: u32) -> Block {
    Block::Generate { list, priority }
}

const SEIZE: Block = Block::Seize { facility: 1 };
const RELEASE: Block = Block::Release { facility: 1 };
const END: Block = Block::Terminate { amount: 1 };

fn advance(list: u32) -> Block {
    Block::Advance { list }
}

fn enter(units: u32) -> Block {
    let storage = 1;
    Block::Enter { storage, units }
}

fn leave(units: u32) -> Block {
    let storage = 1;
    Block::Leave { storage, units }
}

/// Edition 1 or 2, else 4; padded, 3. The first example has one waiter at a time:
/// both editions run it alike.
fn editions() -> Vec<Given> {
    let first = |front: &[u8]| {
        let case = first_example();
        let model = [front, &case.model[1..]].concat();
        Case { model, ..case }
    };
    let refused = |number: u64| [number, 0, 0, 0, 0, 0];
    let ran = [0, 2, 12, 11, 11, 2];
    vec![
        (first(&[0]), refused(4), vec![]),
        (first(&[1]), ran, vec![1, 2]),
        (first(&[2]), ran, vec![1, 2]),
        (first(&[3]), refused(4), vec![]),
        (first(&[127]), refused(4), vec![]),
        (first(&[0x81, 0]), refused(4), vec![]),
        (first(&[0x80, 2]), refused(3), vec![]),
    ]
}

/// Who has the server gives it back and takes it again twice at 10, so that both
/// waiters are woken and put back, the second before the first.
fn turned_round() -> Vec<Given> {
    let wait = Block::WaitIfStatus { code: 1, server: 1 };
    let scene = |take: &Block, give: &Block, wait: Block, on: &[Block]| {
        let again = [give.clone(), take.clone()];
        let mut blocks = vec![generate(1, 0), take.clone(), advance(2)];
        blocks.extend([&again[..], &again, &[advance(2), give.clone(), END]].concat());
        blocks.extend([generate(3, 0), wait]);
        blocks.extend([on, &[END]].concat());
        blocks
    };
    let serve = [advance(2), RELEASE];
    let leave_again = [advance(2), leave(1)];
    let times = [vec![0], vec![10, 10, 5, 5], vec![1, 1]];
    let facility = scene(&SEIZE, &RELEASE, SEIZE, &serve);
    let storage = scene(&enter(1), &leave(1), enter(1), &leave_again);
    let status = scene(&SEIZE, &RELEASE, wait, &[]);
    let mut cases = Vec::new();
    // Edition 1's last LEAVE wakes both, and one is put back once more.
    for (edition, order, more) in [(1, vec![1, 2, 3], 1), (2, vec![1, 3, 2], 0)] {
        let at = |blocks: &[Block]| of(edition, 1, blocks.to_vec(), &times);
        cases.push((at(&facility), [0, 1, 30, 24, 22, 3], order.clone()));
        cases.push((at(&storage), [0, 1, 30, 24 + more, 22, 3], order.clone()));
        cases.push((at(&status), [0, 1, 20, 20, 18, 3], order));
    }
    cases
}

/// Transaction 2, of priority 0, is woken at 10; 3, of priority 5, comes at 10 and
/// waits before it is put back: at the very front under edition 2, QL 2, 3. Then 4
/// (2), 5 (0) and 6 (7) come: 6, 2, 3, 4, 5, where edition 1 has 6, 3, 4, 2, 5.
fn broken_order() -> Vec<Given> {
    let mut blocks = vec![generate(1, 9), SEIZE, advance(2), RELEASE, SEIZE];
    blocks.extend([advance(2), RELEASE, END]);
    for (list, priority) in [(3, 0), (4, 5), (5, 2), (6, 0), (7, 7)] {
        blocks.push(generate(list, priority));
        blocks.extend([SEIZE, advance(2), RELEASE, END]);
    }
    let mut times = vec![vec![0], vec![10, 10, 1, 1, 1, 1, 1]];
    times.extend([1, 10, 11, 12, 13].map(|clock| vec![clock]));
    [(1, vec![1, 6, 3, 4, 2, 5]), (2, vec![1, 6, 2, 3, 4, 5])]
        .into_iter()
        .map(|(edition, order)| {
            let case = of(edition, 1, blocks.clone(), &times);
            (case, [0, 1, 25, 39, 38, 6], order)
        })
        .collect()
}

/// One takes all 9 units at 0 and gives so many back at 20; waiters of these units
/// came at 1, 2, 3.., and who enters keeps its units.
fn leave_of(edition: u32, units: u32, waiting: &[u32]) -> Case {
    let mut blocks = vec![generate(1, 0), enter(9), advance(2), leave(units), END];
    let mut times = vec![vec![0], vec![20]];
    for (at, units) in waiting.iter().enumerate() {
        blocks.extend([generate(at as u32 + 3, 0), enter(*units), END]);
        times.push(vec![at as u64 + 1]);
    }
    of(edition, 9, blocks, &times)
}

/// LEAVE, cases b(i) and b(ii): a row is the units given back, those of the
/// waiters, and who is woken, all of whom enter.
fn woken() -> Vec<Given> {
    let rows: [(u32, &[u32], &[u64]); 14] = [
        (1, &[1, 1, 1], &[1]),
        (1, &[2, 1, 1], &[2]),
        (1, &[2, 3], &[]),
        (1, &[], &[]),
        (3, &[3, 1], &[1]),          // equal: it goes and all is done
        (3, &[4, 3], &[2]),          // less: the next
        (3, &[2, 2, 1, 1], &[1, 3]), // more: taken off, and on
        (4, &[1, 5, 2, 3, 1, 1], &[1, 3, 5]),
        (2, &[3, 3], &[]),
        (5, &[1, 1], &[1, 2]), // more than all of them
        (2, &[1, 2, 1], &[1, 3]),
        (9, &[9], &[1]),
        (9, &[4, 4, 4, 1], &[1, 2, 4]),
        (8, &[9, 8, 1], &[2]),
    ];
    rows.into_iter()
        .map(|(units, waiting, woken)| {
            let (came, went) = (waiting.len() as u64, woken.len() as u64);
            let records = 5 + 2 * came + 2 * went;
            let clock = 20;
            let wanted = [0, 1, clock, records, records, 1 + came];
            // The waiters are made in the order of their blocks, behind the first.
            let ended = [1].into_iter().chain(woken.iter().map(|who| who + 1));
            (leave_of(2, units, waiting), wanted, ended.collect())
        })
        .collect()
}

/// Case a: all of one unit, so that a LEAVE wakes the first alone; edition 1 wakes
/// all, and puts back those that find it full. Then units that fit, yet nobody is
/// woken: two LEAVEs of 1 and an ENTER of 2; the same units given back at once.
fn never_woken() -> Vec<Given> {
    let one = |list: u32, on: &[Block]| {
        let front = [generate(list, 0), enter(1)];
        [&front, on].concat()
    };
    let serve = [advance(2), leave(1), END];
    let single = one(1, &serve);
    let several = [vec![0, 1, 1, 1], vec![10; 4]];
    let mut cases = Vec::new();
    for (edition, turns) in [(1, 26), (2, 23)] {
        let case = of(edition, 1, single.clone(), &several);
        cases.push((case, [0, 1, 40, turns, 23, 4], vec![1, 2, 3, 4]));
    }
    let two = [one(1, &serve), vec![generate(3, 0), enter(2), END]].concat();
    let times = [vec![0, 0], vec![10, 12], vec![5]];
    for (edition, records, order) in [(1, 14, vec![1, 3, 2]), (2, 12, vec![1, 3])] {
        let case = of(edition, 2, two.clone(), &times);
        cases.push((case, [0, 1, 12, records, records, 3], order));
    }
    let both = [generate(1, 0), enter(2), advance(2), leave(2), END];
    let at_once = [&both[..], &[generate(3, 0), enter(2), END]].concat();
    let times = [vec![0], vec![10], vec![5]];
    for edition in [1, 2] {
        let case = of(edition, 2, at_once.clone(), &times);
        cases.push((case, [0, 1, 10, 9, 9, 2], vec![1, 2]));
    }
    cases
}

/// Holders and joined waits are common to both: ends 27 and 28; two ships that go
/// back, the first waking the second.
fn other_requests() -> Vec<Given> {
    let split = |target: u32| Block::Split { copies: 1, target };
    let by_a_copy = vec![generate(1, 0), SEIZE, split(5), advance(2), RELEASE, END];
    let kept = vec![generate(1, 0), SEIZE, END];
    let taker = |list: u32, facility: u32| {
        vec![
            generate(list, 0),
            Block::Seize { facility },
            advance(3),
            Block::Release { facility },
            Block::Terminate { amount: 0 },
        ]
    };
    let mut port = [taker(1, 2), taker(2, 1)].concat();
    port.extend([
        generate(4, 0),
        Block::WaitIfStatus { code: 1, server: 1 },
        Block::WaitJoined {
            code: 1,
            server: 2,
            back: 1,
        },
        END,
    ]);
    // The second facility is in use from 0 to 5, the first from 3 to 8; ships at 1 and 2.
    let ships = [vec![0], vec![3], vec![5, 5], vec![1, 1]];
    let mut cases = Vec::new();
    for edition in [1, 2] {
        let at = |blocks: &[Block], times: &[Vec<u64>]| of(edition, 1, blocks.to_vec(), times);
        let times = [vec![4], vec![9]];
        cases.push((at(&by_a_copy, &times), [0, 27, 4, 5, 4, 2], vec![]));
        cases.push((at(&kept, &times), [0, 28, 4, 3, 2, 1], vec![]));
        cases.push((at(&port, &ships), [0, 1, 8, 26, 24, 4], vec![1, 2, 3, 4]));
    }
    cases
}
