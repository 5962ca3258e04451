//! Joined waits (02, item 7), each case with the refusal, the end, the clock and
//! the counts that the papers give.

use super::{first_example, groups};
use crate::generate::fields::{encode_model, encode_tape};
use crate::generate::Case;
use crate::model::{Block, Model};

/// Refusal, end, clock, turns, records, made, ended.
pub type Wanted = [u64; 7];

pub fn cases() -> Vec<(Case, Wanted)> {
    let mut cases = storm_and_tug();
    cases.extend(limits());
    cases.extend(several_ships());
    cases.extend(asked_first());
    cases.extend(same_clock());
    cases.extend(through_again());
    cases.extend(groups::cases());
    cases
}

pub(super) const STORM: u32 = 1;
pub(super) const TUG: u32 = 2;

pub(super) fn of(counter: u32, blocks: Vec<Block>, tape: &[Vec<u64>]) -> Case {
    let model = Model {
        edition: Model::FIRST_EDITION,
        facilities: 2,
        capacities: vec![4],
        queues: 0,
        values: Vec::new(),
        lists: tape.len() as u32,
        counter,
        blocks,
    };
    Case {
        model: encode_model(&model),
        tape: encode_tape(&tape.to_vec()),
        ..first_example()
    }
}

fn generate(list: u32) -> Block {
    Block::Generate { list, priority: 0 }
}

pub(super) fn terminate(amount: u32) -> Block {
    Block::Terminate { amount }
}

/// "while in use"
pub(super) fn wait(server: u32) -> Block {
    Block::WaitIfStatus { code: 1, server }
}

pub(super) fn joined(server: u32, back: u32) -> Block {
    let code = 1;
    Block::WaitJoined { code, server, back }
}

/// Blocks of one who takes the facility for a time of list 3.
fn holds(list: u32, facility: u32) -> Vec<Block> {
    vec![
        generate(list),
        Block::Seize { facility },
        Block::Advance { list: 3 },
        Block::Release { facility },
        terminate(0),
    ]
}

/// The tug's user (list 1, blocks 1 to 5), the storm (list 2, blocks 6 to 10), then these.
fn port(ships: Vec<Block>) -> Vec<Block> {
    let mut blocks = holds(1, TUG);
    blocks.extend(holds(2, STORM));
    blocks.extend(ships);
    blocks
}

/// A ship (list 4) that waits `back` times for the storm, then for the tug.
fn ship(back: u32, last: Block) -> Vec<Block> {
    let mut blocks = vec![generate(4)];
    blocks.extend(vec![wait(STORM); back as usize]);
    blocks.push(last);
    blocks.push(terminate(1));
    blocks
}

/// The tug is in use from 0 to 5, the storm lasts from 3 to 8, the ship comes at 1.
fn stormy() -> Vec<Vec<u64>> {
    vec![vec![0], vec![3], vec![5, 5], vec![1]]
}

/// It passes the storm's waits at 1, goes back at 5 and leaves at 8; with plain
/// waits it would leave at 5; without a storm it goes back at 5 and leaves.
fn storm_and_tug() -> Vec<(Case, Wanted)> {
    let calm = [vec![0], vec![30], vec![5, 5], vec![1]];
    let mut cases = Vec::new();
    for back in 1..=Model::MAX_BACK {
        let blocks = port(ship(back, joined(TUG, back)));
        let c = u64::from(back);
        let turns = 2 * c + 16;
        let wanted = [0, 2, 8, turns, turns - 1, 3, 3];
        cases.push((of(1, blocks.clone(), &stormy()), wanted));
        let turns = 2 * c + 10;
        cases.push((of(1, blocks, &calm), [0, 2, 5, turns, turns - 1, 3, 2]));
    }
    let plain = port(ship(1, wait(TUG)));
    cases.push((of(1, plain, &stormy()), [0, 2, 5, 13, 13, 3, 2]));
    cases
}

/// Budget and trace asked before and after the turn that goes back, which counts
/// and writes nothing: eleven records stand before it.
fn limits() -> Vec<(Case, Wanted)> {
    let case = of(1, port(ship(1, joined(TUG, 1))), &stormy());
    let limited = |budget: u64, trace_len: usize| Case {
        budget,
        trace_len,
        ..case.clone()
    };
    vec![
        (limited(11, 200), [0, 3, 5, 11, 11, 3, 1]),
        (limited(12, 200), [0, 3, 5, 12, 11, 3, 1]),
        (limited(13, 200), [0, 3, 5, 13, 12, 3, 1]),
        (limited(100, 55), [0, 4, 5, 11, 11, 3, 1]),
        (limited(100, 56), [0, 4, 5, 13, 12, 3, 1]),
    ]
}

/// Who goes back wakes the next on that WEL, of the same group or another, also
/// one who waits at a plain wait; a returner in the middle of its group.
fn several_ships() -> Vec<(Case, Wanted)> {
    let two = [vec![0], vec![3], vec![5, 5], vec![1, 1]];
    let same_group = of(2, port(ship(1, joined(TUG, 1))), &two);
    let mut ships = ship(1, joined(TUG, 1));
    ships.extend([
        generate(5),
        wait(STORM),
        Block::WaitIfStatus { code: 5, server: 1 },
        joined(TUG, 2),
        terminate(1),
    ]);
    let others = [vec![0], vec![3], vec![5, 5], vec![1], vec![2]];
    let two_groups = of(2, port(ships), &others);
    // Storm from 0 to 4, tug in use from 2 to 7: both ships wait for the tug, the
    // first at its joined wait, the second at its first wait.
    let round = vec![
        generate(4),
        wait(TUG),
        wait(STORM),
        joined(TUG, 2),
        terminate(1),
    ];
    let times = [vec![2], vec![0], vec![4, 5], vec![1, 4]];
    let one_wel = of(2, port(round), &times);
    // It waits in the middle alone, and goes back where it comes last without a wait.
    let middle = vec![
        generate(4),
        wait(TUG),
        wait(STORM),
        Block::WaitJoined {
            code: 5,
            server: 1,
            back: 2,
        },
        terminate(1),
    ];
    let times = [vec![2], vec![0], vec![4, 5], vec![1]];
    let no_wait = of(1, port(middle), &times);
    vec![
        (same_group, [0, 2, 8, 26, 24, 4, 4]),
        (two_groups, [0, 2, 8, 28, 26, 4, 4]),
        (one_wel, [0, 2, 7, 26, 25, 4, 4]),
        (no_wait, [0, 2, 7, 20, 19, 3, 3]),
    ]
}

/// The condition comes before the clock: the tug's user takes it again at 5, so
/// that the ship is put back, and goes back at 9.
fn asked_first() -> Vec<(Case, Wanted)> {
    let tug = |block: fn(u32) -> Block| block(TUG);
    let seize = tug(|facility| Block::Seize { facility });
    let release = tug(|facility| Block::Release { facility });
    let blocks = vec![
        generate(1),
        seize.clone(),
        Block::Advance { list: 3 },
        release.clone(),
        seize,
        Block::Advance { list: 3 },
        release,
        terminate(0),
        generate(2),
        wait(STORM),
        joined(TUG, 1),
        terminate(1),
    ];
    let case = of(1, blocks, &[vec![0], vec![1], vec![5, 4]]);
    vec![(case, [0, 2, 9, 16, 14, 2, 2])]
}

/// A clock move by 0 ticks leaves the same clock: it enters. Late clocks of equal
/// or falling low 32 bits are different ones: it goes back.
fn same_clock() -> Vec<(Case, Wanted)> {
    let mut blocks = holds(1, TUG);
    blocks.extend([generate(2), wait(STORM), joined(TUG, 1), terminate(1)]);
    let at = |tug: u64, ship: u64, held: u64| {
        let times = [vec![tug], vec![ship], vec![held]];
        of(1, blocks.clone(), &times)
    };
    let zero = at(1, 1, 0);
    let cut = Case {
        budget: 9,
        ..zero.clone()
    };
    let wide = 1 << 32;
    vec![
        (zero, [0, 2, 1, 10, 10, 2, 2]),
        (cut, [0, 3, 1, 9, 9, 2, 1]),
        (at(0, 0, 0), [0, 2, 0, 10, 10, 2, 2]),
        (
            at(0, 5_000_000_000, 5_000_000_000 + wide),
            [0, 2, 5_000_000_000 + wide, 12, 11, 2, 2],
        ),
        (
            at(0, wide + 5, 2 * wide + 1),
            [0, 2, 2 * wide + 1, 12, 11, 2, 2],
        ),
    ]
}

/// Round and round through a group, with an ADVANCE between; two groups one behind
/// the other; a copy of one that came through a group, at the first of another.
fn through_again() -> Vec<(Case, Wanted)> {
    let round = vec![
        generate(1),
        wait(STORM),
        joined(TUG, 1),
        Block::Advance { list: 2 },
        Block::Goto { target: 2 },
    ];
    let two = vec![
        generate(1),
        wait(STORM),
        joined(TUG, 1),
        wait(TUG),
        wait(STORM),
        joined(TUG, 2),
        terminate(1),
    ];
    let copied = vec![
        generate(1),
        wait(STORM),
        joined(TUG, 1),
        Block::Split {
            copies: 1,
            target: 6,
        },
        terminate(1),
        wait(STORM),
        joined(TUG, 1),
        terminate(1),
    ];
    vec![
        (
            of(1, round, &[vec![1], vec![3, 4]]),
            [0, 23, 8, 12, 11, 1, 0],
        ),
        (of(1, two, &[vec![1]]), [0, 2, 1, 7, 7, 1, 1]),
        (of(2, copied, &[vec![1]]), [0, 2, 1, 8, 8, 2, 2]),
    ]
}
