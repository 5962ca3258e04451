//! The work that is measured: models with their tapes. Each ends when `customers` have finished.
//! simpy_models.py has a process for each, under the same name, over the same times.

use reference::generate::random::Random;
use reference::model::{Block, Comparison, Model, Part, Sum, Term};
use reference::tape::Tape;

pub struct Work {
    /// The name of the SimPy model.
    pub kind: &'static str,
    pub title: String,
    pub model: Model,
    pub tape: Tape,
    /// How many live at one time, where that number stands.
    pub living: u32,
    pub customers: u32,
}

pub const MOST: u32 = 65_535;

/// Every piece of work, in the order of the table.
pub fn all() -> Vec<Work> {
    let mut work = vec![single_server()];
    work.extend([10, 100, 1_000].map(future_events));
    work.extend([10, 100, 1_000].map(long_queue));
    work.push(stampede(200));
    work.push(waiting_values(50));
    work.push(ship_and_tug());
    work
}

pub fn times(random: &mut Random, count: u32, low: u32, high: u32) -> Vec<u64> {
    (0..count)
        .map(|_| u64::from(random.number(low, high)))
        .collect()
}

pub fn model(facilities: u32, capacities: Vec<u32>, lists: u32, customers: u32) -> Model {
    Model {
        edition: Model::FIRST_EDITION,
        facilities,
        capacities,
        queues: 0,
        values: Vec::new(),
        lists,
        counter: customers,
        blocks: Vec::new(),
    }
}

pub const GENERATE: Block = Block::Generate {
    list: 1,
    priority: 0,
};
const END: Block = Block::Terminate { amount: 1 };

/// Arrivals every 10 ticks on average, service of 9.
fn single_server() -> Work {
    let mut random = Random::new(1);
    let mut model = model(1, Vec::new(), 2, MOST);
    model.blocks = vec![
        GENERATE,
        Block::Seize { facility: 1 },
        Block::Advance { list: 2 },
        Block::Release { facility: 1 },
        END,
    ];
    let tape = vec![
        times(&mut random, MOST, 0, 20),
        times(&mut random, MOST, 0, 18),
    ];
    Work {
        kind: "single_server",
        title: "single server".to_string(),
        model,
        tape,
        living: 0,
        customers: MOST,
    }
}

/// `living` transactions come at time 0 and go through `own`; each that finishes is followed by another.
pub fn closed(model: &mut Model, living: u32, own: Vec<Block>) {
    let mut blocks = vec![GENERATE];
    let mut more = living - 1;
    let splits = more.div_ceil(255);
    let first = splits + 2;
    while more > 0 {
        let copies = more.min(255);
        blocks.push(Block::Split {
            copies,
            target: first,
        });
        more -= copies;
    }
    blocks.extend(own);
    blocks.push(Block::Split {
        copies: 1,
        target: first,
    });
    blocks.push(END);
    model.blocks = blocks;
}

/// Nothing but times: every living one stands on the FEL.
fn future_events(living: u32) -> Work {
    let mut model = model(0, Vec::new(), 2, MOST - living);
    closed(&mut model, living, vec![Block::Advance { list: 2 }]);
    Work {
        kind: "future_events",
        title: format!("FEL, {living} living"),
        tape: vec![vec![0], times(&mut Random::new(2), MOST, 0, 2_000)],
        living,
        customers: model.counter,
        model,
    }
}

/// One server, and all others wait for it.
fn long_queue(living: u32) -> Work {
    let mut model = model(1, Vec::new(), 2, MOST - living);
    closed(
        &mut model,
        living,
        vec![
            Block::Seize { facility: 1 },
            Block::Advance { list: 2 },
            Block::Release { facility: 1 },
        ],
    );
    Work {
        kind: "long_queue",
        title: format!("queue, {living} living"),
        tape: vec![vec![0], times(&mut Random::new(3), MOST, 0, 20)],
        living,
        customers: model.counter,
        model,
    }
}

/// A storage of 10 units: each LEAVE wakes every waiter, and all but the first are put back.
fn stampede(living: u32) -> Work {
    let mut model = model(0, vec![10], 2, 10_000);
    let (storage, units) = (1, 1);
    closed(
        &mut model,
        living,
        vec![
            Block::Enter { storage, units },
            Block::Advance { list: 2 },
            Block::Leave { storage, units },
        ],
    );
    Work {
        kind: "stampede",
        title: format!("stampede, {living} living"),
        tape: vec![vec![0], times(&mut Random::new(4), MOST, 1, 20)],
        living,
        customers: model.counter,
        model,
    }
}

pub fn plus(term: Term) -> Part {
    Part { minus: false, term }
}

pub fn is(left: Term, relation: u32, right: Term) -> Comparison {
    Comparison {
        left,
        relation,
        right,
    }
}

/// Waits on a value: the facility is in use or the storage is full.
fn waiting_values(living: u32) -> Work {
    let mut model = model(1, vec![2], 2, 20_000);
    let full = Term::Comparison(Box::new(is(Term::UnitsFree(1), 1, Term::Constant(0))));
    model.values = vec![Sum {
        parts: vec![plus(Term::FacilityInUse(1)), plus(full)],
    }];
    let (storage, units) = (1, 1);
    closed(
        &mut model,
        living,
        vec![
            Block::WaitIfComparison {
                comparison: is(Term::Value(1), 5, Term::Constant(0)),
            },
            Block::Seize { facility: 1 },
            Block::Enter { storage, units },
            Block::Advance { list: 2 },
            Block::Release { facility: 1 },
            Block::Leave { storage, units },
        ],
    );
    Work {
        kind: "waiting_values",
        title: format!("WAITIF values, {living} living"),
        tape: vec![vec![0], times(&mut Random::new(5), MOST, 1, 20)],
        living,
        customers: model.counter,
        model,
    }
}

/// models/ship-and-tug with a ship every 12 ticks, for 30,000 ships; see its page.
fn ship_and_tug() -> Work {
    let mut random = Random::new(6);
    let customers = 30_000; // each is towed twice
    let (storm, tug, berth) = (1, 2, 1);
    let mut model = model(2, vec![3], 6, customers);
    let (storage, units) = (berth, 1);
    let full = Term::Comparison(Box::new(is(Term::UnitsFree(berth), 1, Term::Constant(0))));
    let busy = |facility: u32| plus(Term::FacilityInUse(facility));
    model.queues = 1;
    model.values = vec![
        Sum {
            parts: vec![busy(tug), plus(full), busy(storm)],
        },
        Sum {
            parts: vec![busy(tug), busy(storm)],
        },
    ];
    let wait = |value: u32| Block::WaitIfComparison {
        comparison: is(Term::Value(value), 5, Term::Constant(0)),
    };
    model.blocks = vec![
        GENERATE,
        Block::Advance { list: 2 },
        Block::Seize { facility: storm },
        Block::Advance { list: 3 },
        Block::Release { facility: storm },
        Block::Goto { target: 2 },
        Block::Generate {
            list: 4,
            priority: 0,
        },
        Block::Arrive { queue: 1 },
        wait(1),
        Block::Seize { facility: tug },
        Block::Enter { storage, units },
        Block::Advance { list: 5 },
        Block::Release { facility: tug },
        Block::Advance { list: 6 },
        wait(2),
        Block::Seize { facility: tug },
        Block::Advance { list: 5 },
        Block::Release { facility: tug },
        Block::Leave { storage, units },
        Block::Depart { queue: 1 },
        END,
    ];
    let tape = vec![
        vec![0],
        times(&mut random, MOST, 20, 76),
        times(&mut random, MOST, 3, 5),
        times(&mut random, MOST, 7, 17),
        vec![2; MOST as usize],
        times(&mut random, MOST, 14, 22),
    ];
    Work {
        kind: "ship_and_tug",
        title: "ship and tug".to_string(),
        model,
        tape,
        living: 0,
        customers,
    }
}
