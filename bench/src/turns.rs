//! Work that goes on for ever, measured in nanoseconds a turn for a budget of turns: plain turns, long lists, and waits on values
//! as the number of those that wait grows. SimPy has nothing to set beside these.

use crate::work::{closed, is, model, plus, times, GENERATE, MOST};
use reference::generate::random::Random;
use reference::model::{Block, Model, Sum, Term};
use reference::tape::Tape;

pub struct Endless {
    pub title: String,
    pub model: Model,
    pub tape: Tape,
    pub budget: u64,
}

/// Every piece of work, in the order of the table.
pub fn all() -> Vec<Endless> {
    let mut work = vec![
        single(0, "single server"),
        single(31, "among 96 servers and queues"),
        goto_loop(),
        on_the_fel(),
        priorities(1),
        priorities(3),
        storage_of_ten(),
    ];
    for (title, inside) in [
        ("own parameter beside a value", false),
        ("own parameter inside it", true),
    ] {
        work.extend([10, 100, 900].map(|living| waits(title, inside, living)));
    }
    work
}

fn goto(target: usize) -> Block {
    Block::Goto {
        target: target as u32,
    }
}

/// `living` transactions come at time 0 and stay in a loop of blocks, which begin where the answer says.
fn stay(model: &mut Model, living: u32) -> usize {
    closed(model, living, Vec::new());
    model.blocks.truncate(model.blocks.len() - 2);
    model.blocks.len() + 1
}

/// Arrivals every 10 ticks on average, service of 9; so many facilities, storages and queues more than are used.
fn single(more: u32, title: &str) -> Endless {
    let mut random = Random::new(1);
    let mut model = model(1 + more, vec![1; (more + more / 31) as usize], 2, MOST);
    model.queues = more + more / 31;
    model.blocks = vec![
        GENERATE,
        Block::Seize { facility: 1 },
        Block::Advance { list: 2 },
        Block::Release { facility: 1 },
        Block::Terminate { amount: 1 },
    ];
    let tape = vec![
        times(&mut random, MOST, 0, 20),
        times(&mut random, MOST, 0, 18),
    ];
    Endless {
        title: title.to_string(),
        model,
        tape,
        budget: 300_000,
    }
}

/// One transaction that counts.
fn goto_loop() -> Endless {
    let mut model = model(0, Vec::new(), 1, 1);
    model.values = vec![Sum {
        parts: vec![plus(Term::Parameter(1)), plus(Term::Constant(1))],
    }];
    model.blocks = vec![
        GENERATE,
        Block::Let {
            parameter: 1,
            term: Term::Value(1),
        },
        Block::If {
            comparison: is(Term::Parameter(1), 5, Term::Constant(1_000_000_000)),
            target: 5,
        },
        goto(2),
        Block::Terminate { amount: 1 },
    ];
    Endless {
        title: "LET, IF, GOTO".to_string(),
        model,
        tape: vec![vec![0]],
        budget: 1_000_000,
    }
}

/// 1,000 with random times.
fn on_the_fel() -> Endless {
    let mut model = model(0, Vec::new(), 2, 1);
    let first = stay(&mut model, 1_000);
    model.blocks.push(Block::Advance { list: 2 });
    model.blocks.push(goto(first));
    Endless {
        title: "1,000 on the FEL".to_string(),
        model,
        tape: vec![vec![0], times(&mut Random::new(2), MOST, 0, 2_000)],
        budget: 130_000,
    }
}

/// 1,000 round one facility in so many priorities.
fn priorities(classes: u32) -> Endless {
    let mut model = model(1, Vec::new(), 2, 1);
    let first = stay(&mut model, 1_000) as u32;
    let width = 5;
    let ahead = classes; // LET, then an IF for each class but the last
    model.blocks.push(Block::Let {
        parameter: 1,
        term: Term::Entries(first),
    });
    for class in 1..classes {
        model.blocks.push(Block::If {
            comparison: is(
                Term::Parameter(1),
                3,
                Term::Constant(class * 1_000 / classes),
            ),
            target: first + ahead + class * width,
        });
    }
    for class in 0..classes {
        let begins = model.blocks.len() + 1;
        model.blocks.extend([
            Block::Priority { priority: class },
            Block::Seize { facility: 1 },
            Block::Advance { list: 2 },
            Block::Release { facility: 1 },
            goto(begins),
        ]);
    }
    Endless {
        title: format!(
            "queue of 999, {classes} priorit{}",
            if classes == 1 { "y" } else { "ies" }
        ),
        model,
        tape: vec![vec![0], times(&mut Random::new(3), MOST, 0, 20)],
        budget: 250_000,
    }
}

/// 1,000 round a storage of ten units: each LEAVE wakes all that wait.
fn storage_of_ten() -> Endless {
    let mut model = model(0, vec![10], 2, 1);
    let first = stay(&mut model, 1_000);
    let (storage, units) = (1, 1);
    model.blocks.extend([
        Block::Enter { storage, units },
        Block::Advance { list: 2 },
        Block::Leave { storage, units },
        Block::Priority { priority: 0 },
        goto(first),
    ]);
    Endless {
        title: "storage of 10, 1,000 living".to_string(),
        model,
        tape: vec![vec![0], times(&mut Random::new(4), MOST, 1, 20)],
        budget: 250_000,
    }
}

/// `living` wait until a count that one other transaction raises reaches their own number; then each waits for `living` more.
fn waits(title: &str, inside: bool, living: u32) -> Endless {
    let mut model = model(1, vec![5], 2, 1);
    model.queues = 1;
    let first = stay(&mut model, living) as u32;
    let counts = first + 5;
    let low = Term::Comparison(Box::new(is(Term::UnitsFree(1), 3, Term::Constant(5))));
    let minus = |term: Term| reference::model::Part { minus: true, term };
    model.values = vec![
        Sum {
            parts: vec![
                plus(Term::Entries(counts)),
                plus(Term::Content(1)),
                plus(Term::Bracket(Sum {
                    parts: vec![plus(Term::FacilityInUse(1)), plus(Term::UnitsInUse(1))],
                })),
            ],
        },
        Sum {
            parts: vec![plus(Term::Value(1)), minus(low)],
        },
        Sum {
            parts: vec![plus(Term::Value(2)), plus(Term::Constant(living))],
        },
        Sum {
            parts: vec![plus(Term::Value(2)), minus(Term::Parameter(1))],
        },
    ];
    let wait = if inside {
        is(Term::Value(4), 3, Term::Constant(0))
    } else {
        is(Term::Value(2), 3, Term::Parameter(1))
    };
    model.blocks.extend([
        Block::Let {
            parameter: 1,
            term: Term::Entries(first),
        },
        Block::WaitIfComparison { comparison: wait },
        Block::Let {
            parameter: 1,
            term: Term::Value(3),
        },
        goto(first as usize + 1),
        Block::Generate {
            list: 2,
            priority: 0,
        },
        Block::Priority { priority: 0 },
        goto(counts as usize),
    ]);
    Endless {
        title: format!("{living} wait, {title}"),
        model,
        tape: vec![vec![0], vec![1]],
        budget: 20_000,
    }
}
