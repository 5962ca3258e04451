//! The runs that reach end 26.

use crate::runs;
use reference::coverage::Coverage;
use reference::generate::fields::{encode_model, encode_tape};
use reference::generate::Case;
use reference::model::{Block, Model};
use reference::tape::Tape;

pub fn compare() -> bool {
    let mut agree = true;
    for (name, model, tape) in [by_turns(), by_serials()] {
        let case = Case {
            model: encode_model(&model),
            tape: encode_tape(&tape),
            budget: u64::MAX,
            work_len: 16_384,
            trace_len: 800_000_000,
            report_len: 10_240,
        };
        match runs::compare(&case, 1, &mut Coverage::default()) {
            Ok(agreed) => {
                println!("{name}: agree, {:?}", agreed.outcome);
                agree &= agreed.outcome.end == 26;
            }
            Err(text) => {
                println!("{name}: differ: {text}");
                agree = false;
            }
        }
    }
    agree
}

fn model(lists: u32, blocks: Vec<Block>) -> Model {
    Model {
        edition: Model::FIRST_EDITION,
        facilities: 0,
        capacities: Vec::new(),
        queues: 0,
        values: Vec::new(),
        lists,
        counter: Model::MAX_COUNTER,
        blocks,
    }
}

const GENERATE: Block = Block::Generate {
    list: 1,
    priority: 0,
};

/// 100,000,000 turns: one transaction that goes to and fro.
fn by_turns() -> (&'static str, Model, Tape) {
    let blocks = vec![GENERATE, Block::Goto { target: 2 }];
    ("end 26 by turns", model(1, blocks), vec![vec![1]])
}

/// More than 99,997,952 serials in fewer turns: a copy takes one when it is made and one at each PRIORITY, an ADVANCE two.
fn by_serials() -> (&'static str, Model, Tape) {
    let mut blocks = vec![
        GENERATE,
        Block::Split {
            copies: 255,
            target: 5,
        },
        Block::Advance { list: 2 },
        Block::Goto { target: 2 },
    ];
    blocks.extend(vec![Block::Priority { priority: 0 }; 251]);
    blocks.push(Block::Terminate { amount: 0 });
    let tape = vec![vec![1], vec![0; Model::MAX_SAMPLES as usize]];
    ("end 26 by serials", model(2, blocks), tape)
}
