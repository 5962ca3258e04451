//! Pieces of models: a few blocks that belong together. Targets and block
//! numbers in terms are random numbers here; `targets::resolve` fits them to the
//! model.

use super::random::Random;
use super::sums::{comparison, plain_term, Scope};
use crate::model::{Block, Comparison, Model, Term};
use crate::rules::Rules;

/// What pieces are made from.
pub struct Parts<'a> {
    pub rules: Rules,
    pub random: &'a mut Random,
    pub model: &'a Model,
    pub scope: Scope,
    /// The lists mostly used by ADVANCE.
    pub advance_lists: Vec<u32>,
    /// Priorities in use, so that equal ones meet.
    pub priorities: Vec<u32>,
    /// The value that is a parameter plus or minus a little, if any.
    pub step_value: Option<(u32, u32)>,
}

const RAW_TARGET: u32 = 1_000_000;

impl Parts<'_> {
    fn facility(&mut self) -> u32 {
        self.random.number(1, self.model.facilities)
    }

    fn units(&mut self) -> (u32, u32) {
        let storage = self.random.number(1, self.model.capacities.len() as u32);
        let capacity = self.model.capacities[storage as usize - 1];
        let units = match self.random.below(8) {
            0..=4 => 1,
            5 => capacity,
            6 => capacity.min(2),
            _ => self.random.number(1, capacity),
        };
        (storage, units)
    }

    pub fn advance(&mut self) -> Block {
        let list = if self.random.one_in(12) {
            self.random.number(1, self.model.lists)
        } else {
            *self.random.pick(&self.advance_lists)
        };
        Block::Advance { list }
    }

    pub fn priority(&mut self) -> u32 {
        *self.random.pick(&self.priorities)
    }

    fn comparison(&mut self) -> Comparison {
        comparison(self.random, &self.scope)
    }

    fn target(&mut self) -> u32 {
        self.random.number(1, RAW_TARGET)
    }

    /// What stands between taking a server and giving it back.
    fn held(&mut self, depth: u32) -> Vec<Block> {
        match self.random.below(10) {
            0 => Vec::new(),
            1..=2 if depth > 0 => self.piece(depth - 1),
            3 if depth > 0 => {
                let mut blocks = self.piece(depth - 1);
                blocks.push(self.advance());
                blocks
            }
            _ => vec![self.advance()],
        }
    }

    /// SEIZE or ENTER, inside ARRIVE and DEPART or not.
    fn queued(&mut self, block: Block) -> Vec<Block> {
        if self.model.queues == 0 || self.random.percent(60) {
            return vec![block];
        }
        let queue = self.random.number(1, self.model.queues);
        let mut blocks = vec![Block::Arrive { queue }, block, Block::Depart { queue }];
        if self.random.one_in(12) {
            blocks.pop();
        }
        blocks
    }

    /// One piece; pieces within it go `depth` deep.
    pub fn piece(&mut self, depth: u32) -> Vec<Block> {
        let facilities = self.model.facilities > 0;
        let storages = !self.model.capacities.is_empty();
        if self.rules.joined && (facilities || storages) && self.random.one_in(12) {
            return self.joined_waits();
        }
        if self.rules.preempt && facilities && self.random.one_in(14) {
            let facility = self.facility();
            let mut blocks = self.queued(Block::Preempt { facility });
            blocks.extend(self.held(depth));
            if !self.random.one_in(25) {
                blocks.push(Block::Return { facility });
            }
            return blocks;
        }
        if self.rules.assemble && self.random.one_in(14) {
            return self.family();
        }
        match self.random.below(100) {
            0..=19 if facilities => {
                let facility = self.facility();
                let mut blocks = self.queued(Block::Seize { facility });
                blocks.extend(self.held(depth));
                if !self.random.one_in(25) {
                    blocks.push(Block::Release { facility });
                }
                blocks
            }
            20..=39 if storages => {
                let (storage, units) = self.units();
                let mut blocks = self.queued(Block::Enter { storage, units });
                blocks.extend(self.held(depth));
                if !self.random.one_in(25) {
                    let (_, other) = self.units();
                    let capacity = self.model.capacities[storage as usize - 1];
                    let units = if self.random.one_in(20) {
                        other.min(capacity)
                    } else {
                        units
                    };
                    blocks.push(Block::Leave { storage, units });
                }
                blocks
            }
            40..=51 if facilities || storages => vec![self.status_wait()],
            52..=57 => vec![Block::WaitIfComparison {
                comparison: self.comparison(),
            }],
            58..=62 => vec![self.set_parameter()],
            63..=67 => vec![Block::Priority {
                priority: self.priority(),
            }],
            68..=72 => vec![Block::If {
                comparison: self.comparison(),
                target: self.target(),
            }],
            73..=77 => vec![self.split()],
            78..=82 => self.counted_loop(),
            83..=85 if self.model.queues > 0 => {
                let queue = self.random.number(1, self.model.queues);
                let mut blocks = vec![Block::Arrive { queue }];
                blocks.extend(self.held(depth));
                blocks.push(Block::Depart { queue });
                blocks
            }
            86..=88 => vec![self.any_block()],
            _ => vec![self.advance()],
        }
    }

    /// A low parameter, so that later comparisons often meet it.
    pub fn set_parameter(&mut self) -> Block {
        let own = [
            Term::Clock,
            Term::Entries(self.random.number(1, self.scope.blocks)),
            Term::Constant(self.random.number(0, 4)),
        ];
        let term = if self.random.one_in(3) {
            plain_term(self.random, &self.scope)
        } else {
            self.random.pick(&own).clone()
        };
        Block::Let {
            parameter: self.random.number(1, 2),
            term,
        }
    }

    /// Copies, something on the way, and the gathering (02, item 8).
    fn family(&mut self) -> Vec<Block> {
        let mut blocks = Vec::new();
        if self.random.percent(70) {
            blocks.push(self.split());
        }
        if self.random.one_in(2) {
            blocks.push(self.advance());
        }
        let count = match self.random.below(6) {
            0 => self.random.number(2, Model::MAX_ASSEMBLED),
            1 => 3,
            _ => 2,
        };
        blocks.push(Block::Assemble { count });
        blocks
    }

    /// A group of server waits, the last of them joined (02, item 7).
    fn joined_waits(&mut self) -> Vec<Block> {
        let back = if self.random.one_in(5) {
            self.random.number(1, Model::MAX_BACK)
        } else {
            self.random.number(1, 2)
        };
        let mut blocks: Vec<Block> = (0..back).map(|_| self.status_wait()).collect();
        if let Block::WaitIfStatus { code, server } = self.status_wait() {
            blocks.push(Block::WaitJoined { code, server, back });
        }
        blocks
    }

    fn status_wait(&mut self) -> Block {
        let facilities = self.model.facilities > 0;
        let storages = !self.model.capacities.is_empty();
        if facilities && (!storages || self.random.one_in(3)) {
            return Block::WaitIfStatus {
                code: *self.random.pick(&[1, 1, 2]),
                server: self.facility(),
            };
        }
        Block::WaitIfStatus {
            code: *self.random.pick(&[3, 4, 4, 5, 5, 6]),
            server: self.random.number(1, self.model.capacities.len() as u32),
        }
    }

    pub fn split(&mut self) -> Block {
        let copies = match self.random.below(12) {
            0 => self.random.number(1, Model::MAX_COPIES),
            1 => Model::MAX_COPIES,
            2..=3 => self.random.number(3, 12),
            _ => self.random.number(1, 3),
        };
        Block::Split {
            copies,
            target: self.target(),
        }
    }

    /// Counts a parameter and goes back while it is low.
    fn counted_loop(&mut self) -> Vec<Block> {
        let Some((value, parameter)) = self.step_value else {
            return vec![self.advance()];
        };
        vec![
            Block::Let {
                parameter,
                term: Term::Value(value),
            },
            self.advance(),
            Block::If {
                comparison: Comparison {
                    left: Term::Parameter(parameter),
                    relation: 3,
                    right: Term::Constant(self.random.number(2, 6)),
                },
                target: self.target(),
            },
        ]
    }

    /// Any block but GENERATE, also where it does not belong.
    pub fn any_block(&mut self) -> Block {
        let facilities = self.model.facilities > 0;
        let storages = !self.model.capacities.is_empty();
        let queues = self.model.queues > 0;
        match self.random.number(3, 16) {
            3 => Block::Terminate {
                amount: self.random.number(0, 2),
            },
            4 if facilities => Block::Seize {
                facility: self.facility(),
            },
            5 if facilities => Block::Release {
                facility: self.facility(),
            },
            6 if storages => {
                let (storage, units) = self.units();
                Block::Enter { storage, units }
            }
            7 if storages => {
                let (storage, units) = self.units();
                Block::Leave { storage, units }
            }
            8 if facilities || storages => self.status_wait(),
            9 => Block::WaitIfComparison {
                comparison: self.comparison(),
            },
            10 => Block::If {
                comparison: self.comparison(),
                target: self.target(),
            },
            11 => Block::Goto {
                target: self.target(),
            },
            14 => self.split(),
            15 if queues => Block::Arrive {
                queue: self.random.number(1, self.model.queues),
            },
            16 if queues => Block::Depart {
                queue: self.random.number(1, self.model.queues),
            },
            13 => Block::Priority {
                priority: self.priority(),
            },
            _ => Block::Let {
                parameter: self.random.number(1, 4),
                term: plain_term(self.random, &self.scope),
            },
        }
    }
}
