//! From a model or a tape to the numbers of its bytes, each with its range.

use crate::model::{Block, Comparison, Model, Sum, Term};
use crate::number::number_bytes;
use crate::rules::Rules;
use crate::tape::Tape;

/// One number with the range of its field.
#[derive(Clone, Copy, Debug)]
pub struct Field {
    pub value: u64,
    pub low: u64,
    pub high: u64,
    pub role: Role,
}

/// What a number stands for, as far as the coverage table asks.
#[derive(Clone, Copy, Debug, PartialEq, Eq)]
pub enum Role {
    Tag,
    Relation,
    Code,
    Other,
}

#[derive(Default)]
struct Writer {
    kinds: u32,
    fields: Vec<Field>,
    facilities: u32,
    capacities: Vec<u32>,
    queues: u32,
    values: u32,
    lists: u32,
    blocks: u32,
}

pub fn encode_model(model: &Model) -> Vec<u8> {
    encode_fields(&model_fields(Rules::ALL, model))
}

pub fn encode_tape(tape: &Tape) -> Vec<u8> {
    encode_fields(&tape_fields(Rules::ALL, tape))
}

pub fn encode_fields(fields: &[Field]) -> Vec<u8> {
    fields
        .iter()
        .flat_map(|field| number_bytes(field.value))
        .collect()
}

pub fn tape_fields(rules: Rules, tape: &Tape) -> Vec<Field> {
    let mut writer = Writer::default();
    for list in tape {
        writer.put(list.len() as u32, 0, Model::MAX_SAMPLES);
        for time in list {
            writer.fields.push(Field {
                value: *time,
                low: 0,
                high: rules.max_sample(),
                role: Role::Other,
            });
        }
    }
    writer.fields
}

pub fn model_fields(rules: Rules, model: &Model) -> Vec<Field> {
    let mut writer = Writer {
        kinds: rules.highest_kind(),
        fields: Vec::new(),
        facilities: model.facilities,
        capacities: model.capacities.clone(),
        queues: model.queues,
        values: model.values.len() as u32,
        lists: model.lists,
        blocks: model.blocks.len() as u32,
    };
    writer.put(model.edition, Model::FIRST_EDITION, rules.highest_edition);
    writer.put(model.facilities, 0, Model::MAX_FACILITIES);
    writer.put(model.capacities.len() as u32, 0, Model::MAX_STORAGES);
    for capacity in &model.capacities {
        writer.put(*capacity, 1, Model::MAX_CAPACITY);
    }
    writer.put(model.queues, 0, Model::MAX_QUEUES);
    writer.put(model.values.len() as u32, 0, Model::MAX_VALUES);
    for (index, sum) in model.values.iter().enumerate() {
        writer.sum(sum, index as u32);
    }
    writer.put(model.lists, 0, Model::MAX_LISTS);
    writer.put(model.counter, 1, Model::MAX_COUNTER);
    writer.put(model.blocks.len() as u32, 1, Model::MAX_BLOCKS);
    for block in &model.blocks {
        writer.block(block);
    }
    writer.fields
}

/// How many numbers a sum takes.
pub fn count_numbers(sum: &Sum) -> usize {
    let mut writer = Writer::default();
    writer.sum(sum, 0);
    writer.fields.len()
}

impl Writer {
    fn put(&mut self, value: u32, low: u32, high: u32) {
        self.put_as(Role::Other, value, low, high);
    }

    fn put_as(&mut self, role: Role, value: u32, low: u32, high: u32) {
        self.fields.push(Field {
            value: u64::from(value),
            low: u64::from(low),
            high: u64::from(high),
            role,
        });
    }

    /// `lower`: how many values this one may name.
    fn sum(&mut self, sum: &Sum, lower: u32) {
        self.put(sum.parts.len() as u32, 1, Model::MAX_SUM_TERMS);
        for part in &sum.parts {
            self.put(u32::from(part.minus), 0, 1);
            self.term(&part.term, 11, Model::MAX_BLOCKS, lower);
        }
    }

    fn term(&mut self, term: &Term, tags: u32, blocks: u32, values: u32) {
        let storages = self.capacities.len() as u32;
        let (tag, number, low, high) = match term {
            Term::Constant(n) => (0, *n, 0, Model::MAX_CONSTANT),
            Term::MinusConstant(n) => (1, *n, 0, Model::MAX_CONSTANT),
            Term::Parameter(n) => (2, *n, 1, 4),
            Term::Clock => (3, 0, 0, 0),
            Term::Entries(n) => (4, *n, 1, blocks),
            Term::Content(n) => (5, *n, 1, self.queues),
            Term::UnitsInUse(n) => (6, *n, 1, storages),
            Term::UnitsFree(n) => (7, *n, 1, storages),
            Term::FacilityInUse(n) => (8, *n, 1, self.facilities),
            Term::Value(n) => (9, *n, 1, values),
            Term::Comparison(comparison) => {
                self.put_as(Role::Tag, 10, 0, tags);
                self.put_as(Role::Relation, comparison.relation, 1, 6);
                self.term(&comparison.left, tags, blocks, values);
                self.term(&comparison.right, tags, blocks, values);
                return;
            }
            Term::Bracket(sum) => {
                self.put_as(Role::Tag, 11, 0, tags);
                self.sum(sum, values);
                return;
            }
        };
        self.put_as(Role::Tag, tag, 0, tags);
        self.put(number, low, high);
    }

    fn block_term(&mut self, term: &Term) {
        self.term(term, 9, self.blocks, self.values);
    }

    fn comparison(&mut self, comparison: &Comparison) {
        self.block_term(&comparison.left);
        self.put_as(Role::Relation, comparison.relation, 1, 6);
        self.block_term(&comparison.right);
    }

    fn units(&mut self, storage: u32, units: u32) {
        self.put(storage, 1, self.capacities.len() as u32);
        self.put(units, 1, self.capacities[storage as usize - 1]);
    }

    fn status(&mut self, code: u32, server: u32) {
        self.put_as(Role::Code, code, 1, 6);
        let storages = self.capacities.len() as u32;
        let high = if code <= 2 { self.facilities } else { storages };
        self.put(server, 1, high);
    }

    fn block(&mut self, block: &Block) {
        self.put(block.kind(), 1, self.kinds);
        match block {
            Block::Generate { list, priority } => {
                self.put(*list, 1, self.lists);
                self.put(*priority, 0, Model::MAX_PRIORITY);
            }
            Block::Advance { list } => self.put(*list, 1, self.lists),
            Block::Terminate { amount } => self.put(*amount, 0, Model::MAX_TERMINATE),
            Block::Seize { facility }
            | Block::Release { facility }
            | Block::Preempt { facility }
            | Block::Return { facility } => {
                self.put(*facility, 1, self.facilities);
            }
            Block::Enter { storage, units } | Block::Leave { storage, units } => {
                self.units(*storage, *units);
            }
            Block::WaitIfStatus { code, server } => self.status(*code, *server),
            Block::WaitJoined { code, server, back } => {
                self.status(*code, *server);
                self.put(*back, 1, Model::MAX_BACK);
            }
            Block::WaitIfComparison { comparison } => self.comparison(comparison),
            Block::If { comparison, target } => {
                self.comparison(comparison);
                self.put(*target, 1, self.blocks);
            }
            Block::Goto { target } => self.put(*target, 1, self.blocks),
            Block::Let { parameter, term } => {
                self.put(*parameter, 1, Model::PARAMETERS);
                self.block_term(term);
            }
            Block::Priority { priority } => self.put(*priority, 0, Model::MAX_PRIORITY),
            Block::Split { copies, target } => {
                self.put(*copies, 1, Model::MAX_COPIES);
                self.put(*target, 1, self.blocks);
            }
            Block::Assemble { count } => {
                self.put(*count, Model::MIN_ASSEMBLED, Model::MAX_ASSEMBLED);
            }
            Block::Arrive { queue } | Block::Depart { queue } => {
                self.put(*queue, 1, self.queues);
            }
        }
    }
}
