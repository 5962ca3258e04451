//! From bytes to a model: questions 3 to 7 (01, "Questions at the door").

use crate::model::{Block, Comparison, Model, Part, Sum, Term};
use crate::number::{read_number, MAX_NUMBER};
use crate::rules::{Rules, LAST_KIND};

/// Takes numbers from lent bytes one after the other.
struct Source<'a> {
    bytes: &'a [u8],
    position: usize,
}

impl Source<'_> {
    /// The next number of a field with this range: question 3, then 4.
    fn field(&mut self, low: u32, high: u32) -> Result<u32, u32> {
        let (value, after) = read_number(self.bytes, self.position, MAX_NUMBER).ok_or(3u32)?;
        let value = value as u32;
        if value < low || value > high {
            return Err(4);
        }
        self.position = after;
        Ok(value)
    }
}

/// The same under the rules of the engine.
pub fn decode_model(bytes: &[u8]) -> Result<Model, u32> {
    decode_model_with(Rules::LANDED, bytes)
}

/// Gives the model, or the number of the first question answered "no".
pub fn decode_model_with(rules: Rules, bytes: &[u8]) -> Result<Model, u32> {
    let model = read_model(rules, bytes)?;
    if !well_shaped(&model) {
        return Err(7);
    }
    Ok(model)
}

/// The same without question 7.
pub fn read_model(rules: Rules, bytes: &[u8]) -> Result<Model, u32> {
    let mut source = Source { bytes, position: 0 };
    let edition = source.field(Model::FIRST_EDITION, rules.highest_edition)?;
    let facilities = source.field(0, Model::MAX_FACILITIES)?;
    let storages = source.field(0, Model::MAX_STORAGES)?;
    let mut capacities = Vec::new();
    for _ in 0..storages {
        capacities.push(source.field(1, Model::MAX_CAPACITY)?);
    }
    let queues = source.field(0, Model::MAX_QUEUES)?;
    let mut model = Model {
        edition,
        facilities,
        capacities,
        queues,
        values: Vec::new(),
        lists: 0,
        counter: 0,
        blocks: Vec::new(),
    };
    let values = source.field(0, Model::MAX_VALUES)?;
    for number in 1..=values {
        let sum = decode_value(&mut source, &model, number)?;
        model.values.push(sum);
    }
    model.lists = source.field(0, Model::MAX_LISTS)?;
    model.counter = source.field(1, Model::MAX_COUNTER)?;
    let blocks = source.field(1, Model::MAX_BLOCKS)?;
    for _ in 0..blocks {
        let block = decode_block(rules, &mut source, &model, blocks)?;
        model.blocks.push(block);
    }
    if source.position < bytes.len() {
        return Err(6);
    }
    Ok(model)
}

/// What question 5 counts inside one value.
struct ValueReader<'a, 'b> {
    source: &'a mut Source<'b>,
    model: &'a Model,
    /// The number of the value being read: it names only lower ones.
    number: u32,
    numbers: u32,
    open: u32,
    mentions: u32,
}

fn decode_value(source: &mut Source, model: &Model, number: u32) -> Result<Sum, u32> {
    let mut reader = ValueReader {
        source,
        model,
        number,
        numbers: 0,
        open: 0,
        mentions: 0,
    };
    reader.sum()
}

impl ValueReader<'_, '_> {
    /// The next number of the value: questions 3, 4, then the 64 of question 5.
    fn field(&mut self, low: u32, high: u32) -> Result<u32, u32> {
        let value = self.source.field(low, high)?;
        self.numbers += 1;
        if self.numbers > Model::MAX_VALUE_NUMBERS {
            return Err(5);
        }
        Ok(value)
    }

    fn sum(&mut self) -> Result<Sum, u32> {
        let count = self.field(1, Model::MAX_SUM_TERMS)?;
        let mut parts = Vec::new();
        for _ in 0..count {
            let minus = self.field(0, 1)? == 1;
            let term = self.term()?;
            parts.push(Part { minus, term });
        }
        Ok(Sum { parts })
    }

    /// "each tag 10 or 11 opens one": a fifth is refused at its tag.
    fn term(&mut self) -> Result<Term, u32> {
        let tag = self.field(0, 11)?;
        if tag < 10 {
            return self.plain_term(tag);
        }
        self.open += 1;
        if self.open > Model::MAX_OPEN_BRACKETS {
            return Err(5);
        }
        let term = if tag == 10 {
            let relation = self.field(1, 6)?;
            let left = self.term()?;
            let right = self.term()?;
            Term::Comparison(Box::new(Comparison {
                left,
                relation,
                right,
            }))
        } else {
            Term::Bracket(self.sum()?)
        };
        self.open -= 1;
        Ok(term)
    }

    fn plain_term(&mut self, tag: u32) -> Result<Term, u32> {
        // "Inside a value a block number may be 1..256 when read."
        let (low, high) = term_range(tag, self.model, Model::MAX_BLOCKS, self.number - 1);
        let number = self.field(low, high)?;
        if tag == 9 {
            self.mentions += 1;
            if self.mentions > Model::MAX_MENTIONS {
                return Err(5);
            }
        }
        Ok(plain_term(tag, number))
    }
}

/// The range of the number after tags 0..9.
fn term_range(tag: u32, model: &Model, blocks: u32, values: u32) -> (u32, u32) {
    match tag {
        0 | 1 => (0, Model::MAX_CONSTANT),
        2 => (1, Model::PARAMETERS),
        3 => (0, 0),
        4 => (1, blocks),
        5 => (1, model.queues),
        6 | 7 => (1, model.capacities.len() as u32),
        8 => (1, model.facilities),
        _ => (1, values),
    }
}

fn plain_term(tag: u32, number: u32) -> Term {
    match tag {
        0 => Term::Constant(number),
        1 => Term::MinusConstant(number),
        2 => Term::Parameter(number),
        3 => Term::Clock,
        4 => Term::Entries(number),
        5 => Term::Content(number),
        6 => Term::UnitsInUse(number),
        7 => Term::UnitsFree(number),
        8 => Term::FacilityInUse(number),
        _ => Term::Value(number),
    }
}

fn decode_term(source: &mut Source, model: &Model, blocks: u32) -> Result<Term, u32> {
    let tag = source.field(0, 9)?;
    let (low, high) = term_range(tag, model, blocks, model.values.len() as u32);
    let number = source.field(low, high)?;
    Ok(plain_term(tag, number))
}

fn decode_comparison(source: &mut Source, model: &Model, blocks: u32) -> Result<Comparison, u32> {
    let left = decode_term(source, model, blocks)?;
    let relation = source.field(1, 6)?;
    let right = decode_term(source, model, blocks)?;
    Ok(Comparison {
        left,
        relation,
        right,
    })
}

/// "ENTER and LEAVE take 1..capacity units."
fn decode_units(source: &mut Source, model: &Model) -> Result<(u32, u32), u32> {
    let storage = source.field(1, model.capacities.len() as u32)?;
    let units = source.field(1, model.capacities[storage as usize - 1])?;
    Ok((storage, units))
}

/// Code and server of a server wait.
fn decode_status(source: &mut Source, model: &Model) -> Result<(u32, u32), u32> {
    let code = source.field(1, 6)?;
    // "a facility for codes 1 and 2, else a storage"
    let servers = if code <= 2 {
        model.facilities
    } else {
        model.capacities.len() as u32
    };
    Ok((code, source.field(1, servers)?))
}

fn decode_block(
    rules: Rules,
    source: &mut Source,
    model: &Model,
    blocks: u32,
) -> Result<Block, u32> {
    let kind = source.field(1, LAST_KIND)?;
    if !rules.has_kind(kind) {
        return Err(4);
    }
    let block = match kind {
        1 => Block::Generate {
            list: source.field(1, model.lists)?,
            priority: source.field(0, Model::MAX_PRIORITY)?,
        },
        2 => Block::Advance {
            list: source.field(1, model.lists)?,
        },
        3 => Block::Terminate {
            amount: source.field(0, Model::MAX_TERMINATE)?,
        },
        4 => Block::Seize {
            facility: source.field(1, model.facilities)?,
        },
        5 => Block::Release {
            facility: source.field(1, model.facilities)?,
        },
        6 => {
            let (storage, units) = decode_units(source, model)?;
            Block::Enter { storage, units }
        }
        7 => {
            let (storage, units) = decode_units(source, model)?;
            Block::Leave { storage, units }
        }
        8 => {
            let (code, server) = decode_status(source, model)?;
            Block::WaitIfStatus { code, server }
        }
        9 => Block::WaitIfComparison {
            comparison: decode_comparison(source, model, blocks)?,
        },
        10 => Block::If {
            comparison: decode_comparison(source, model, blocks)?,
            target: source.field(1, blocks)?,
        },
        11 => Block::Goto {
            target: source.field(1, blocks)?,
        },
        12 => Block::Let {
            parameter: source.field(1, Model::PARAMETERS)?,
            term: decode_term(source, model, blocks)?,
        },
        13 => Block::Priority {
            priority: source.field(0, Model::MAX_PRIORITY)?,
        },
        14 => Block::Split {
            copies: source.field(1, Model::MAX_COPIES)?,
            target: source.field(1, blocks)?,
        },
        15 => Block::Arrive {
            queue: source.field(1, model.queues)?,
        },
        16 => Block::Depart {
            queue: source.field(1, model.queues)?,
        },
        17 => {
            let (code, server) = decode_status(source, model)?;
            let back = source.field(1, Model::MAX_BACK)?;
            Block::WaitJoined { code, server, back }
        }
        18 => Block::Assemble {
            count: source.field(Model::MIN_ASSEMBLED, Model::MAX_ASSEMBLED)?,
        },
        19 => Block::Preempt {
            facility: source.field(1, model.facilities)?,
        },
        _ => Block::Return {
            facility: source.field(1, model.facilities)?,
        },
    };
    Ok(block)
}

/// Question 7: "Is each GENERATE first or after TERMINATE or GOTO, named by
/// no target, the last block TERMINATE or GOTO, and does each block named in a
/// value exist?"
pub fn well_shaped(model: &Model) -> bool {
    let leaves = |block: &Block| matches!(block, Block::Terminate { .. } | Block::Goto { .. });
    let generate = |block: &Block| matches!(block, Block::Generate { .. });
    for (index, block) in model.blocks.iter().enumerate() {
        if generate(block) && index > 0 && !leaves(&model.blocks[index - 1]) {
            return false;
        }
        if let Some(target) = block.target() {
            if generate(model.block(target)) {
                return false;
            }
        }
    }
    if !(1..=model.blocks.len() as u32).all(|number| group_is_whole(model, number)) {
        return false;
    }
    let last_leaves = model.blocks.last().is_some_and(leaves);
    let blocks = model.blocks.len() as u32;
    last_leaves && model.values.iter().all(|sum| sum_blocks_exist(sum, blocks))
}

/// 02, item 7: "The c blocks before it are server waits of kind 8, and no
/// target names the second of this group, a later one or the kind 17 block itself."
fn group_is_whole(model: &Model, number: u32) -> bool {
    if !matches!(model.block(number), Block::WaitJoined { .. }) {
        return true;
    }
    let Some(group) = model.group(number) else {
        return false; // fewer than c blocks before it
    };
    let inside = group.start + 1..=number;
    let plain = |block: u32| matches!(model.block(block), Block::WaitIfStatus { .. });
    let named = |block: &Block| block.target().is_some_and(|t| inside.contains(&t));
    group.clone().all(plain) && !model.blocks.iter().any(named)
}

fn sum_blocks_exist(sum: &Sum, blocks: u32) -> bool {
    sum.parts
        .iter()
        .all(|part| term_blocks_exist(&part.term, blocks))
}

fn term_blocks_exist(term: &Term, blocks: u32) -> bool {
    match term {
        Term::Entries(block) => *block <= blocks,
        Term::Comparison(comparison) => {
            term_blocks_exist(&comparison.left, blocks)
                && term_blocks_exist(&comparison.right, blocks)
        }
        Term::Bracket(sum) => sum_blocks_exist(sum, blocks),
        _ => true,
    }
}
