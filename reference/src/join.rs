//! Two plants as one model (02, item 13).

use crate::decode::decode_model_with;
use crate::generate::fields::{encode_model, encode_tape};
use crate::model::{Block, Comparison, Model, Part, Sum, Term};
use crate::rules::Rules;
use crate::tape::{decode_tape_with, Tape};

/// "editions differ or a joined count or the counter passes its limit"
pub const CANNOT_JOIN: u32 = 61;

/// "the output needs more bytes than were lent"
pub const NO_ROOM: u32 = 62;

/// The same under the rules of the engine.
pub fn join(
    first: (&[u8], &[u8]),
    second: (&[u8], &[u8]),
    model: &mut [u8],
    tape: &mut [u8],
) -> Result<(usize, usize), u32> {
    join_with(Rules::LANDED, first, second, model, tape)
}

/// Joins two pairs of model and tape; gives the bytes written of each. "Answers:
/// each model's, then its tape's own numbers, first pair first; then 61 ..; then 62".
pub fn join_with(
    rules: Rules,
    first: (&[u8], &[u8]),
    second: (&[u8], &[u8]),
    model: &mut [u8],
    tape: &mut [u8],
) -> Result<(usize, usize), u32> {
    let (model1, tape1) = decoded(rules, first)?;
    let (model2, tape2) = decoded(rules, second)?;
    let joined = join_models(&model1, &model2).ok_or(CANNOT_JOIN)?;
    let model_bytes = encode_model(&joined);
    let tape_bytes = encode_tape(&[tape1, tape2].concat());
    if model_bytes.len() > model.len() || tape_bytes.len() > tape.len() {
        return Err(NO_ROOM);
    }
    model[..model_bytes.len()].copy_from_slice(&model_bytes);
    tape[..tape_bytes.len()].copy_from_slice(&tape_bytes);
    Ok((model_bytes.len(), tape_bytes.len()))
}

fn decoded(rules: Rules, pair: (&[u8], &[u8])) -> Result<(Model, Tape), u32> {
    let model = decode_model_with(rules, pair.0)?;
    let tape = decode_tape_with(rules, pair.1, model.lists)?;
    Ok((model, tape))
}

/// The joined model; `None` where the answer is 61.
pub fn join_models(first: &Model, second: &Model) -> Option<Model> {
    let shift = Shift {
        facilities: first.facilities,
        storages: first.capacities.len() as u32,
        queues: first.queues,
        values: first.values.len() as u32,
        lists: first.lists,
        blocks: first.blocks.len() as u32,
    };
    let mut joined = first.clone();
    joined.facilities += second.facilities;
    joined.capacities.extend(&second.capacities);
    joined.queues += second.queues;
    joined
        .values
        .extend(second.values.iter().map(|sum| shift.sum(sum)));
    joined.lists += second.lists;
    joined.counter += second.counter;
    joined
        .blocks
        .extend(second.blocks.iter().map(|block| shift.block(block)));
    let within = first.edition == second.edition
        && joined.facilities <= Model::MAX_FACILITIES
        && joined.capacities.len() as u32 <= Model::MAX_STORAGES
        && joined.queues <= Model::MAX_QUEUES
        && joined.values.len() as u32 <= Model::MAX_VALUES
        && joined.lists <= Model::MAX_LISTS
        && joined.counter <= Model::MAX_COUNTER
        && joined.blocks.len() as u32 <= Model::MAX_BLOCKS;
    within.then_some(joined)
}

/// "numbered on after the first's": how many the first has of each.
struct Shift {
    facilities: u32,
    storages: u32,
    queues: u32,
    values: u32,
    lists: u32,
    blocks: u32,
}

impl Shift {
    fn sum(&self, sum: &Sum) -> Sum {
        let part = |part: &Part| Part {
            minus: part.minus,
            term: self.term(&part.term),
        };
        Sum {
            parts: sum.parts.iter().map(part).collect(),
        }
    }

    fn term(&self, term: &Term) -> Term {
        match term {
            Term::Constant(_) | Term::MinusConstant(_) | Term::Parameter(_) | Term::Clock => {
                term.clone()
            }
            Term::Entries(number) => Term::Entries(number + self.blocks),
            Term::Content(number) => Term::Content(number + self.queues),
            Term::UnitsInUse(number) => Term::UnitsInUse(number + self.storages),
            Term::UnitsFree(number) => Term::UnitsFree(number + self.storages),
            Term::FacilityInUse(number) => Term::FacilityInUse(number + self.facilities),
            Term::Value(number) => Term::Value(number + self.values),
            Term::Comparison(comparison) => Term::Comparison(Box::new(self.comparison(comparison))),
            Term::Bracket(sum) => Term::Bracket(self.sum(sum)),
        }
    }

    fn comparison(&self, comparison: &Comparison) -> Comparison {
        Comparison {
            left: self.term(&comparison.left),
            relation: comparison.relation,
            right: self.term(&comparison.right),
        }
    }

    fn server(&self, code: u32, server: u32) -> u32 {
        if code <= 2 {
            server + self.facilities
        } else {
            server + self.storages
        }
    }

    fn block(&self, block: &Block) -> Block {
        let mut block = block.clone();
        match &mut block {
            Block::Generate { list, .. } | Block::Advance { list } => *list += self.lists,
            Block::Seize { facility }
            | Block::Release { facility }
            | Block::Preempt { facility }
            | Block::Return { facility } => *facility += self.facilities,
            Block::Enter { storage, .. } | Block::Leave { storage, .. } => {
                *storage += self.storages;
            }
            Block::WaitIfStatus { code, server } | Block::WaitJoined { code, server, .. } => {
                *server = self.server(*code, *server);
            }
            Block::WaitIfComparison { comparison } => *comparison = self.comparison(comparison),
            Block::If { comparison, target } => {
                *comparison = self.comparison(comparison);
                *target += self.blocks;
            }
            Block::Goto { target } | Block::Split { target, .. } => *target += self.blocks,
            Block::Let { term, .. } => *term = self.term(term),
            Block::Arrive { queue } | Block::Depart { queue } => *queue += self.queues,
            Block::Terminate { .. } | Block::Priority { .. } | Block::Assemble { .. } => {}
        }
        block
    }
}

/// Does the model use the clock term anywhere, in a value that nobody reads too?
pub fn uses_clock(model: &Model) -> bool {
    model.values.iter().any(sum_uses_clock)
        || model.blocks.iter().any(|block| match block {
            Block::WaitIfComparison { comparison } | Block::If { comparison, .. } => {
                comparison_uses_clock(comparison)
            }
            Block::Let { term, .. } => term_uses_clock(term),
            _ => false,
        })
}

fn sum_uses_clock(sum: &Sum) -> bool {
    sum.parts.iter().any(|part| term_uses_clock(&part.term))
}

fn comparison_uses_clock(comparison: &Comparison) -> bool {
    term_uses_clock(&comparison.left) || term_uses_clock(&comparison.right)
}

fn term_uses_clock(term: &Term) -> bool {
    match term {
        Term::Clock => true,
        Term::Comparison(comparison) => comparison_uses_clock(comparison),
        Term::Bracket(sum) => sum_uses_clock(sum),
        _ => false,
    }
}

/// The records of one part of a joined run, each clock, transaction, block,
/// outcome: blocks `blocks.start + 1..=blocks.end`, "with blocks numbered as
/// before and transactions by rank within the part".
pub fn part_records(records: &[[u64; 4]], blocks: std::ops::Range<u64>) -> Vec<[u64; 4]> {
    let of_part = |record: &&[u64; 4]| record[2] > blocks.start && record[2] <= blocks.end;
    let mut numbers: Vec<u64> = records.iter().filter(of_part).map(|r| r[1]).collect();
    numbers.sort();
    numbers.dedup();
    let rank = |number: u64| numbers.partition_point(|other| *other <= number) as u64;
    records
        .iter()
        .filter(of_part)
        .map(|r| [r[0], rank(r[1]), r[2] - blocks.start, r[3]])
        .collect()
}
