//! Damaged cases: something that a question at the door may refuse.

use super::fields::{count_numbers, encode_fields, encode_model, model_fields, tape_fields, Field};
use super::random::Random;
use super::sums::{long_value, wild_sum, Scope};
use super::{edition, good_case, Case, Size};
use crate::model::{Block, Comparison, Model, Part, Sum, Term};
use crate::number::number_bytes;
use crate::rules::Rules;
use crate::tape::Tape;

/// A case made from a good model and tape with one or two damages.
pub fn damaged_case(
    rules: Rules,
    random: &mut Random,
    size: Size,
    mut model: Model,
    tape: Tape,
) -> Case {
    model.edition = edition(rules, random);
    let mut case = good_case(rules, random, size, &model, &tape);
    match random.below(10) {
        0..=3 => {
            case.model = damaged_bytes(random, &model_fields(rules, &model));
        }
        4..=5 => {
            let number = break_value(random, &mut model);
            let mut fields = model_fields(rules, &model);
            if random.one_in(3) {
                spoil_near_the_65th(random, &model, number, &mut fields);
            }
            case.model = encode_fields(&fields);
        }
        6..=7 => {
            break_shape(rules, random, &mut model);
            case.model = encode_model(&model);
        }
        _ => {
            let fields = tape_fields(rules, &tape);
            // A long tape is damaged near its front, where little else is said.
            let fields = &fields[..fields.len().min(400)];
            case.tape = damaged_bytes(random, fields);
        }
    }
    if random.one_in(6) {
        case.model = scratch(random, case.model);
    }
    if random.one_in(6) {
        case.tape = scratch(random, case.tape);
    }
    case
}

/// The bytes of these fields with one damage.
fn damaged_bytes(random: &mut Random, fields: &[Field]) -> Vec<u8> {
    let mut bytes = encode_fields(fields);
    if fields.is_empty() {
        return trailing(random, bytes);
    }
    let at = random.below(fields.len() as u64) as usize;
    match random.below(12) {
        0 => {
            let length = random.below(bytes.len() as u64) as usize;
            bytes.truncate(length);
            bytes
        }
        1 => {
            // Cut between two numbers.
            encode_fields(&fields[..at])
        }
        2 => trailing(random, bytes),
        3 => {
            // Padded, over-long or too large at one number.
            let odd = odd_number(random, fields[at].value);
            let mut spoilt = encode_fields(&fields[..at]);
            spoilt.extend(odd);
            spoilt.extend(encode_fields(&fields[at + 1..]));
            spoilt
        }
        4 => {
            let mut spoilt = fields.to_vec();
            spoilt.remove(at);
            encode_fields(&spoilt)
        }
        5 => {
            let mut spoilt = fields.to_vec();
            spoilt.insert(at, fields[random.below(fields.len() as u64) as usize]);
            encode_fields(&spoilt)
        }
        _ => {
            let mut spoilt = fields.to_vec();
            spoilt[at].value = near_range(random, &fields[at]);
            encode_fields(&spoilt)
        }
    }
}

/// A value at or beside the ends of the field's range.
fn near_range(random: &mut Random, field: &Field) -> u64 {
    let most = field.high.max(u64::from(u32::MAX));
    match random.below(8) {
        0 => field.low,
        1 => field.high,
        2..=3 => field.low.checked_sub(1).unwrap_or(most),
        4..=5 => field.high + 1,
        6 => random.between(field.high, most),
        _ => *random.pick(&[0, 127, 128, 256, 257, 65_535, 65_536, most]),
    }
}

/// A number in bytes that question 3 or 8 refuses, or nearly so.
fn odd_number(random: &mut Random, value: u64) -> Vec<u8> {
    let plain = number_bytes(value);
    match random.below(9) {
        0..=1 => {
            let mut bytes = vec![0x80];
            bytes.extend(plain);
            bytes
        }
        2 => vec![0x80, 0x80, 0x01],
        3 => vec![0x90, 0x80, 0x80, 0x80, 0x00], // 4,294,967,296: too large in a model
        4 => vec![0x8F, 0xFF, 0xFF, 0xFF, 0x7F], // 4,294,967,295: whole and in size
        5 => vec![0xFF, 0xFF, 0xFF, 0xFF, 0x7F], // 34,359,738,367: the largest of five bytes
        6 => vec![0x81, 0x80, 0x80, 0x80, 0x80, 0x00], // 34,359,738,368: six bytes
        7 => vec![0x80; random.between(1, 7) as usize],
        _ => {
            let mut bytes = plain;
            for byte in &mut bytes {
                *byte |= 0x80;
            }
            bytes
        }
    }
}

fn trailing(random: &mut Random, mut bytes: Vec<u8>) -> Vec<u8> {
    for _ in 0..random.between(1, 3) {
        bytes.push(random.below(256) as u8);
    }
    bytes
}

/// One byte changed, added, lost or cut off with all after it.
fn scratch(random: &mut Random, mut bytes: Vec<u8>) -> Vec<u8> {
    if bytes.is_empty() {
        return trailing(random, bytes);
    }
    let at = random.below(bytes.len() as u64) as usize;
    match random.below(5) {
        0 => bytes[at] = random.below(256) as u8,
        1 => bytes[at] ^= 1 << random.below(8),
        2 => bytes.insert(at, random.below(256) as u8),
        3 => bytes.truncate(at),
        _ => {
            bytes.remove(at);
        }
    }
    bytes
}

fn scope(model: &Model, values: u32) -> Scope {
    Scope {
        facilities: model.facilities,
        storages: model.capacities.len() as u32,
        queues: model.queues,
        values,
        blocks: model.blocks.len() as u32,
        span: 100,
    }
}

/// Spoils a number of this value at or beside its 65th: 3, 4 and 5 meet.
fn spoil_near_the_65th(random: &mut Random, model: &Model, number: u32, fields: &mut [Field]) {
    let head = 5 + model.capacities.len();
    let before: usize = model.values[..number as usize - 1]
        .iter()
        .map(count_numbers)
        .sum();
    let at = head + before + random.between(63, 65) as usize;
    if count_numbers(&model.values[number as usize - 1]) > 65 {
        fields[at].value = near_range(random, &fields[at]);
    }
}

/// Question 5: a value at its limits or over them. Gives its number.
pub fn break_value(random: &mut Random, model: &mut Model) -> u32 {
    while model.values.len() < 2 {
        let scope = scope(model, 0);
        model.values.push(wild_sum(random, &scope, 0, 2));
    }
    let number = random.number(1, model.values.len() as u32);
    let scope = scope(model, number - 1);
    let sum = match random.below(6) {
        0 => long_value(random, &scope, true),
        1 => long_value(random, &scope, false),
        2 => nested(random, &scope, 5),
        3 => nested(random, &scope, 4),
        4 if number > 1 => mentions(random, number - 1, 3),
        5 if number > 1 => mentions(random, number - 1, 2),
        _ => wild_sum(random, &scope, 6, 4),
    };
    model.values[number as usize - 1] = sum;
    number
}

fn plus(term: Term) -> Part {
    Part { minus: false, term }
}

/// Brackets or comparisons inside each other, `depth` deep.
fn nested(random: &mut Random, scope: &Scope, depth: u32) -> Sum {
    let mut term = Term::Parameter(random.number(1, 4));
    for _ in 0..depth {
        let other = Term::Constant(random.number(0, 3));
        term = match random.below(4) {
            0 => Term::Comparison(Box::new(Comparison {
                left: term,
                relation: random.number(1, 6),
                right: other,
            })),
            1 => Term::Comparison(Box::new(Comparison {
                left: other,
                relation: random.number(1, 6),
                right: term,
            })),
            2 => Term::Bracket(Sum {
                parts: vec![plus(term)],
            }),
            _ => Term::Bracket(Sum {
                parts: vec![plus(other), plus(term), plus(Term::Clock)],
            }),
        };
    }
    let mut sum = wild_sum(random, scope, 0, 2);
    sum.parts.push(plus(term));
    sum
}

/// A sum that names values `count` times.
fn mentions(random: &mut Random, lower: u32, count: u32) -> Sum {
    let mut sum = Sum { parts: Vec::new() };
    for mention in 1..=count {
        // The third may be out of range as well: that is asked first.
        let over = u32::from(mention == 3 && random.one_in(3));
        let named = Term::Value(random.number(1, lower + over));
        let term = match random.below(3) {
            0 => Term::Bracket(Sum {
                parts: vec![plus(Term::Clock), plus(named)],
            }),
            _ => named,
        };
        sum.parts.push(Part {
            minus: random.one_in(2),
            term,
        });
    }
    sum
}

/// Question 7: a block where it may not stand, or a name of none.
pub fn break_shape(rules: Rules, random: &mut Random, model: &mut Model) {
    if rules.joined && random.one_in(3) {
        super::joined::break_group(random, model);
        return;
    }
    let count = model.blocks.len() as u32;
    let at = random.below(u64::from(count)) as usize;
    let generate = Block::Generate {
        list: 1,
        priority: 0,
    };
    match random.below(6) {
        0 => model.blocks[at] = generate,
        1 => {
            // A target at a GENERATE.
            let aim = (1..=count).find(|n| matches!(model.block(*n), Block::Generate { .. }));
            let aim = aim.unwrap_or(1);
            model.blocks[at] = match random.below(3) {
                0 => Block::Goto { target: aim },
                1 => Block::Split {
                    copies: 1,
                    target: aim,
                },
                _ => Block::If {
                    comparison: Comparison {
                        left: Term::Clock,
                        relation: 2,
                        right: Term::Constant(0),
                    },
                    target: aim,
                },
            };
        }
        2 => {
            model.blocks.pop();
            if model.blocks.is_empty() {
                model.blocks.push(generate);
            }
        }
        3 => {
            let last = model.blocks.len() - 1;
            model.blocks[last] = Block::Priority { priority: 1 };
        }
        4 => {
            // A value naming a block after the last, or the last itself.
            let block = *random.pick(&[count, count + 1, count + 1, Model::MAX_BLOCKS]);
            let block = block.min(Model::MAX_BLOCKS);
            let entries = Term::Entries(block);
            let term = match random.below(3) {
                0 => Term::Bracket(Sum {
                    parts: vec![plus(entries)],
                }),
                1 => Term::Comparison(Box::new(Comparison {
                    left: Term::Clock,
                    relation: 4,
                    right: entries,
                })),
                _ => entries,
            };
            if model.values.len() < Model::MAX_VALUES as usize {
                model.values.push(Sum {
                    parts: vec![plus(term)],
                });
            }
        }
        _ => {
            if count < Model::MAX_BLOCKS {
                model.blocks.insert(at, generate);
            }
        }
    }
}
