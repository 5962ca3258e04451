//! A model as numbers and named things, between text and bytes.

use crate::number;
use crate::words::{self, BRACKET, COMPARISON, VALUE};

#[derive(Clone, Debug, PartialEq, Eq)]
pub enum Term {
    /// A tag from 0 to 9 and its number.
    Simple(u32, u32),
    Comparison(u32, Box<Term>, Box<Term>),
    Bracket(Vec<Signed>),
}

/// A term of a sum, and whether it is taken off.
#[derive(Clone, Debug, PartialEq, Eq)]
pub struct Signed {
    pub minus: bool,
    pub term: Term,
}

/// An operand of a block: a number, or a term of tag 0 to 9.
#[derive(Clone, Copy, Debug, PartialEq, Eq)]
pub enum Operand {
    Number(u32),
    Term(u32, u32),
}

#[derive(Clone, Debug, PartialEq, Eq)]
pub struct Block {
    pub kind: u32,
    pub operands: Vec<Operand>,
}

impl Block {
    /// The letters of its operands (`words::Kind`), each with its operand.
    pub fn lettered(&self) -> impl Iterator<Item = (char, Operand)> + '_ {
        let letters = words::kind_of(self.kind).map_or("", |kind| kind.operands);
        letters.chars().zip(self.operands.iter().copied())
    }

    /// The block that a target names.
    pub fn target(&self) -> Option<u32> {
        self.lettered().find_map(|operand| match operand {
            ('b', Operand::Number(n)) => Some(n),
            _ => None,
        })
    }
}

/// The edition of a model that names none.
pub const EDITION: u32 = 1;

#[derive(Clone, Debug, PartialEq, Eq)]
pub struct Model {
    pub edition: u32,
    pub facilities: u32,
    pub capacities: Vec<u32>,
    pub queues: u32,
    pub values: Vec<Vec<Signed>>,
    pub lists: u32,
    pub counter: u32,
    pub blocks: Vec<Block>,
}

impl Default for Model {
    fn default() -> Model {
        Model {
            edition: EDITION,
            facilities: 0,
            capacities: Vec::new(),
            queues: 0,
            values: Vec::new(),
            lists: 0,
            counter: 0,
            blocks: Vec::new(),
        }
    }
}

impl Model {
    pub fn bytes(&self) -> Vec<u8> {
        let mut n = vec![self.edition, self.facilities, self.capacities.len() as u32];
        n.extend(&self.capacities);
        n.extend([self.queues, self.values.len() as u32]);
        for sum in &self.values {
            push_sum(sum, &mut n);
        }
        n.extend([self.lists, self.counter, self.blocks.len() as u32]);
        for block in &self.blocks {
            n.push(block.kind);
            for operand in &block.operands {
                match *operand {
                    Operand::Number(k) => n.push(k),
                    Operand::Term(tag, k) => n.extend([tag, k]),
                }
            }
        }
        let mut out = Vec::new();
        for v in n {
            number::write(u64::from(v), &mut out);
        }
        out
    }

    pub fn from_bytes(bytes: &[u8]) -> Result<Model, String> {
        let mut numbers = Numbers {
            all: number::read_all(bytes)?
                .into_iter()
                .map(u32::try_from)
                .collect::<Result<_, _>>()
                .map_err(|_| "a number is above 4294967295".to_string())?,
            at: 0,
        };
        let model = numbers.model()?;
        if numbers.at < numbers.all.len() {
            return Err(format!("number {} follows the last block", numbers.at + 1));
        }
        Ok(model)
    }
}

fn push_sum(sum: &[Signed], n: &mut Vec<u32>) {
    n.push(sum.len() as u32);
    for signed in sum {
        n.push(u32::from(signed.minus));
        push_term(&signed.term, n);
    }
}

fn push_term(term: &Term, n: &mut Vec<u32>) {
    match term {
        Term::Simple(tag, k) => n.extend([*tag, *k]),
        Term::Comparison(relation, a, b) => {
            n.extend([COMPARISON, *relation]);
            push_term(a, n);
            push_term(b, n);
        }
        Term::Bracket(sum) => {
            n.push(BRACKET);
            push_sum(sum, n);
        }
    }
}

/// The numbers of a model's bytes, read one after the other. Ranges that only the engine's validation asks are not asked here.
struct Numbers {
    all: Vec<u32>,
    at: usize,
}

impl Numbers {
    fn next(&mut self) -> Result<u32, String> {
        let n = self.all.get(self.at).copied();
        self.at += 1;
        n.ok_or_else(|| "the model ends early".to_string())
    }

    fn up_to(&mut self, most: u32) -> Result<u32, String> {
        let n = self.next()?;
        if n > most {
            return Err(format!("number {} is {n}, above {most}", self.at));
        }
        Ok(n)
    }

    fn model(&mut self) -> Result<Model, String> {
        let mut m = Model {
            edition: self.next()?,
            facilities: self.up_to(32)?,
            ..Model::default()
        };
        for _ in 0..self.up_to(32)? {
            let capacity = self.next()?;
            m.capacities.push(capacity);
        }
        m.queues = self.up_to(32)?;
        for _ in 0..self.up_to(8)? {
            let sum = self.sum(5)?;
            m.values.push(sum);
        }
        m.lists = self.up_to(16)?;
        m.counter = self.next()?;
        for _ in 0..self.up_to(256)? {
            let block = self.block()?;
            m.blocks.push(block);
        }
        Ok(m)
    }

    fn sum(&mut self, depth: u32) -> Result<Vec<Signed>, String> {
        let mut sum = Vec::new();
        for _ in 0..self.up_to(8)? {
            let minus = self.up_to(1)? == 1;
            let term = self.term(depth)?;
            sum.push(Signed { minus, term });
        }
        Ok(sum)
    }

    fn term(&mut self, depth: u32) -> Result<Term, String> {
        let tag = self.up_to(BRACKET)?;
        if tag < COMPARISON {
            return Ok(Term::Simple(tag, self.next()?));
        }
        if depth == 0 {
            return Err(format!("number {} opens a bracket too many", self.at));
        }
        if tag == BRACKET {
            return Ok(Term::Bracket(self.sum(depth - 1)?));
        }
        let relation = self.relation()?;
        let a = self.term(depth - 1)?;
        let b = self.term(depth - 1)?;
        Ok(Term::Comparison(relation, Box::new(a), Box::new(b)))
    }

    fn relation(&mut self) -> Result<u32, String> {
        match self.up_to(words::RELATIONS.len() as u32)? {
            0 => Err(format!("number {} is no relation", self.at)),
            r => Ok(r),
        }
    }

    fn block(&mut self) -> Result<Block, String> {
        let number = self.next()?;
        let kind = words::kind_of(number)
            .ok_or_else(|| format!("number {} is no kind of block", self.at))?;
        let mut operands = Vec::new();
        for letter in kind.operands.chars() {
            operands.push(match letter {
                't' => Operand::Term(self.up_to(VALUE)?, self.next()?),
                'r' => Operand::Number(self.relation()?),
                'c' => match self.up_to(words::CODES.len() as u32)? {
                    0 => return Err(format!("number {} is no status code", self.at)),
                    code => Operand::Number(code),
                },
                _ => Operand::Number(self.next()?),
            });
        }
        Ok(Block {
            kind: number,
            operands,
        })
    }
}
