//! Blocks and their operands.

use super::Reader;
use crate::model::{Block, Operand};
use crate::read::{no_block, plain};
use crate::scan::Word;
use crate::words::{self, Kind};
use crate::Fault;

impl<'a> Reader<'a> {
    fn operand(&mut self, letter: char) -> Result<Operand, Fault> {
        let at = self.place();
        let number = match letter {
            't' => {
                let (tag, n) = self.simple()?;
                return Ok(Operand::Term(tag, n));
            }
            'f' | 's' | 'q' | 'l' | 'b' => self.named(letter)?,
            'r' => self.relation()?,
            _ => self.number(words::number_of(letter).map_or("this operand", |n| n.what))?,
        };
        self.numbers.push(at);
        Ok(Operand::Number(number))
    }

    /// A block; its keyword stands first.
    pub fn block(&mut self) -> Result<Block, Fault> {
        let Some(first) = self.tokens.first() else {
            return Ok(no_block());
        };
        self.numbers.push(first.at);
        let mut kinds = words::KINDS.iter().filter(|k| k.word == self.keyword);
        let kind = match self.keyword {
            "WAITIF" if self.status().is_none() => words::kind_of(words::WAITIF_COMPARISON),
            _ => kinds.next(),
        };
        let Some(kind) = kind else {
            return Ok(no_block());
        };
        let mut number = kind.number;
        let operands = match kind.number {
            words::WAITIF_STATUS => {
                let mut operands = self.wait_for_status()?;
                if self.take(",") {
                    number = words::WAITIF_JOINED;
                    operands.push(self.operand('g')?);
                }
                operands
            }
            words::WAITIF_COMPARISON => self.wait_for_comparison()?,
            words::IF => self.if_operands()?,
            words::LET => self.let_operands()?,
            _ => self.operands(kind)?,
        };
        self.end()?;
        Ok(Block {
            kind: number,
            operands,
        })
    }

    /// Operands with commas between them; the last may be left out where the kind says what stands for it.
    fn operands(&mut self, kind: &Kind) -> Result<Vec<Operand>, Fault> {
        let mut operands = Vec::new();
        let count = kind.operands.chars().count();
        for (i, letter) in kind.operands.chars().enumerate() {
            let last = i + 1 == count;
            match kind.left_out {
                Some(n) if last && self.at == self.tokens.len() => {
                    self.numbers.push(self.place());
                    operands.push(Operand::Number(n));
                }
                _ => {
                    if i > 0 {
                        self.sign(",", &usage(kind))?;
                    }
                    operands.push(self.operand(letter)?);
                }
            }
        }
        Ok(operands)
    }

    fn comparison(&mut self) -> Result<Vec<Operand>, Fault> {
        let from = self.at;
        let mut operands = vec![self.operand('t')?];
        self.no_sum(from)?;
        operands.push(self.operand('r')?);
        let from = self.at;
        operands.push(self.operand('t')?);
        self.no_sum(from)?;
        Ok(operands)
    }

    /// `WAITIF term relation term`.
    fn wait_for_comparison(&mut self) -> Result<Vec<Operand>, Fault> {
        let operands = self.comparison()?;
        if self.is(",") {
            return Err(self.fault(
                "only a WAITIF on a server is joined with waits before it",
                "write WAITIF server = code, number",
            ));
        }
        Ok(operands)
    }

    /// A sum stands only in a value.
    fn no_sum(&self, from: usize) -> Result<(), Fault> {
        if !self.is("+") && !self.is("-") {
            return Ok(());
        }
        let sum = self.rest(from);
        let stops = |c: char| c == ',' || c == '<' || c == '>' || c == '=';
        let sum = sum.split(stops).next().unwrap_or_default().trim();
        let sum = sum.to_string();
        Err(self.fault(
            format!(
                "{} takes one term here and not a sum, which only a VALUE has",
                self.keyword
            ),
            format!("declare VALUE result = {sum}, and write v$result in place of {sum}"),
        ))
    }

    /// `server = code` at the next word: the server's name and the code's number.
    fn status(&self) -> Option<(&'a str, u32)> {
        let Some(Word::Name(server)) = self.word() else {
            return None;
        };
        let low = server.to_lowercase();
        let term =
            low == "cl" || matches!(low.strip_prefix('p').map(str::parse::<u32>), Some(Ok(_)));
        if term || self.ahead(1) != Some(&Word::Sign("=")) {
            return None;
        }
        let code = plain(self.ahead(2)?)?;
        let code = words::CODES
            .iter()
            .position(|c| c.word.eq_ignore_ascii_case(&code))?;
        Some((server, code as u32 + 1))
    }

    /// `server = code` of a WAITIF.
    fn wait_for_status(&mut self) -> Result<Vec<Operand>, Fault> {
        let code = self.status().map_or(0, |(_, code)| code);
        let facility = words::code_of(code).is_some_and(|c| c.facility);
        self.numbers
            .extend(self.tokens.get(self.at + 2).map(|t| t.at));
        let (letter, other) = if facility { ('f', 's') } else { ('s', 'f') };
        let (name, at) = (self.rest(self.at), self.place());
        let server = self.operand(letter).map_err(|fault| {
            let name = name.split('=').next().unwrap_or_default().trim();
            if self.names.find(other, name).is_none() {
                return fault;
            }
            let remedy = if facility {
                "the codes of a storage are E empty, NE not empty, F full, NF not full"
            } else {
                "the codes of a facility are U in use, NU not in use"
            };
            let what = format!(
                "`{name}` is a {}, which has no such code",
                words::thing(other)
            );
            Fault::at(at, what, remedy)
        })?;
        self.at += 2;
        Ok(vec![Operand::Number(code), server])
    }

    fn if_operands(&mut self) -> Result<Vec<Operand>, Fault> {
        if let Some((server, code)) = self.status() {
            let code = &words::CODES[code as usize - 1];
            let target = self.rest(self.at + 4);
            let target = if target.is_empty() { "label" } else { &target };
            return Err(self.fault(
                "IF compares two terms; only WAITIF takes a status code",
                format!("write IF {}{server} {}, {target}", code.term, code.holds),
            ));
        }
        let mut operands = self.comparison()?;
        self.sign(",", "write IF term relation term, label")?;
        operands.push(self.operand('b')?);
        Ok(operands)
    }

    fn let_operands(&mut self) -> Result<Vec<Operand>, Fault> {
        let (name, at) = self.name("a parameter", "write LET p1 = term, with p1 to p4")?;
        let k = name.to_lowercase();
        let k = k.strip_prefix('p').and_then(|k| k.parse().ok());
        let k = k.ok_or_else(|| {
            Fault::at(
                at,
                format!("`{name}` is no parameter"),
                "a parameter is one of p1 to p4",
            )
        })?;
        self.numbers.push(at);
        self.sign("=", "write LET p1 = term, with p1 to p4")?;
        let from = self.at;
        let bracket = self.is("(");
        if bracket {
            let sum = self.rest(from);
            return Err(self.fault(
                "LET takes one term here and not a sum, which only a VALUE has",
                format!("declare VALUE result = {sum}, and write LET {name} = v$result"),
            ));
        }
        let term = self.operand('t')?;
        if self.is("+") || self.is("-") {
            let sum = self.rest(from);
            return Err(self.fault(
                "LET takes one term and not a sum, which only a VALUE has",
                format!("declare VALUE result = {sum}, and write LET {name} = v$result"),
            ));
        }
        Ok(vec![Operand::Number(k), term])
    }
}

/// How a kind is written.
fn usage(kind: &Kind) -> String {
    let operands: Vec<&str> = kind
        .operands
        .chars()
        .map(|letter| match letter {
            'u' => "units",
            'y' => "priority",
            'n' => "copies",
            'b' => "label",
            letter => words::thing(letter),
        })
        .collect();
    format!("write {} {}", kind.word, operands.join(", "))
}
