//! Numbers from bytes, one after the other, each with its questions.

use super::{Finding, Item, Words};
use crate::limits;
use modeltext::Position;

/// No more can be said of what follows.
pub struct Stop;

pub type Answer<T> = Result<T, Stop>;

/// Takes numbers from the bytes of a model or a tape and keeps what is found.
pub struct Asker<'a> {
    bytes: &'a [u8],
    byte: usize,
    number: usize,
    /// Where the last number that was taken began.
    last: (usize, usize),
    largest: u64,
    /// The questions "whole, shortest, in size?" and "in range?" of this file.
    questions: (u64, u64),
    /// Where each number stands in the text that the bytes were made from. Bytes alone stop at the first finding, since what
    /// follows may be read wrongly.
    places: Option<&'a [Position]>,
    pub item: Item,
    pub findings: Vec<Finding>,
}

impl<'a> Asker<'a> {
    pub fn new(bytes: &'a [u8], places: Option<&'a [Position]>, tape: bool) -> Asker<'a> {
        Asker {
            bytes,
            byte: 0,
            number: 0,
            last: (0, 0),
            largest: if tape {
                limits::TAPE_NUMBER
            } else {
                limits::MODEL_NUMBER
            },
            questions: if tape { (8, 9) } else { (3, 4) },
            places,
            item: Item::Head,
            findings: Vec::new(),
        }
    }

    /// Keeps a finding at the last number taken.
    pub fn found(&mut self, question: u64, words: Words) -> Answer<()> {
        let (byte, number) = self.last;
        self.found_at(question, self.item, byte, number, None, words)
    }

    /// Keeps a finding at a place of its own.
    pub fn found_at(
        &mut self,
        question: u64,
        item: Item,
        byte: usize,
        number: usize,
        at: Option<Position>,
        (rule, remedy): Words,
    ) -> Answer<()> {
        let place = self.places.and_then(|places| places.get(number).copied());
        self.findings.push(Finding {
            question,
            item,
            number: number + 1,
            byte,
            at: at.or(place),
            rule,
            remedy,
        });
        match self.places {
            Some(_) => Ok(()),
            None => Err(Stop),
        }
    }

    /// Where the last number taken began: its byte and which number it is.
    pub fn place(&self) -> (usize, usize) {
        self.last
    }

    pub fn rest(&self) -> (usize, usize, usize) {
        (self.byte, self.number, self.bytes.len() - self.byte)
    }

    /// The next number, whole, shortest and in size.
    pub fn take(&mut self, what: &str) -> Answer<u64> {
        self.last = (self.byte, self.number);
        match self.read() {
            Ok((value, length)) => {
                self.byte += length;
                self.number += 1;
                Ok(value)
            }
            Err(rule) => {
                let remedy = match self.places {
                    Some(_) => format!("{what} is expected here, to {}", self.largest),
                    None => format!("{what} is expected here: write the file anew"),
                };
                let _ = self.found(self.questions.0, (rule, remedy));
                Err(Stop)
            }
        }
    }

    fn too_large(&self, number: u128) -> String {
        format!("the number {number} is above the largest, {}", self.largest)
    }

    fn read(&self) -> Result<(u64, usize), String> {
        let rest = &self.bytes[self.byte..];
        if rest.is_empty() {
            return Err("the file ends early".to_string());
        }
        if rest[0] == 0x80 {
            return Err(
                "a number is not in its shortest form: it begins with the byte 80".to_string(),
            );
        }
        let mut value = 0;
        for (i, byte) in rest.iter().take(limits::NUMBER_BYTES).enumerate() {
            value = value * 128 + u64::from(byte & 0x7f);
            if *byte < 0x80 {
                if value > self.largest {
                    return Err(self.too_large(value.into()));
                }
                return Ok((value, i + 1));
            }
        }
        if self.places.is_some() {
            // Of a text it is whole: tell the number that stands there.
            let groups = rest.iter().take_while(|byte| **byte >= 0x80).count() + 1;
            let number = rest[..groups]
                .iter()
                .fold(0, |n: u128, byte| n << 7 | u128::from(byte & 0x7f));
            return Err(self.too_large(number));
        }
        if rest.len() < limits::NUMBER_BYTES {
            return Err("the file ends inside a number".to_string());
        }
        Err(format!(
            "a number has more than {} bytes",
            limits::NUMBER_BYTES
        ))
    }

    /// The next number, and whether it lies in a range.
    pub fn ask(
        &mut self,
        what: &str,
        (low, high): (u64, u64),
        words: impl FnOnce(u64) -> Words,
    ) -> Answer<u64> {
        let value = self.take(what)?;
        if value < low || value > high {
            self.found(self.questions.1, words(value))?;
        }
        Ok(value)
    }
}

/// The words for a plain number outside its range.
pub fn range_words(what: &str, (low, high): (u64, u64), value: u64) -> Words {
    (
        format!("{what} is from {low} to {high}, and here {value}"),
        format!("write a number from {low} to {high}"),
    )
}
