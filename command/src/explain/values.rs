//! Questions 3 to 5 inside a value: a sum of terms, sums and comparisons.

use super::asker::{range_words, Answer, Asker};
use super::model::{Head, Shape};
use crate::limits;
use modeltext::words::{self, BRACKET, COMPARISON};

/// What question 5 counts within one value.
struct Value<'a, 'b> {
    asker: &'a mut Asker<'b>,
    head: &'a Head<'a>,
    shape: &'a mut Shape,
    number: u64,
    numbers: u64,
    open: u64,
    mentions: u64,
}

pub fn value(asker: &mut Asker, head: &Head, number: u64, shape: &mut Shape) -> Answer<()> {
    let mut value = Value {
        asker,
        head,
        shape,
        number,
        numbers: 0,
        open: 0,
        mentions: 0,
    };
    value.sum()
}

impl Value<'_, '_> {
    fn who(&self) -> String {
        self.head.thing('w', self.number)
    }

    /// A number that was taken counts towards the most of a value.
    fn counted(&mut self) -> Answer<()> {
        self.numbers += 1;
        if self.numbers != limits::VALUE_NUMBERS + 1 {
            return Ok(());
        }
        let rule = format!(
            "{} has more than {} numbers",
            self.who(),
            limits::VALUE_NUMBERS
        );
        let remedy = "move a part of it to a VALUE before it".to_string();
        self.asker.found(5, (rule, remedy))
    }

    fn ask(&mut self, what: &str, range: (u64, u64)) -> Answer<u64> {
        let who = self.who();
        let number = self.asker.ask(what, range, |n| {
            range_words(&format!("in {who}, {what}"), range, n)
        })?;
        self.counted()?;
        Ok(number)
    }

    fn sum(&mut self) -> Answer<()> {
        let count = self.ask("the number of terms of a sum", (1, limits::SUM_TERMS))?;
        for _ in 0..count {
            self.ask("a sign", (0, 1))?;
            self.term()?;
        }
        Ok(())
    }

    fn term(&mut self) -> Answer<()> {
        let tag = self.ask("the tag of a term", (0, u64::from(BRACKET)))? as u32;
        if tag != COMPARISON && tag != BRACKET {
            return self.simple(tag);
        }
        self.open += 1;
        if self.open == limits::OPEN_BRACKETS + 1 {
            let most = limits::OPEN_BRACKETS;
            let rule = format!(
                "{} opens more than {most} brackets inside each other",
                self.who()
            );
            let remedy = "move the inner bracket to a VALUE before it".to_string();
            self.asker.found(5, (rule, remedy))?;
        }
        if tag == BRACKET {
            self.sum()?;
        } else {
            self.ask("a relation", (1, words::RELATIONS.len() as u64))?;
            self.term()?;
            self.term()?;
        }
        self.open -= 1;
        Ok(())
    }

    fn simple(&mut self, tag: u32) -> Answer<()> {
        let of = words::tag_of(tag).map_or('o', |tag| tag.of);
        let (who, number, head) = (self.who(), self.number, self.head);
        let range = match of {
            'b' => (1, limits::BLOCKS),
            'w' => (1, number - 1),
            letter => super::blocks::term_range(head, letter),
        };
        let n = self.asker.ask("a term", range, |n| match of {
            'b' => {
                let what = format!("in {who}, a block number");
                range_words(&what, range, n)
            }
            'w' if n >= number && n <= head.values => {
                let later = head.thing('w', n);
                let same = n == number;
                let rule = if same {
                    format!("{who} names itself")
                } else {
                    format!("{who} names {later}, which stands behind it")
                };
                let remedy = if same {
                    "a value names only values before it".to_string()
                } else {
                    format!("a value names only values before it: move {later} before {who}")
                };
                (rule, remedy)
            }
            letter => super::blocks::term_words(head, &who, letter, n),
        })?;
        self.counted()?;
        if of == 'b' {
            self.shape.named.push((number, n, self.asker.place()));
        }
        if of == 'w' {
            self.mentions += 1;
            if self.mentions == limits::MENTIONS + 1 {
                let rule = format!("{who} names values more than {} times", limits::MENTIONS);
                let remedy = "join two of them in a VALUE before it".to_string();
                self.asker.found(5, (rule, remedy))?;
            }
        }
        Ok(())
    }
}
