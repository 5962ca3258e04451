//! Questions 3 to 7: the model.

use super::asker::{range_words, Answer, Asker};
use super::{Finding, Item, Words};
use crate::limits;
use modeltext::names::Named;
use modeltext::read::Source;
use modeltext::words;
use modeltext::Position;

/// What the questions of blocks and values need of the model before them.
pub struct Head<'a> {
    pub source: Option<&'a Source>,
    pub facilities: u64,
    pub capacities: Vec<u64>,
    pub queues: u64,
    pub values: u64,
    pub lists: u64,
    pub blocks: u64,
}

impl Head<'_> {
    /// How many things a letter has (`modeltext::words::Kind`).
    pub fn count(&self, letter: char) -> u64 {
        match letter {
            'f' => self.facilities,
            's' => self.capacities.len() as u64,
            'q' => self.queues,
            'l' => self.lists,
            'w' => self.values,
            _ => self.blocks,
        }
    }

    /// A thing as a message calls it: by its name, or by its number.
    pub fn thing(&self, letter: char, number: u64) -> String {
        let word = if letter == 'b' {
            "block"
        } else {
            words::thing(letter)
        };
        match self.name(letter, number) {
            Some(name) => format!("{word} `{name}`"),
            None => format!("{word} {number}"),
        }
    }

    pub fn name(&self, letter: char, number: u64) -> Option<&str> {
        let mut named = self.source?.names.of(letter).iter();
        let found = named.find(|named| u64::from(named.number) == number)?;
        Some(&found.name)
    }

    /// The words for a number that names nothing there is.
    pub fn nothing(&self, who: &str, letter: char, number: u64) -> Words {
        let count = self.count(letter);
        let word = if letter == 'b' {
            "block"
        } else {
            words::thing(letter)
        };
        let has = match (letter, count) {
            ('w', 0) => "the model has none before it".to_string(),
            (_, 0) => "the model has none".to_string(),
            (_, 1) => format!("the model has {word} 1 alone"),
            _ => format!("the model has {word}s 1 to {count}"),
        };
        let declare = match letter {
            's' => "STORAGE name = capacity".to_string(),
            'w' => "VALUE name = sum, before it".to_string(),
            _ => format!("{} name", word.to_uppercase()),
        };
        let named = self
            .source
            .map_or(&[][..], |source| source.names.of(letter));
        let names: Vec<&str> = named.iter().map(|named| named.name.as_str()).collect();
        let remedy = match (letter, names.is_empty()) {
            ('b', _) => "name a block by its label".to_string(),
            (_, true) => format!("declare it: {declare}"),
            _ => format!(
                "write {}, or declare another: {declare}",
                names.join(" or ")
            ),
        };
        (format!("{who} names {word} {number}, and {has}"), remedy)
    }
}

/// The blocks' kinds and targets, for question 7.
#[derive(Default)]
pub struct Shape {
    pub kinds: Vec<u64>,
    /// Where each kind stands: byte and number.
    pub places: Vec<(usize, usize)>,
    /// The block that has a target, the target and where it stands.
    pub targets: Vec<(u64, u64, (usize, usize))>,
    /// Joined waits: the block, how many it goes back, and where that stands.
    pub groups: Vec<(u64, u64, (usize, usize))>,
    /// Values that name blocks: the value, the block and where it stands.
    pub named: Vec<(u64, u64, (usize, usize))>,
}

/// Asks all questions of a model. The first finding is the refusal; bytes without a text have no more than one.
/// Gives the number of lists too, if it was reached.
pub fn model(bytes: &[u8], source: Option<&Source>) -> (Vec<Finding>, Option<u64>) {
    let places = source.map(|source| source.numbers.as_slice());
    let mut asker = Asker::new(bytes, places, false);
    let mut lists = None;
    let _ = questions(&mut asker, source, &mut lists);
    (asker.findings, lists)
}

fn questions(asker: &mut Asker, source: Option<&Source>, lists: &mut Option<u64>) -> Answer<()> {
    let mut shape = Shape::default();
    let last = limits::EDITION;
    asker.ask("the edition", (1, last), |n| {
        let remedy = match source {
            Some(_) => format!("write EDITION 1, or EDITION {last} for the 1996 rules"),
            None => "this is no model, or one for another engine".to_string(),
        };
        (
            format!("the edition is {n}, and known are 1 and {last}"),
            remedy,
        )
    })?;
    let mut head = Head {
        source,
        facilities: 0,
        capacities: Vec::new(),
        queues: 0,
        values: 0,
        lists: 0,
        blocks: 0,
    };
    head.facilities = count(asker, source, 'f', limits::FACILITIES)?;
    let storages = count(asker, source, 's', limits::STORAGES)?;
    for k in 1..=storages {
        asker.item = Item::Capacity(k);
        let name = head.thing('s', k);
        let range = (1, limits::CAPACITY);
        let capacity = asker.ask("a capacity", range, |n| {
            range_words(&format!("the capacity of {name}"), range, n)
        })?;
        head.capacities.push(capacity);
    }
    asker.item = Item::Head;
    head.queues = count(asker, source, 'q', limits::QUEUES)?;
    head.values = count(asker, source, 'w', limits::VALUES)?;
    for k in 1..=head.values {
        asker.item = Item::Value(k);
        super::values::value(asker, &head, k, &mut shape)?;
    }
    asker.item = Item::Head;
    head.lists = count(asker, source, 'l', limits::LISTS)?;
    let range = (1, limits::COUNTER);
    asker.ask("the counter", range, |n| {
        range_words("the counter", range, n)
    })?;
    head.blocks = blocks(asker, source)?;
    *lists = Some(head.lists);
    for k in 1..=head.blocks {
        asker.item = Item::Block(k);
        super::blocks::block(asker, &head, k, &mut shape)?;
    }
    let (byte, number, left) = asker.rest();
    if left > 0 {
        let rule = format!("{left} bytes follow the last block, which ends at byte {byte}");
        let remedy =
            "write the file anew from its text, or correct the count of blocks".to_string();
        asker.found_at(6, Item::Rest, byte, number, None, (rule, remedy))?;
    }
    super::shape::shape(asker, &head, &shape)
}

/// A count of things that are declared, from 0 on.
fn count(asker: &mut Asker, source: Option<&Source>, letter: char, most: u64) -> Answer<u64> {
    let word = words::thing(letter);
    let value = asker.take(&format!("the number of {word}s"))?;
    if value > most {
        let named: &[Named] = source.map_or(&[], |source| source.names.of(letter));
        let at = named.get(most as usize).map(|named| named.at);
        too_many(asker, &format!("{word}s"), value, most, at)?;
    }
    Ok(value)
}

fn blocks(asker: &mut Asker, source: Option<&Source>) -> Answer<u64> {
    let value = asker.take("the number of blocks")?;
    if value == 0 {
        let remedy = "add blocks: GENERATE list, .. , TERMINATE 1".to_string();
        asker.found(4, ("a model has at least one block".to_string(), remedy))?;
    } else if value > limits::BLOCKS {
        let at = source.and_then(|source| source.blocks.get(limits::BLOCKS as usize).copied());
        too_many(asker, "blocks", value, limits::BLOCKS, at)?;
    }
    Ok(value)
}

fn too_many(
    asker: &mut Asker,
    things: &str,
    value: u64,
    most: u64,
    at: Option<Position>,
) -> Answer<()> {
    let (byte, number) = asker.place();
    let rule = format!("a model has at most {most} {things}, and this one has {value}");
    let remedy = format!(
        "leave out {} of them: this is the first too many",
        value - most
    );
    asker.found_at(4, Item::Head, byte, number, at, (rule, remedy))
}
