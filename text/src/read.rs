//! From text to a model: names are gathered first, then each statement is read. A fault ends its statement only.

use crate::model::{Block, Model};
use crate::names::{Named, Names};
use crate::reader::Reader;
use crate::scan::{self, Token, Word};
use crate::words;
use crate::{Fault, Position};

/// A statement: its words from the keyword on, and its line.
pub struct Statement<'a> {
    pub line: usize,
    pub text: &'a str,
    pub keyword: String,
    pub tokens: Vec<Token>,
}

/// A model's text as it was read.
#[derive(Debug, Default)]
pub struct Source {
    /// The whole model where there is no fault.
    pub model: Model,
    pub names: Names,
    /// Where each number of the model's bytes comes from, in their order, where there is no fault.
    pub numbers: Vec<Position>,
    /// Where each block stands.
    pub blocks: Vec<Position>,
    pub faults: Vec<Fault>,
}

/// Reads a model's text.
pub fn model(text: &str) -> Source {
    let mut gathering = Gathering::default();
    for (i, line) in text.lines().enumerate() {
        if let Err(fault) = gathering.line(line, i + 1) {
            gathering.source.faults.push(fault);
        }
    }
    gathering.finish(text)
}

/// What the first walk over a text has met so far.
#[derive(Default)]
struct Gathering<'a> {
    source: Source,
    counter: Option<Position>,
    edition: Option<Position>,
    capacities: Vec<Position>,
    values: Vec<Statement<'a>>,
    blocks: Vec<Statement<'a>>,
    /// Letters of things whose declarations have faults: a name that is missing then is no fault of its own.
    broken: Vec<char>,
}

impl<'a> Gathering<'a> {
    fn line(&mut self, text: &'a str, line: usize) -> Result<(), Fault> {
        let mut tokens = scan::line(text, line)?;
        let Some(first) = tokens.first() else {
            return Ok(());
        };
        let Some(mut keyword) = plain(&first.word) else {
            return Err(Fault::at(
                first.at,
                "a statement begins with a name",
                "write a declaration, a block, or a label and a block",
            ));
        };
        let at = first.at;
        let second = tokens.get(1).and_then(|t| plain(&t.word));
        let labelled = second.as_deref().is_some_and(words::is_block);
        if words::is_reserved(&keyword) {
            if labelled && looks_like_a_label(&tokens) {
                self.count_lost_block(text, line);
                let what = format!("`{keyword}` begins a statement and cannot be a label");
                let remedy = format!("choose another word, as `{keyword}1`");
                return Err(Fault::at(at, what, remedy));
            }
        } else if labelled {
            let number = self.blocks.len() as u32 + 1;
            let defined = self.source.names.define('b', &keyword, number, at);
            if let Err(fault) = defined {
                self.source.faults.push(fault);
            }
            tokens.remove(0);
            keyword = second.unwrap_or_default();
        } else if let Some(block) = behind_colon(&tokens) {
            self.count_lost_block(text, line);
            let remedy = format!("write `{keyword} {block}`, with a space between them");
            return Err(Fault::at(
                tokens[1].at,
                "a label has no `:` behind it",
                remedy,
            ));
        } else {
            return Err(self.no_statement(&keyword, second.as_deref(), at, text, line));
        }
        let statement = Statement {
            line,
            text,
            keyword: keyword.to_uppercase(),
            tokens,
        };
        self.statement(statement)
    }

    /// A line whose first word is no statement, and that has no block behind a label.
    fn no_statement(
        &mut self,
        word: &str,
        second: Option<&str>,
        at: Position,
        text: &'a str,
        line: usize,
    ) -> Fault {
        let blocks = || words::KINDS.iter().map(|kind| kind.word);
        let what = format!("`{word}` is no statement, and no block follows it as a label");
        if let Some(meant) = words::nearest(word, words::DECLARATIONS.iter().copied()) {
            self.broken.extend(['f', 's', 'q', 'l', 'w']);
            return Fault::at(at, what, format!("did you mean {meant}?"));
        }
        self.count_lost_block(text, line);
        if let Some(meant) = words::nearest(word, blocks()) {
            return Fault::at(at, what, format!("did you mean {meant}?"));
        }
        if let Some(meant) = second.and_then(|s| words::nearest(s, blocks())) {
            let _ = self
                .source
                .names
                .define('b', word, self.blocks.len() as u32, at);
            return Fault::at(
                at,
                what,
                format!("did you mean {meant} behind the label `{word}`?"),
            );
        }
        Fault::at(
            at,
            what,
            "docs/TEXT.md lists the statements; a label stands on the line of its block",
        )
    }

    /// Keeps the numbers of the blocks behind a line that cannot be read.
    fn count_lost_block(&mut self, text: &'a str, line: usize) {
        self.broken.push('b');
        self.source.blocks.push(Position::at(line, 1));
        self.blocks.push(Statement {
            line,
            text,
            keyword: String::new(),
            tokens: Vec::new(),
        });
    }

    fn statement(&mut self, statement: Statement<'a>) -> Result<(), Fault> {
        let at = statement.tokens[0].at;
        let done = match statement.keyword.as_str() {
            "FACILITY" => self.declare('f', &statement),
            "STORAGE" => self.declare('s', &statement),
            "QUEUE" => self.declare('q', &statement),
            "LIST" => self.declare('l', &statement),
            "VALUE" => {
                let number = self.values.len() as u32 + 1;
                let mut r = Reader::new(&statement, &self.source.names);
                let name = r.name("a value's name", "write VALUE name = sum");
                let done =
                    name.and_then(|(name, at)| self.source.names.define('w', &name, number, at));
                self.values.push(statement);
                done.map_err(|fault| ('w', fault))
            }
            "COUNTER" | "EDITION" => self.count(&statement, at).map_err(|fault| (' ', fault)),
            _ => {
                self.source.blocks.push(at);
                self.blocks.push(statement);
                Ok(())
            }
        };
        done.map_err(|(letter, fault)| {
            self.broken.push(letter);
            fault
        })
    }

    /// COUNTER or EDITION: a number, once.
    fn count(&mut self, statement: &Statement, at: Position) -> Result<(), Fault> {
        let edition = statement.keyword == "EDITION";
        let place = if edition {
            &mut self.edition
        } else {
            &mut self.counter
        };
        if let Some(before) = *place {
            let word = &statement.keyword;
            let what = format!("{word} stands twice, first on line {}", before.line);
            return Err(Fault::at(at, what, "leave one of them"));
        }
        let names = Names::default();
        let mut r = Reader::new(statement, &names);
        *place = Some(r.here().unwrap_or(at));
        let what = if edition {
            "the edition"
        } else {
            "the counter"
        };
        let number = r.number(what)?;
        if edition {
            self.source.model.edition = number;
        } else {
            self.source.model.counter = number;
        }
        r.end()
    }

    /// Names with commas between them, numbered on from those that are there; storages with their capacities.
    fn declare(&mut self, letter: char, statement: &Statement) -> Result<(), (char, Fault)> {
        let none = Names::default();
        let mut r = Reader::new(statement, &none);
        let mut one = || -> Result<bool, Fault> {
            let remedy = if letter == 's' {
                "write STORAGE name = capacity, name = capacity"
            } else {
                "write names with commas between them"
            };
            let (name, at) = r.name(&format!("a {}'s name", words::thing(letter)), remedy)?;
            let number = self.source.names.of(letter).len() as u32 + 1;
            self.source.names.define(letter, &name, number, at)?;
            if letter == 's' {
                r.sign("=", "write STORAGE name = capacity")?;
                self.capacities.push(r.here().unwrap_or(at));
                self.source.model.capacities.push(r.number("a capacity")?);
            }
            Ok(r.take(","))
        };
        while one().map_err(|fault| (letter, fault))? {}
        let what = if letter == 's' {
            "write a comma between two storages"
        } else {
            "write a comma between two names"
        };
        r.end_or(what).map_err(|fault| (letter, fault))
    }

    fn finish(mut self, text: &str) -> Source {
        let mut source = std::mem::take(&mut self.source);
        let last = Position::at(text.lines().count().max(1), 1);
        let model = &mut source.model;
        model.facilities = source.names.facilities.len() as u32;
        model.queues = source.names.queues.len() as u32;
        model.lists = source.names.lists.len() as u32;
        if self.counter.is_none() {
            source.faults.push(Fault::at(
                last,
                "the model has no COUNTER",
                "add a line `COUNTER 1`: the run ends when TERMINATEs have let it fall to 0 (TERMINATE 1 lets it fall by 1)",
            ));
        }
        if self.blocks.is_empty() {
            let remedy = "add blocks: GENERATE list, .. , TERMINATE 1";
            let fault = Fault::at(last, "the model has no block", remedy);
            source.faults.push(fault);
        }
        let first = Position::at(1, 1);
        let front = |named: &[Named]| named.last().map_or(first, |named| named.at);
        let edition = self.edition.unwrap_or(first);
        let mut numbers = vec![edition, front(&source.names.facilities)];
        numbers.push(front(&source.names.storages));
        numbers.extend(&self.capacities);
        numbers.push(front(&source.names.queues));
        numbers.push(front(&source.names.values));
        let mut late = Vec::new();
        for statement in &self.values {
            let mut r = Reader::new(statement, &source.names);
            match r.value() {
                Ok(sum) => source.model.values.push(sum),
                Err(fault) => late.push((fault, r.missing)),
            }
            numbers.append(&mut r.numbers);
        }
        numbers.push(front(&source.names.lists));
        numbers.push(self.counter.unwrap_or(last));
        numbers.push(source.blocks.last().copied().unwrap_or(last));
        for statement in &self.blocks {
            let mut r = Reader::new(statement, &source.names);
            match r.block() {
                Ok(block) => source.model.blocks.push(block),
                Err(fault) => late.push((fault, r.missing)),
            }
            numbers.append(&mut r.numbers);
        }
        let told = |missing: Option<char>| missing.is_none_or(|m| !self.broken.contains(&m));
        let late = late.into_iter().filter(|(_, missing)| told(*missing));
        source.faults.extend(late.map(|(fault, _)| fault));
        source.faults.sort_by_key(|fault| fault.at);
        source.numbers = numbers;
        source
    }
}

pub(crate) fn plain(word: &Word) -> Option<String> {
    match word {
        Word::Name(s) => Some(s.clone()),
        _ => None,
    }
}

/// The block behind a word and a colon.
fn behind_colon(tokens: &[Token]) -> Option<String> {
    let colon = matches!(tokens.get(1)?.word, Word::Sign(":"));
    let block = plain(&tokens.get(2)?.word)?;
    (colon && words::is_block(&block)).then_some(block)
}

/// Whether a line that begins with a reserved word and a block has that word as a label: an operand follows the block, or the line
/// is no statement that has a name there.
fn looks_like_a_label(tokens: &[Token]) -> bool {
    !matches!(
        tokens.get(2).map(|t| &t.word),
        Some(Word::Sign("," | "=" | "$"))
    )
}

/// A block that stands for a line that could not be read.
pub(crate) fn no_block() -> Block {
    Block {
        kind: 0,
        operands: Vec::new(),
    }
}
