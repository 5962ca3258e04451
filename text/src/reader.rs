//! One statement's words, read from left to right.

mod blocks;
mod terms;

use crate::names::Names;
use crate::read::Statement;
use crate::scan::{Token, Word};
use crate::words;
use crate::{Fault, Position};

pub struct Reader<'a> {
    line: usize,
    text: &'a str,
    keyword: &'a str,
    tokens: &'a [Token],
    at: usize,
    names: &'a Names,
    /// Where each number that was read comes from, in the order of the bytes.
    pub numbers: Vec<Position>,
    /// The letter of a thing that was named and is not there.
    pub missing: Option<char>,
    /// Brackets that are open.
    open: u32,
}

/// More open brackets are not read: the engine takes four.
const MOST_OPEN: u32 = 60;

impl<'a> Reader<'a> {
    /// Behind the keyword of a statement.
    pub fn new(statement: &'a Statement, names: &'a Names) -> Reader<'a> {
        Reader {
            line: statement.line,
            text: statement.text,
            keyword: &statement.keyword,
            tokens: &statement.tokens,
            at: 1,
            names,
            numbers: Vec::new(),
            missing: None,
            open: 0,
        }
    }

    fn end_of_line(&self) -> Position {
        Position::at(self.line, self.text.trim_end().chars().count() + 1)
    }

    /// Where the next word stands.
    pub fn here(&self) -> Option<Position> {
        self.tokens.get(self.at).map(|t| t.at)
    }

    fn place(&self) -> Position {
        self.here().unwrap_or_else(|| self.end_of_line())
    }

    fn fault(&self, what: impl Into<String>, remedy: impl Into<String>) -> Fault {
        Fault::at(self.place(), what, remedy)
    }

    fn word(&self) -> Option<&'a Word> {
        self.ahead(0)
    }

    fn ahead(&self, words: usize) -> Option<&'a Word> {
        self.tokens.get(self.at + words).map(|t| &t.word)
    }

    fn is(&self, sign: &str) -> bool {
        matches!(self.word(), Some(Word::Sign(s)) if *s == sign)
    }

    pub fn take(&mut self, sign: &str) -> bool {
        let found = self.is(sign);
        self.at += usize::from(found);
        found
    }

    pub fn sign(&mut self, sign: &str, remedy: &str) -> Result<(), Fault> {
        if self.take(sign) {
            return Ok(());
        }
        Err(self.fault(format!("`{sign}` is expected here"), remedy))
    }

    pub fn end(&self) -> Result<(), Fault> {
        self.end_or("take it away, or put a `;` before a comment")
    }

    pub fn end_or(&self, remedy: &str) -> Result<(), Fault> {
        if self.at < self.tokens.len() {
            return Err(self.fault("nothing more is expected on this line", remedy));
        }
        Ok(())
    }

    /// The line from a word on, without its comment.
    fn rest(&self, from: usize) -> String {
        let Some(first) = self.tokens.get(from) else {
            return String::new();
        };
        let rest: String = self
            .text
            .chars()
            .skip(first.at.column as usize - 1)
            .collect();
        let code = rest.split(';').next().unwrap_or_default();
        code.trim().to_string()
    }

    /// A number of a model.
    pub fn number(&mut self, what: &str) -> Result<u32, Fault> {
        let Some(Word::Number(n)) = self.word() else {
            return Err(self.fault(
                format!("{what} is a number"),
                "write a whole number without a sign",
            ));
        };
        let n = u32::try_from(*n).map_err(|_| {
            self.fault(
                format!("the number {n} is too large"),
                "numbers of a model end at 4294967295",
            )
        })?;
        self.at += 1;
        Ok(n)
    }

    pub fn name(&mut self, what: &str, remedy: &str) -> Result<(String, Position), Fault> {
        if let Some(Word::Name(s)) = self.word() {
            let at = self.place();
            self.at += 1;
            return Ok((s.clone(), at));
        }
        Err(self.fault(format!("{what} is expected here"), remedy))
    }

    /// A name that stands for a number, or the number itself.
    fn named(&mut self, letter: char) -> Result<u32, Fault> {
        let thing = words::thing(letter);
        if let Some(Word::Number(n)) = self.word() {
            if letter == 'l' {
                let ticks = if *n == 1 { "tick" } else { "ticks" };
                return Err(self.fault(
                    format!("{n} would be list {n} here and not {n} {ticks}"),
                    format!("name a list: LIST times, {} times, and on the tape `times: 100*{n}` for a hundred times of {n}", self.keyword),
                ));
            }
            return self.number("this operand");
        }
        let remedy = format!("write the name of a {thing}");
        let (name, at) = self.name(&format!("the name of a {thing}"), &remedy)?;
        if let Some(named) = self.names.find(letter, &name) {
            return Ok(named.number);
        }
        self.missing = Some(letter);
        let names = self
            .names
            .of(letter)
            .iter()
            .map(|named| named.name.as_str());
        let meant = words::nearest(&name, names).map(|meant| format!("did you mean `{meant}`?"));
        let remedy = self.other(&name).or(meant).unwrap_or_else(|| match letter {
            'b' => format!("write `{name}` before the block that is meant"),
            's' => format!("declare it: STORAGE {name} = capacity"),
            'w' => format!("declare it: VALUE {name} = sum"),
            _ => format!("declare it: {} {name}", thing.to_uppercase()),
        });
        Err(Fault::at(
            at,
            format!("there is no {thing} `{name}`"),
            remedy,
        ))
    }

    /// A name of another thing than is wanted here.
    fn other(&self, name: &str) -> Option<String> {
        let is = |letter: &char| self.names.find(*letter, name).is_some();
        let other = ['f', 's', 'q', 'l', 'w'].into_iter().find(is)?;
        let blocks = match (self.keyword, other) {
            ("SEIZE" | "RELEASE" | "PREEMPT" | "RETURN", 's') => {
                ", and ENTER and LEAVE are for storages"
            }
            ("ENTER" | "LEAVE", 'f') => ", and SEIZE and RELEASE are for facilities",
            _ => "",
        };
        Some(format!("`{name}` is a {}{blocks}", words::thing(other)))
    }

    fn relation(&mut self) -> Result<u32, Fault> {
        if let Some(Word::Sign(s)) = self.word() {
            if let Some(r) = words::RELATIONS.iter().position(|x| x == s) {
                self.at += 1;
                return Ok(r as u32 + 1);
            }
        }
        Err(self.fault("a relation is expected here", "write one of = <> < <= > >="))
    }
}
