//! One line of text as words with their columns.

use crate::{Fault, Position};

#[derive(Clone, Debug, PartialEq, Eq)]
pub enum Word {
    Name(String),
    Number(u64),
    /// One of `( ) + - , = < > <= >= <> $ * :`.
    Sign(&'static str),
}

#[derive(Clone, Debug)]
pub struct Token {
    pub at: Position,
    pub word: Word,
    /// No space stands between it and the word before.
    pub tight: bool,
}

const SIGNS: [&str; 14] = [
    "<=", ">=", "<>", "<", ">", "=", "(", ")", "+", "-", ",", "$", "*", ":",
];

/// The words of a line; a comment runs from `;` to its end, and a line that begins with `*` is one.
pub fn line(text: &str, number: usize) -> Result<Vec<Token>, Fault> {
    let mut tokens = Vec::new();
    if text.trim_start().starts_with('*') {
        return Ok(tokens);
    }
    let chars: Vec<char> = text.chars().collect();
    let mut at = 0;
    let mut last = usize::MAX;
    while at < chars.len() && chars[at] != ';' {
        let c = chars[at];
        if c.is_whitespace() || c == '\u{feff}' {
            at += 1;
            continue;
        }
        let start = at;
        let here = Position::at(number, start + 1);
        let word = if c.is_ascii_digit() {
            while at < chars.len() && (chars[at].is_ascii_digit() || chars[at] == '_') {
                at += 1;
            }
            let digits: String = chars[start..at].iter().filter(|c| **c != '_').collect();
            let value = digits.parse().map_err(|_| {
                Fault::at(
                    here,
                    format!("the number {digits} is too large"),
                    "numbers of a model end at 4294967295, times at 10000000000",
                )
            })?;
            Word::Number(value)
        } else if c.is_ascii_alphabetic() {
            while at < chars.len() && (chars[at].is_ascii_alphanumeric() || chars[at] == '_') {
                at += 1;
            }
            Word::Name(chars[start..at].iter().collect())
        } else {
            let rest: String = chars[at..chars.len().min(at + 2)].iter().collect();
            let sign = SIGNS
                .iter()
                .find(|s| rest.starts_with(**s))
                .ok_or_else(|| stray(c, here))?;
            at += sign.len();
            Word::Sign(sign)
        };
        tokens.push(Token {
            at: here,
            word,
            tight: start == last,
        });
        last = at;
    }
    Ok(tokens)
}

fn stray(c: char, here: Position) -> Fault {
    let remedy = match c {
        '.' => "times and numbers are whole: count in smaller ticks",
        '#' | '/' | '%' => "a comment begins with `;`, or with `*` at the front of its line",
        '!' | '≠' => "not equal is written `<>`",
        '\'' | '"' => "names stand without quotes",
        _ => {
            "names have letters, digits and `_`, and begin with a letter; a comment begins with `;`"
        }
    };
    Fault::at(here, format!("`{c}` is not part of the text form"), remedy)
}
