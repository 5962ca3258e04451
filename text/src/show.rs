//! From a model to its text, with the names of its source or with a letter and a number for each thing.

use std::fmt::Write;

use crate::model::{Block, Model, Operand, Signed, Term, EDITION};
use crate::names::Named;
use crate::read::Source;
use crate::words;

/// What each thing is called, number 1 first; blocks that have no label are called by their number.
#[derive(Clone, Debug, Default, PartialEq, Eq)]
pub struct Names {
    pub facilities: Vec<String>,
    pub storages: Vec<String>,
    pub queues: Vec<String>,
    pub lists: Vec<String>,
    pub values: Vec<String>,
    pub labels: Vec<Option<String>>,
}

impl Names {
    /// A letter and a number for each, labels for the blocks that are named.
    pub fn numbered(m: &Model) -> Names {
        let all = |letter: char, n: usize| (1..=n).map(|k| format!("{letter}{k}")).collect();
        let named = named_blocks(m).into_iter().enumerate();
        Names {
            facilities: all('f', m.facilities as usize),
            storages: all('s', m.capacities.len()),
            queues: all('q', m.queues as usize),
            lists: all('l', m.lists as usize),
            values: all('v', m.values.len()),
            labels: named
                .map(|(i, named)| named.then(|| format!("b{}", i + 1)))
                .collect(),
        }
    }

    /// The names of a text.
    pub fn of(source: &Source) -> Names {
        let all = |named: &[Named]| named.iter().map(|n| n.name.clone()).collect();
        let mut labels = vec![None; source.model.blocks.len()];
        for label in &source.names.labels {
            if let Some(place) = labels.get_mut((label.number as usize).wrapping_sub(1)) {
                *place = Some(label.name.clone());
            }
        }
        Names {
            facilities: all(&source.names.facilities),
            storages: all(&source.names.storages),
            queues: all(&source.names.queues),
            lists: all(&source.names.lists),
            values: all(&source.names.values),
            labels,
        }
    }

    /// The name of a thing behind a letter (`words::Kind`), or its number.
    pub fn name(&self, letter: char, number: u32) -> String {
        let among = match letter {
            'f' => &self.facilities,
            's' => &self.storages,
            'q' => &self.queues,
            'l' => &self.lists,
            'w' => &self.values,
            _ => return self.label(number).unwrap_or_else(|| number.to_string()),
        };
        let found = among.get((number as usize).wrapping_sub(1));
        found.cloned().unwrap_or_else(|| number.to_string())
    }

    pub fn label(&self, block: u32) -> Option<String> {
        self.labels.get((block as usize).wrapping_sub(1))?.clone()
    }

    /// These and behind them the others, of which each that is taken gets a number: a second `crane` is `crane2`.
    pub fn followed_by(&self, others: &Names) -> Names {
        let all = |own: &[String], others: &[String]| {
            let mut all = own.to_vec();
            for name in others {
                all.push(unused(name, all.iter()));
            }
            all
        };
        let mut labels = self.labels.clone();
        for label in &others.labels {
            let new = label
                .as_ref()
                .map(|name| unused(name, labels.iter().flatten()));
            labels.push(new);
        }
        Names {
            facilities: all(&self.facilities, &others.facilities),
            storages: all(&self.storages, &others.storages),
            queues: all(&self.queues, &others.queues),
            lists: all(&self.lists, &others.lists),
            values: all(&self.values, &others.values),
            labels,
        }
    }
}

/// The name, or the first of `name2`, `name3` .. that is not among these.
fn unused<'a>(name: &str, among: impl Iterator<Item = &'a String> + Clone) -> String {
    let taken = |name: &str| among.clone().any(|other| other.eq_ignore_ascii_case(name));
    let numbered = (2..).map(|k| format!("{name}{k}"));
    let mut all = std::iter::once(name.to_string()).chain(numbered);
    all.find(|name| !taken(name)).unwrap_or_default()
}

pub fn model(m: &Model) -> String {
    text(m, &Names::numbered(m))
}

/// A model's text with these names.
pub fn text(m: &Model, names: &Names) -> String {
    let mut out = declarations(m, names);
    let longest = names.labels.iter().flatten().map(String::len).max();
    let width = longest.map_or(8, |length| (length + 1).max(8));
    for (i, block) in m.blocks.iter().enumerate() {
        let label = names.label(i as u32 + 1).unwrap_or_default();
        let _ = writeln!(out, "{label:width$}{}", block_text(block, names));
    }
    out
}

/// The declarations of a model, a line each.
pub fn declarations(m: &Model, names: &Names) -> String {
    let mut out = String::new();
    if m.edition != EDITION {
        let _ = writeln!(out, "EDITION {}", m.edition);
    }
    for (word, names) in [
        ("FACILITY", &names.facilities),
        ("QUEUE", &names.queues),
        ("LIST", &names.lists),
    ] {
        if !names.is_empty() {
            let _ = writeln!(out, "{word} {}", names.join(", "));
        }
    }
    for (name, capacity) in names.storages.iter().zip(&m.capacities) {
        let _ = writeln!(out, "STORAGE {name} = {capacity}");
    }
    for (name, sum) in names.values.iter().zip(&m.values) {
        let _ = writeln!(out, "VALUE {name} = {}", sum_text(sum, names));
    }
    let _ = writeln!(out, "COUNTER {}", m.counter);
    out
}

/// Which blocks are named by a target or a term.
fn named_blocks(m: &Model) -> Vec<bool> {
    let mut named = vec![false; m.blocks.len()];
    let mut mark = |n: u32| {
        if let Some(x) = named.get_mut((n as usize).wrapping_sub(1)) {
            *x = true;
        }
    };
    for block in &m.blocks {
        for operand in block.lettered() {
            match operand {
                ('b', Operand::Number(n)) | ('t', Operand::Term(words::ENTRIES, n)) => mark(n),
                _ => {}
            }
        }
    }
    for sum in &m.values {
        mark_sum(sum, &mut mark);
    }
    named
}

fn mark_sum(sum: &[Signed], mark: &mut dyn FnMut(u32)) {
    for signed in sum {
        mark_term(&signed.term, mark);
    }
}

fn mark_term(term: &Term, mark: &mut dyn FnMut(u32)) {
    match term {
        Term::Simple(words::ENTRIES, n) => mark(*n),
        Term::Simple(..) => {}
        Term::Comparison(_, a, b) => {
            mark_term(a, mark);
            mark_term(b, mark);
        }
        Term::Bracket(sum) => mark_sum(sum, mark),
    }
}

fn simple_text(tag: u32, n: u32, names: &Names) -> String {
    match tag {
        words::CONSTANT => n.to_string(),
        words::MINUS_CONSTANT => format!("-{n}"),
        words::PARAMETER => format!("p{n}"),
        words::CLOCK => "cl".to_string(),
        _ => match words::tag_of(tag) {
            Some(tag) => format!("{}${}", tag.letter, names.name(tag.of, n)),
            None => format!("{tag} {n}"),
        },
    }
}

fn term_text(term: &Term, names: &Names) -> String {
    match term {
        Term::Simple(tag, n) => simple_text(*tag, *n, names),
        Term::Comparison(r, a, b) => {
            let relation = words::relation_of(*r).unwrap_or("?");
            format!(
                "({} {relation} {})",
                term_text(a, names),
                term_text(b, names)
            )
        }
        Term::Bracket(sum) => format!("({})", sum_text(sum, names)),
    }
}

fn sum_text(sum: &[Signed], names: &Names) -> String {
    let mut out = String::new();
    for (i, signed) in sum.iter().enumerate() {
        let sign = match (i, signed.minus) {
            (0, false) => "",
            (0, true) => "- ",
            (_, false) => " + ",
            (_, true) => " - ",
        };
        out.push_str(sign);
        out.push_str(&term_text(&signed.term, names));
    }
    out
}

/// A block without its label.
pub fn block_text(block: &Block, names: &Names) -> String {
    let server = match block.operands.first() {
        Some(Operand::Number(code)) if words::code_of(*code).is_some_and(|c| c.facility) => 'f',
        _ => 's',
    };
    let o: Vec<String> = block
        .lettered()
        .map(|operand| match operand {
            (_, Operand::Term(tag, n)) => simple_text(tag, n, names),
            ('v', Operand::Number(n)) => names.name(server, n),
            ('r', Operand::Number(n)) => words::relation_of(n).unwrap_or("?").to_string(),
            ('c', Operand::Number(n)) => words::code_of(n).map_or("?", |c| c.word).to_string(),
            (letter @ ('f' | 's' | 'q' | 'l' | 'b'), Operand::Number(n)) => names.name(letter, n),
            (_, Operand::Number(n)) => n.to_string(),
        })
        .collect();
    let word = words::kind_of(block.kind).map_or("?", |kind| kind.word);
    match (block.kind, &o[..]) {
        (words::WAITIF_STATUS, [code, server]) => format!("{word} {server} = {code}"),
        (words::WAITIF_JOINED, [code, server, back]) => {
            format!("{word} {server} = {code}, {back}")
        }
        (words::WAITIF_COMPARISON, [a, r, b]) => format!("{word} {a} {r} {b}"),
        (words::IF, [a, r, b, target]) => format!("{word} {a} {r} {b}, {target}"),
        (words::LET, [k, term]) => format!("{word} p{k} = {term}"),
        _ => format!("{word} {}", o.join(", ")),
    }
}
