//! Questions 3 and 4: the blocks.

use super::asker::{range_words, Answer, Asker};
use super::model::{Head, Shape};
use super::Words;
use crate::limits;
use modeltext::words;

/// What the operands before one say of it.
#[derive(Default)]
struct Before {
    /// The storage that was named, if there is such a one.
    storage: Option<u64>,
    facility_code: bool,
}

/// One block: its kind, then its operands by their letters.
pub fn block(asker: &mut Asker, head: &Head, number: u64, shape: &mut Shape) -> Answer<()> {
    let most = words::KINDS.len() as u64;
    let kind = asker.ask("the kind of a block", (1, most), |n| {
        (
            format!("block {number} has kind {n}, and kinds are 1 to {most}"),
            "this is no model, or one for another engine".to_string(),
        )
    })?;
    shape.kinds.push(kind);
    shape.places.push(asker.place());
    let Some(kind) = words::kind_of(kind as u32) else {
        return Ok(());
    };
    let mut before = Before::default();
    for letter in kind.operands.chars() {
        let n = operand(asker, head, kind.word, letter, &mut before)?;
        if letter == 'b' {
            shape.targets.push((number, n, asker.place()));
        }
        if letter == 'g' {
            shape.groups.push((number, n, asker.place()));
        }
    }
    Ok(())
}

fn operand(
    asker: &mut Asker,
    head: &Head,
    who: &str,
    letter: char,
    before: &mut Before,
) -> Answer<u64> {
    match letter {
        'f' | 'q' | 'l' | 'b' => named(asker, head, who, letter),
        's' => {
            let n = named(asker, head, who, 's')?;
            before.storage = (n >= 1 && n <= head.count('s')).then_some(n);
            Ok(n)
        }
        'v' if before.facility_code => named(asker, head, who, 'f'),
        'v' => named(asker, head, who, 's'),
        'u' => units(asker, head, who, before),
        'c' => {
            let range = (1, words::CODES.len() as u64);
            let n = asker.ask("a status code", range, |n| {
                range_words("a status code", range, n)
            })?;
            before.facility_code = words::code_of(n as u32).is_some_and(|code| code.facility);
            Ok(n)
        }
        'r' => {
            let range = (1, words::RELATIONS.len() as u64);
            asker.ask("a relation", range, |n| range_words("a relation", range, n))
        }
        't' => term(asker, head, who),
        letter => {
            let number = words::number_of(letter);
            let what = number.map_or("a number", |number| number.what);
            let range = number.map_or((0, limits::MODEL_NUMBER), |number| {
                (u64::from(number.low), u64::from(number.high))
            });
            asker.ask(what, range, |n| {
                range_words(&format!("{who}: {what}"), range, n)
            })
        }
    }
}

/// The number of something that is declared.
fn named(asker: &mut Asker, head: &Head, who: &str, letter: char) -> Answer<u64> {
    let what = format!("the number of a {}", words::thing(letter));
    asker.ask(&what, (1, head.count(letter)), |n| {
        head.nothing(who, letter, n)
    })
}

/// Units of a storage.
fn units(asker: &mut Asker, head: &Head, who: &str, before: &Before) -> Answer<u64> {
    let storage = before.storage.unwrap_or(0);
    let capacity = head.capacities.get((storage as usize).wrapping_sub(1));
    let capacity = capacity.copied().unwrap_or(limits::MODEL_NUMBER);
    asker.ask("units", (1, capacity), |n| {
        let thing = head.thing('s', storage);
        let name = head.name('s', storage).unwrap_or("name").to_string();
        let raise = if n > capacity && n <= limits::CAPACITY {
            format!(", or declare STORAGE {name} = {n}")
        } else {
            String::new()
        };
        (
            format!("{who} takes 1 to {capacity} units of {thing}, its capacity, and here {n}"),
            format!("write a number from 1 to {capacity}{raise}"),
        )
    })
}

/// A term of a block: a tag from 0 to 9 and its number.
fn term(asker: &mut Asker, head: &Head, who: &str) -> Answer<u64> {
    let range = (0, words::TAGS.len() as u64 - 1);
    let tag = asker.ask("the tag of a term", range, |n| {
        range_words("the tag of a term", range, n)
    })?;
    let of = words::tag_of(tag as u32).map_or('o', |tag| tag.of);
    asker.ask("a term", term_range(head, of), |n| {
        term_words(head, who, of, n)
    })
}

/// The range of the number behind a tag.
pub fn term_range(head: &Head, of: char) -> (u64, u64) {
    match of {
        'k' => (0, limits::CONSTANT),
        'o' => (0, 0),
        'p' => (1, words::number_of('p').map_or(0, |p| u64::from(p.high))),
        letter => (1, head.count(letter)),
    }
}

/// The words for such a number outside its range.
pub fn term_words(head: &Head, who: &str, of: char, n: u64) -> Words {
    let range = term_range(head, of);
    match of {
        'k' => range_words(&format!("{who}: a constant"), range, n),
        'o' => (
            format!("{who}: the number behind the clock is 0, and here {n}"),
            "write cl".to_string(),
        ),
        'p' => (
            format!(
                "{who} names parameter p{n}, and there are p1 to p{}",
                range.1
            ),
            format!("write one of p1 to p{}", range.1),
        ),
        letter => head.nothing(who, letter, n),
    }
}
