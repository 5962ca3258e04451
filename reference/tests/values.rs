//! Question 5: how large a value may be.

mod common;
use common::*;
use reference::generate::fields::{count_numbers, encode_fields, encode_model, model_fields};
use reference::model::{Sum, Term};
use reference::Rules;

/// The bytes of a model with these values and one block.
fn with_values(values: Vec<Sum>) -> Vec<u8> {
    let mut model = model(vec![terminate(1)]);
    model.values = values;
    encode_model(&model)
}

fn value_refusal(values: Vec<Sum>) -> u64 {
    refusal(&with_values(values), &[0, 0, 0])
}

/// A sum of this many numbers: its count, comparisons of 7 numbers, single
/// terms of 3 and brackets of 3 and 3 for each term.
fn sum_of_numbers(numbers: usize) -> Sum {
    let comparison = Term::Comparison(Box::new(compare(Term::Clock, 1, Term::Clock)));
    let comparisons = (numbers + 2) % 3;
    let mut parts = vec![plus(comparison); comparisons];
    let mut threes = (numbers - 1 - 7 * comparisons) / 3;
    while threes > 0 {
        let terms = threes.min(7) - 1;
        parts.push(match terms {
            0 => plus(Term::Clock),
            _ => plus(Term::Bracket(sum(vec![minus(Term::Clock); terms]))),
        });
        threes -= terms + 1;
    }
    let built = sum(parts);
    assert!(built.parts.len() <= 8 && count_numbers(&built) == numbers);
    built
}

#[test]
fn a_value_has_64_numbers_and_no_more() {
    assert_eq!(value_refusal(vec![sum_of_numbers(63)]), 0);
    assert_eq!(value_refusal(vec![sum_of_numbers(64)]), 0);
    assert_eq!(value_refusal(vec![sum_of_numbers(65)]), 5);
    assert_eq!(value_refusal(vec![sum_of_numbers(66)]), 5);
    // The count begins again in the next value.
    assert_eq!(
        value_refusal(vec![sum_of_numbers(64), sum_of_numbers(64)]),
        0
    );
    assert_eq!(
        value_refusal(vec![sum_of_numbers(64), sum_of_numbers(65)]),
        5
    );
}

#[test]
fn the_65th_number_is_asked_3_then_4_then_5() {
    let mut model = model(vec![terminate(1)]);
    model.values = vec![sum_of_numbers(66)];
    let fields = model_fields(Rules::BASE, &model);
    let before = 5 + 1; // edition .. values with one capacity
    let at = before + 64; // the 65th number of the value
    let front = |value: Option<u64>| {
        let mut front = fields[..at].to_vec();
        if let Some(value) = value {
            front.push(fields[at]);
            front[at].value = value;
        }
        encode_fields(&front)
    };
    assert_eq!(refusal(&front(None), &[]), 3);
    assert_eq!(refusal(&front(Some(fields[at].value)), &[]), 5);
    assert_eq!(refusal(&front(Some(fields[at].high + 1)), &[]), 4);
    let mut padded = front(None);
    padded.extend([0x80, 0x01]);
    assert_eq!(refusal(&padded, &[]), 3);
}

#[test]
fn four_brackets_open_at_one_time_and_no_more() {
    let bracket = |term: Term| Term::Bracket(sum(vec![plus(term)]));
    let left = |term: Term| Term::Comparison(Box::new(compare(term, 1, Term::Clock)));
    let right = |term: Term| Term::Comparison(Box::new(compare(Term::Clock, 1, term)));
    let wraps: [&dyn Fn(Term) -> Term; 3] = [&bracket, &left, &right];
    for first in wraps {
        for second in wraps {
            let four = first(second(first(second(Term::Clock))));
            assert_eq!(value_refusal(vec![sum(vec![plus(four.clone())])]), 0);
            assert_eq!(value_refusal(vec![sum(vec![plus(second(four))])]), 5);
        }
    }
    // Many brackets one after the other are no more than one at a time.
    let row = (0..6).map(|_| plus(left(Term::Clock))).collect();
    assert_eq!(value_refusal(vec![sum(row)]), 0);
    // A bracket closed inside the left term leaves room in the right one.
    let three = || bracket(bracket(bracket(Term::Clock)));
    let both = Term::Comparison(Box::new(compare(three(), 1, three())));
    assert_eq!(value_refusal(vec![sum(vec![plus(both)])]), 0);
}

#[test]
fn the_fifth_bracket_is_refused_at_its_tag() {
    // Value 1: four times "1 term, plus, tag 11", then tag 10 or 11 and the end.
    for tag in [10, 11] {
        let mut bytes = vec![1, 0, 0, 0, 1];
        for _ in 0..4 {
            bytes.extend([1, 0, 11]);
        }
        bytes.extend([1, 0]);
        assert_eq!(refusal(&bytes, &[]), 3);
        bytes.push(tag);
        assert_eq!(refusal(&bytes, &[]), 5);
        *bytes.last_mut().unwrap() = 12;
        assert_eq!(refusal(&bytes, &[]), 4);
    }
}

#[test]
fn two_mentions_in_a_value_and_no_more() {
    let first = || sum(vec![plus(Term::Clock)]);
    let named = |count: usize| sum((0..count).map(|_| plus(Term::Value(1))).collect());
    assert_eq!(value_refusal(vec![first(), named(2)]), 0);
    assert_eq!(value_refusal(vec![first(), named(3)]), 5);
    assert_eq!(value_refusal(vec![first(), named(2), named(2)]), 0);
    // At the third number after tag 9: 3, then 4, then 5.
    let mut bytes = vec![1, 0, 0, 0, 2, 1, 0, 3, 0];
    bytes.extend([3, 0, 9, 1, 0, 9, 1, 0, 9]);
    assert_eq!(refusal(&bytes, &[]), 3);
    bytes.push(2);
    assert_eq!(refusal(&bytes, &[]), 4);
    *bytes.last_mut().unwrap() = 1;
    assert_eq!(refusal(&bytes, &[]), 5);
}
