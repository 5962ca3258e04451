//! What the compared cases covered, and the cells that stayed empty.

use crate::columns;
use crate::records::Answers;
use reference::coverage::Coverage;

pub fn print(coverage: &Coverage, answers: &Answers, stored: &columns::Answers) {
    print!("{coverage}");
    println!("reader    {:?}", answers.reader);
    println!("writer    {:?}", answers.writer);
    println!("columns   {:?}", stored.to);
    println!("uncolumns {:?}", stored.from);
    let empty = empty_cells(coverage, answers, stored);
    if empty.is_empty() {
        println!("no cell is empty but end 26 (compare --long)");
    } else {
        println!("empty: {}", empty.join(", "));
    }
}

fn empty_cells(coverage: &Coverage, answers: &Answers, stored: &columns::Answers) -> Vec<String> {
    let mut empty = coverage.empty_cells();
    for answer in [0, 30, 31, 32] {
        if !answers.reader.contains_key(&answer) {
            empty.push(format!("reader {answer}"));
        }
    }
    for answer in [0, 32, 33] {
        if !answers.writer.contains_key(&answer) {
            empty.push(format!("writer {answer}"));
        }
    }
    for answer in [0, 51, 52] {
        if !stored.to.contains_key(&answer) {
            empty.push(format!("columns {answer}"));
        }
        if !stored.from.contains_key(&answer) {
            empty.push(format!("uncolumns {answer}"));
        }
    }
    empty
}
