//! `tape STREAM < CALL > TAPE`: the tape that a stream draws. CALL is the numbers of the
//! lists and the doubles as 16 hexadecimal digits, both with commas between, `-` for none.

use reference::maker::make_tape;
use std::io::{Read, Write};

fn main() {
    let stream = std::env::args().nth(1).and_then(|text| text.parse().ok());
    let mut text = String::new();
    let read = std::io::stdin().read_to_string(&mut text);
    let words: Vec<&str> = text.split_whitespace().collect();
    let (Some(stream), Ok(_), [lists, doubles]) = (stream, read, &words[..]) else {
        usage()
    };
    let lists = items(lists, |word| word.parse().ok());
    let doubles = items(doubles, |word| {
        u64::from_str_radix(word, 16).ok().map(f64::from_bits)
    });
    // At most 3 bytes for each count and time, of 16 lists.
    let mut tape = vec![0; 16 * 3 * 65_536];
    match make_tape(stream, &lists, &doubles, &mut tape) {
        Ok(length) => {
            let _ = std::io::stdout().write_all(&tape[..length]);
        }
        Err(number) => {
            eprintln!("refused {number}");
            std::process::exit(1);
        }
    }
}

fn items<T>(word: &str, item: impl Fn(&str) -> Option<T>) -> Vec<T> {
    let items = word.split(',').filter(|item| *item != "-");
    items
        .map(|text| item(text).unwrap_or_else(|| usage()))
        .collect()
}

fn usage() -> ! {
    eprintln!("usage: tape STREAM < CALL > TAPE");
    std::process::exit(2);
}
