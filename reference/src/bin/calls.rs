//! `calls PART N SEED [--requests LIST]`: N random calls of a part with what must come out, one a
//! line. Parts: `columns`, `tapes`, `join`.

use reference::calls::{columns_line, join_line, tapes_line};
use reference::generate::random::Random;
use reference::Rules;
use std::io::{BufWriter, Write};

fn main() {
    let words: Vec<String> = std::env::args().skip(1).collect();
    let (rules, words) = match &words[..] {
        [first @ .., option, list] if option == "--requests" => (Rules::parse(list), first),
        all => (Some(Rules::LANDED), all),
    };
    let (Some(rules), [part, count, seed]) = (rules, words) else {
        usage()
    };
    let line: fn(Rules, &mut Random) -> String = match part.as_str() {
        "columns" => columns_line,
        "tapes" => tapes_line,
        "join" => join_line,
        _ => usage(),
    };
    let (Ok(count), Ok(seed)) = (count.parse::<u64>(), seed.parse::<u64>()) else {
        usage()
    };
    let mut random = Random::new(seed);
    let mut output = BufWriter::new(std::io::stdout().lock());
    for _ in 0..count {
        if writeln!(output, "{}", line(rules, &mut random)).is_err() {
            return; // nobody reads on
        }
    }
}

fn usage() -> ! {
    eprintln!("usage: calls columns | tapes | join N SEED [--requests LIST]");
    std::process::exit(2);
}
