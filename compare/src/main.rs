//! `compare N SEED [--small] [--coverage]`: N random cases through the engine's interface for other languages and through
//! `reference/`, each with readings and writings of trace records and traces by column. Ends at the first that differs, printed and
//! shrunk.
//! `compare --waits N SEED`: the same with models that wait on values.
//! `compare --crowds N SEED`: the same with models in which hundreds wait for a storage.
//! `compare --check`: the same for the cases of standard input, printed as by `cases` of `reference/`; where a line also has what must
//! come out, that is compared too. Lines that begin with # are passed by.
//! `compare --long`: the two runs that reach end 26, by turns and by serials (some 100 million turns each).
//! `compare --streams`: the starts of all streams, steps along each and steps of other states.
//! `compare --tapes N SEED`: N random calls of the tape maker.
//! `compare --join N SEED`: N random calls of the join of two models.
//! `compare --counts`: the counter of low bytes at all lengths to 4,096 and all addresses modulo 64.

mod columns;
mod counts;
mod joins;
mod lent;
mod long;
mod records;
mod runs;
mod shrink;
mod streams;
mod table;
mod tapes;

use records::Answers;
use reference::coverage::Coverage;
use reference::generate::random::Random;
use reference::generate::{case, crowds, waits, Case, Size};
use reference::line::{given, line, parse};
use reference::rules::Rules;
use std::process::exit;

fn main() {
    let mut numbers = Vec::new();
    let mut size = Size::Full;
    let mut coverage = false;
    let mut next: fn(&mut Random, Size) -> Case = case;
    let mut calls: Option<fn(u64, u64) -> bool> = None;
    for argument in std::env::args().skip(1) {
        match argument.as_str() {
            "--small" => size = Size::Small,
            "--coverage" => coverage = true,
            "--check" => check(),
            "--long" => exit(i32::from(!long::compare())),
            "--counts" => exit(i32::from(!counts::compare())),
            "--streams" => exit(i32::from(!streams::compare())),
            "--waits" => next = waits_case,
            "--crowds" => next = crowds_case,
            "--tapes" => calls = Some(tapes::compare),
            "--join" => calls = Some(joins::compare),
            text => match text.parse::<u64>() {
                Ok(number) => numbers.push(number),
                Err(_) => usage(),
            },
        }
    }
    let [count, seed] = numbers[..] else { usage() };
    if let Some(compare) = calls {
        exit(i32::from(!compare(count, seed)));
    }
    std::panic::set_hook(Box::new(|_| {})); // a panic of the second implementation is a difference
    random_cases(count, seed, size, coverage, next);
}

fn usage() -> ! {
    eprintln!("usage: compare [--waits | --crowds] N SEED [--small] [--coverage]");
    eprintln!("       compare --check | --long | --streams | --counts");
    eprintln!("       compare --tapes N SEED | --join N SEED");
    exit(2);
}

/// A case that waits on values.
fn waits_case(random: &mut Random, size: Size) -> Case {
    waits::case(Rules::LANDED, random, size)
}

/// A case in which hundreds wait for a storage.
fn crowds_case(random: &mut Random, size: Size) -> Case {
    crowds::case(Rules::LANDED, random, size)
}

fn random_cases(
    count: u64,
    seed: u64,
    size: Size,
    table: bool,
    next: fn(&mut Random, Size) -> Case,
) {
    let mut random = Random::new(seed);
    let mut coverage = Coverage::default();
    let mut answers = Answers::default();
    let mut stored = columns::Answers::default();
    for number in 1..=count {
        let case = next(&mut random, size);
        let stale = random.next_u64();
        let agreed = match runs::compare(&case, stale, &mut coverage) {
            Ok(agreed) => agreed,
            Err(text) => {
                println!("case {number} of seed {seed} differs: {text}");
                explain(&case, stale);
                exit(1);
            }
        };
        if let Err(text) = records::compare(&mut random, &agreed.trace, &mut answers) {
            println!("records after case {number} of seed {seed} differ: {text}");
            exit(1);
        }
        if let Err(text) = columns::compare(&mut random, &agreed.trace, &mut stored) {
            println!("columns after case {number} of seed {seed} differ: {text}");
            exit(1);
        }
    }
    if table {
        table::print(&coverage, &answers, &stored);
    }
    println!("{count} cases of seed {seed} agree");
}

/// The case, and the smallest found that still differs.
fn explain(case: &Case, stale: u64) {
    let differs = |case: &Case| {
        runs::compare(case, stale, &mut Coverage::default())
            .map(|_| ())
            .err()
    };
    println!("{}", given(case));
    let small = shrink::smaller(case, |case| differs(case).is_some());
    println!("shrunk: {}", differs(&small).unwrap_or_default());
    println!("{}", given(&small));
}

fn check() -> ! {
    let mut lines = 0;
    for text in std::io::stdin().lines() {
        let Ok(text) = text else { usage() };
        if text.starts_with('#') {
            continue;
        }
        let Some(case) = parse(&text) else { usage() };
        lines += 1;
        match runs::compare(&case, lines, &mut Coverage::default()) {
            Ok(agreed) => println!("{:?}", agreed.outcome),
            Err(text) => {
                println!("line {lines} differs: {text}");
                exit(1);
            }
        }
        // the engine gives what reference/ gives, as was just compared
        if text != given(&case) && text != line(Rules::LANDED, &case) {
            println!("line {lines} differs from what it says must come out");
            exit(1);
        }
    }
    println!("{lines} cases agree");
    exit(0);
}
