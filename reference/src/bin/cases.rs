//! `cases N SEED [--small | --short]`: N random cases, one a line: model, tape,
//! budget, work, trace and report lengths, the eight numbers of the result,
//! trace and report. Bytes are hexadecimal, `-` for none.
//! `cases --coverage N SEED [--small | --short]`: a table of what they cover.
//! `cases --claims N SEED [--small | --short]`: checks the claims of demand 3
//! at every turn of N cases.
//! `cases --check`: runs the cases of standard input again and counts the lines
//! that come out otherwise.
//! `--requests 1,6,7`: with these requests of document 02 in force; `none`, `all`;
//! without it, those that the engine has.

use reference::claims;
use reference::coverage::Coverage;
use reference::generate::random::Random;
use reference::generate::{case_with, Size};
use reference::line::{line, parse};
use reference::Rules;
use std::io::{BufWriter, Write};

fn main() {
    let mut numbers = Vec::new();
    let mut size = Size::Full;
    let mut coverage = false;
    let mut checking = false;
    let mut claiming = false;
    let mut rules = Rules::LANDED;
    let mut arguments = std::env::args().skip(1);
    while let Some(argument) = arguments.next() {
        match argument.as_str() {
            "--requests" => match arguments.next().and_then(|text| Rules::parse(&text)) {
                Some(named) => rules = named,
                None => usage(),
            },
            "--small" => size = Size::Small,
            "--short" => size = Size::Short,
            "--coverage" => coverage = true,
            "--check" => checking = true,
            "--claims" => claiming = true,
            text => match text.parse::<u64>() {
                Ok(number) => numbers.push(number),
                Err(_) => usage(),
            },
        }
    }
    if checking {
        check(rules);
    }
    let [count, seed] = numbers[..] else { usage() };
    let mut random = Random::new(seed);
    if coverage {
        print!("{}", Coverage::of(rules, &mut random, size, count));
        return;
    }
    if claiming {
        check_claims(rules, &mut random, size, count);
    }
    let mut output = BufWriter::new(std::io::stdout().lock());
    for _ in 0..count {
        let case = case_with(rules, &mut random, size);
        if writeln!(output, "{}", line(rules, &case)).is_err() {
            return; // nobody reads on
        }
    }
}

fn usage() -> ! {
    eprintln!("usage: cases [--coverage | --claims] N SEED [--small | --short] [--requests LIST]");
    eprintln!("       cases --check [--requests LIST]");
    std::process::exit(2);
}

fn check_claims(rules: Rules, random: &mut Random, size: Size, count: u64) -> ! {
    let mut asked = 0;
    for number in 1..=count {
        match claims::check_with(rules, &case_with(rules, random, size)) {
            Ok((_, times)) => asked += times,
            Err(errors) => {
                println!("case {number}: {}", errors.join("; "));
                std::process::exit(1);
            }
        }
    }
    println!("{count} cases hold; waiters were asked {asked} times");
    std::process::exit(0);
}

/// Reads lines as printed here and compares them with a new run.
fn check(rules: Rules) -> ! {
    let mut lines = 0u64;
    let mut others = Vec::new();
    for text in std::io::stdin().lines() {
        let Ok(text) = text else { usage() };
        let Some(case) = parse(&text) else { usage() };
        lines += 1;
        if line(rules, &case) != text {
            others.push(lines);
        }
    }
    let first: Vec<String> = others.iter().take(10).map(u64::to_string).collect();
    println!(
        "{lines} lines, {} otherwise: {}",
        others.len(),
        first.join(" ")
    );
    std::process::exit(i32::from(!others.is_empty()));
}
