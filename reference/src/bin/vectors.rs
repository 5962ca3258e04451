//! `vectors FOLDER RUNS`: writes the stored cases to FOLDER/stdin, what must come
//! out of them to FOLDER/stdout, and both with trace and report in hexadecimal to
//! the file RUNS; prints how many cases show each feature.

use reference::stored::{cases, encode, expected, runs};
use std::path::Path;

fn main() -> std::io::Result<()> {
    let arguments: Vec<String> = std::env::args().skip(1).collect();
    let [folder, file] = &arguments[..] else {
        eprintln!("usage: vectors FOLDER RUNS");
        std::process::exit(2);
    };
    let (cases, met) = cases();
    let bytes = encode(&cases);
    std::fs::write(Path::new(folder).join("stdin"), &bytes)?;
    std::fs::write(Path::new(folder).join("stdout"), expected(&cases))?;
    std::fs::write(file, runs(&cases))?;
    println!("{} cases, {} bytes", cases.len(), bytes.len());
    for (name, count) in met {
        println!("{count:>4} {name}");
    }
    Ok(())
}
