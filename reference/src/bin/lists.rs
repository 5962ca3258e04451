//! `lists FOLDER [NAME..]`: draws the lists of a run of `model.bin` on `tape.bin`, at the start and after each turn. The names are those
//! of the facilities and storages, in their order.

use reference::drawing::drawings;
use reference::Rules;
use std::path::Path;

fn main() {
    let words: Vec<String> = std::env::args().skip(1).collect();
    let Some((folder, names)) = words.split_first() else {
        eprintln!("usage: lists FOLDER [NAME..]");
        std::process::exit(2);
    };
    let read = |name: &str| {
        let path = Path::new(folder).join(name);
        std::fs::read(&path).unwrap_or_else(|error| {
            eprintln!("{}: {error}", path.display());
            std::process::exit(1);
        })
    };
    match drawings(Rules::LANDED, &read("model.bin"), &read("tape.bin"), names) {
        Ok(text) => print!("{text}"),
        Err(refusal) => {
            println!("refused {refusal}");
            std::process::exit(1);
        }
    }
}
