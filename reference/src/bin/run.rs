//! `run [FOLDER [--requests LIST]]`: runs `model.bin` and `tape.bin` of a folder and
//! prints what `runmodel` prints, with these requests of document 02 in force.

use reference::Rules;
use std::path::Path;

fn main() {
    let words: Vec<String> = std::env::args().skip(1).collect();
    let folder = words.first().map_or(".", String::as_str);
    let rules = match words.get(1..).unwrap_or_default() {
        [] => Some(Rules::LANDED),
        [option, list] if option == "--requests" => Rules::parse(list),
        _ => None,
    };
    let Some(rules) = rules else {
        eprintln!("usage: run [FOLDER [--requests LIST]]");
        std::process::exit(2);
    };
    let read = |name: &str| {
        let path = Path::new(folder).join(name);
        std::fs::read(&path).unwrap_or_else(|error| {
            eprintln!("{}: {error}", path.display());
            std::process::exit(1);
        })
    };
    let model = read("model.bin");
    let tape = read("tape.bin");
    print!("{}", reference::text::runmodel_with(rules, &model, &tape));
}
