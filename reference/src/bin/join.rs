//! `join A B OUT`: joins `model.bin` and `tape.bin` of two folders and writes both to a third.

use reference::join::join;
use std::path::Path;

fn main() {
    let words: Vec<String> = std::env::args().skip(1).collect();
    let [first, second, to] = &words[..] else {
        eprintln!("usage: join A B OUT");
        std::process::exit(2);
    };
    let read = |folder: &str, name: &str| {
        let path = Path::new(folder).join(name);
        std::fs::read(&path).unwrap_or_else(|error| fail(&format!("{}: {error}", path.display())))
    };
    let pair = |folder: &str| (read(folder, "model.bin"), read(folder, "tape.bin"));
    let (one, two) = (pair(first), pair(second));
    // A number of the second takes at most one byte more.
    let mut model = vec![0; one.0.len() + 2 * two.0.len()];
    let mut tape = vec![0; one.1.len() + two.1.len()];
    let joined = join((&one.0, &one.1), (&two.0, &two.1), &mut model, &mut tape);
    let lengths = joined.unwrap_or_else(|number| fail(&format!("refused {number}")));
    let write = |name: &str, bytes: &[u8]| {
        let path = Path::new(to).join(name);
        if let Err(error) = std::fs::write(&path, bytes) {
            fail(&format!("{}: {error}", path.display()));
        }
    };
    write("model.bin", &model[..lengths.0]);
    write("tape.bin", &tape[..lengths.1]);
}

fn fail(text: &str) -> ! {
    eprintln!("{text}");
    std::process::exit(1);
}
