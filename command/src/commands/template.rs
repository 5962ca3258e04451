//! `covrith template`: a tape to fill in.

use super::check::model_file;
use super::{say_lines, Command};
use crate::args::Args;
use crate::failure::{Done, Failure};
use crate::judge::judge;
use crate::limits;
use modeltext::model::{Model, Operand};
use modeltext::show::{self, Names};
use modeltext::words::GENERATE;
use std::io::Write;

pub const COMMAND: Command = Command {
    name: "template",
    words: "FOLDER|MODEL",
    about: "print a tape with the model's lists to fill in",
    help: "\
Prints a tape's text with a line for each list of the model, in its order, and comments that say which blocks use it.
It is a tape as it stands, with empty lists:

  covrith template model.txt > tape.txt
",
    flags: &[],
    valued: &[],
    run: template,
};

fn template(args: &Args, out: &mut dyn Write) -> Done<()> {
    let [path] = args.paths("one model")?;
    let file = model_file(path)?;
    let told = judge(&file, None);
    if !told.is_empty() {
        return Err(Failure::new(told.join("\n")));
    }
    let model = Model::from_bytes(&file.bytes).map_err(Failure::new)?;
    let names = match &file.source {
        Some(source) => Names::of(source),
        None => Names::numbered(&model),
    };
    say_lines(out, &lines(&file.path, &model, &names))
}

fn lines(path: &str, model: &Model, names: &Names) -> Vec<String> {
    let mut lines = vec![
        format!("* A tape for {path}."),
        format!(
            "* Behind each name its times, whole ticks from 0 to {}; 20*5 stands for twenty times of 5.",
            limits::TIME
        ),
        "* A list goes on in the next line if that begins with no name.".to_string(),
    ];
    if names.lists.is_empty() {
        lines.push("* The model has no list: the tape is empty.".to_string());
    }
    for (i, name) in names.lists.iter().enumerate() {
        let uses = |number: u32| {
            let mut operands = model.blocks[number as usize - 1].lettered();
            operands.any(|o| o == ('l', Operand::Number(i as u32 + 1)))
        };
        let mut used = false;
        for number in (1..=model.blocks.len() as u32).filter(|n| uses(*n)) {
            used = true;
            let block = &model.blocks[number as usize - 1];
            let what = if block.kind == GENERATE {
                "ticks to each arrival from the one before"
            } else {
                "ticks that each stay takes"
            };
            let statement = show::block_text(block, names);
            lines.push(format!("* block {number}, {statement}: {what}"));
        }
        if !used {
            lines.push("* no block uses this list".to_string());
        }
        lines.push(format!("{name}:"));
    }
    lines
}
