//! `covrith list`: a model's listing with block numbers.

use super::check::model_file;
use super::{say, Command};
use crate::args::Args;
use crate::failure::{Done, Failure};
use crate::judge::judge;
use crate::listing;
use modeltext::model::Model;
use modeltext::show::Names;
use std::io::Write;

pub const COMMAND: Command = Command {
    name: "list",
    words: "FOLDER|MODEL",
    about: "print a model with the numbers of its blocks",
    help: "\
Prints a model's declarations and its blocks with their numbers and labels. Files named .bin are bytes; their things are
called by a letter and a number.
",
    flags: &[],
    valued: &[],
    run: list,
};

fn list(args: &Args, out: &mut dyn Write) -> Done<()> {
    let [path] = args.paths("one model")?;
    let file = model_file(path)?;
    let told = judge(&file, None);
    if !told.is_empty() {
        return Err(Failure::new(told.join("\n")));
    }
    let model = Model::from_bytes(&file.bytes).map_err(Failure::new)?;
    let names = match &file.source {
        Some(source) => Names::of(source),
        None => Names::numbered(&model),
    };
    say(out, &listing::text(&model, &names))
}
