//! `covrith check`: questions 3 to 10, each "no" with its place, its rule and a remedy.

use super::{say, Command};
use crate::args::Args;
use crate::failure::{Done, Failure};
use crate::files;
use crate::judge::{judge, ModelFile, TapeFile};
use crate::shown;
use crate::study;
use std::io::Write;
use std::path::Path;

pub const COMMAND: Command = Command {
    name: "check",
    words: "FOLDER|MODEL [TAPE]",
    about: "say what is wrong with a model and its tape, and where",
    help: "\
Judges a model and its tape as the engine does (questions 3 to 10 of document 01) and the tape's lists by the model's
names. Each fault is told with file, line and column, the rule and a remedy; \"question N\" is the engine's own number.
Files named .bin are bytes, and the place is then a block and a number; all others are text. Of a folder the text is
taken where there is one, and of an archive the bytes. A model without a tape is judged alone. Nothing is written.
",
    flags: &[],
    valued: &[],
    run: check,
};

pub fn model_file(path: &Path) -> Done<ModelFile> {
    if path.is_dir() {
        return study::model_of(path);
    }
    let name = shown::path(path);
    if path.extension().is_some_and(|e| e == "bin") {
        return Ok(ModelFile::bytes(name, files::read(path)?));
    }
    Ok(ModelFile::text(name, &files::read_text(path)?))
}

fn tape_file(path: &Path) -> Done<TapeFile> {
    let name = shown::path(path);
    if path.extension().is_some_and(|e| e == "bin") {
        return Ok(TapeFile::bytes(name, files::read(path)?));
    }
    Ok(TapeFile::text(name, &files::read_text(path)?))
}

fn check(args: &Args, out: &mut dyn Write) -> Done<()> {
    let (model, tape) = match &args.words[..] {
        [folder] if Path::new(folder).is_dir() => {
            let (model, tape) = study::files_of(Path::new(folder))?;
            (model, Some(tape))
        }
        [model] => (model_file(Path::new(model))?, None),
        [model, tape] if !Path::new(model).is_dir() => (
            model_file(Path::new(model))?,
            Some(tape_file(Path::new(tape))?),
        ),
        _ => return Err(Failure::usage("wanted is a folder, or a model and a tape")),
    };
    let told = judge(&model, tape.as_ref());
    if !told.is_empty() {
        return Err(Failure::new(told.join("\n")));
    }
    let mut files = model.path.clone();
    if let Some(tape) = &tape {
        files = format!("{files} and {}", tape.path);
    }
    say(out, &format!("{files}: accepted\n"))
}
