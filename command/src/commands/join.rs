//! `covrith join`: two models with their tapes as one.

use super::{say, tell, Command};
use crate::args::Args;
use crate::durable;
use crate::failure::{Done, Failure};
use crate::files::there;
use crate::limits;
use crate::seal;
use crate::shown;
use crate::study::{self, Study};
use engine::Refusal;
use modeltext::model::Model;
use modeltext::show::{self, Names};
use modeltext::tape;
use std::io::Write;
use std::path::Path;

pub const COMMAND: Command = Command {
    name: "join",
    words: "A B OUT",
    about: "join the models and tapes of two folders to one",
    help: "\
Joins two models of one edition, and their tapes, and writes them to the folder OUT as text and as bytes. The facilities,
storages, queues, values, lists and blocks of B are numbered on after those of A, the counters are added, and the tapes
are laid end to end. A name of B that A has too gets a number: a second crane is crane2.
Where no model has the clock term (of edition 2, also both or neither an ENTER or LEAVE of several units) and the joined run
and both runs alone end dry, each part of the joined run has the records that it has alone.
A folder that has a model or a tape keeps it, unless --replace is given.

  --replace         write over the model and the tape of OUT
",
    flags: &["--replace"],
    valued: &[],
    run: join,
};

fn join(args: &Args, out: &mut dyn Write) -> Done<()> {
    let [first, second, folder] = args.paths("two folders to join and one to write")?;
    seal::refuse(&folder.join("model.bin"))?;
    if !args.has("--replace") {
        keeps_nothing(folder)?;
    }
    let mut notes = Vec::new();
    let one = study::load(first, &mut notes)?;
    let two = study::load(second, &mut notes)?;
    tell(&notes);
    let pairs = (
        (&one.model[..], &one.tape[..]),
        (&two.model[..], &two.tape[..]),
    );
    let (model, tape) =
        engine::join(pairs.0, pairs.1).map_err(|refusal| refused(refusal, &one, &two))?;
    let decoded = Model::from_bytes(&model).map_err(Failure::new)?;
    let names = usable(one.names.followed_by(&two.names), &decoded, &model);
    let text = show::text(&decoded, &names);
    let times = tape::text_with(&tape, &names.lists).map_err(Failure::new)?;
    let [first, second, to] = [first, second, folder].map(shown::path);
    std::fs::create_dir_all(folder).map_err(|e| Failure::new(format!("{to}: {e}")))?;
    let written = [
        (folder.join("model.txt"), text.as_bytes()),
        (folder.join("tape.txt"), times.as_bytes()),
        (folder.join("model.bin"), &model[..]),
        (folder.join("tape.bin"), &tape[..]),
    ];
    for (done, (path, bytes)) in written.iter().enumerate() {
        durable::write_file(path, bytes, true, false).map_err(|trouble| {
            let so_far = match done {
                0 => "nothing was written".to_string(),
                done => format!("of the four files {done} are written"),
            };
            Failure::new(trouble.message(path, &so_far))
        })?;
    }
    let line = format!(
        "{to}: {} blocks of {first} and {} of {second}, {} lists, counter {}; {} and {} bytes\n",
        one.decoded.blocks.len(),
        two.decoded.blocks.len(),
        decoded.lists,
        decoded.counter,
        model.len(),
        tape.len()
    );
    say(out, &line)
}

/// A folder with a model or a tape is refused.
fn keeps_nothing(folder: &Path) -> Done<()> {
    let names = ["model.txt", "model.bin", "tape.txt", "tape.bin"];
    let mut there = names.iter().filter(|name| there(&folder.join(name)));
    match there.next() {
        None => Ok(()),
        Some(name) => Err(Failure::new(format!(
            "{}: there is a {name}; --replace writes over it",
            shown::path(folder)
        ))),
    }
}

/// These names where a text with them gives these bytes, else a letter and a number for each thing.
fn usable(names: Names, model: &Model, bytes: &[u8]) -> Names {
    match modeltext::model_bytes(&show::text(model, &names)) {
        Ok(again) if again == bytes => names,
        _ => Names::numbered(model),
    }
}

/// The engine's refusal, with what does not fit.
fn refused(refusal: Refusal, one: &Study, two: &Study) -> Failure {
    let (first, second) = (shown::path(&one.folder), shown::path(&two.folder));
    let number = refusal.number();
    let mut lines = vec![format!("{first} and {second}: refused {number}: {refusal}")];
    let (a, b) = (&one.decoded, &two.decoded);
    if a.edition != b.edition {
        let (one, two) = (a.edition, b.edition);
        lines.push(format!(
            "    {first} is of edition {one}, {second} of edition {two}"
        ));
    }
    for (what, one, two, most) in counts(a, b) {
        if one + two > most {
            let sum = one + two;
            lines.push(format!(
                "    {what}: {one} and {two} are {sum}, at most {most}"
            ));
        }
    }
    Failure::new(lines.join("\n"))
}

/// What is added: its name, how much each model has, and the limit.
fn counts(a: &Model, b: &Model) -> [(&'static str, u64, u64, u64); 7] {
    let count = |of: fn(&Model) -> usize| (of(a) as u64, of(b) as u64);
    let line = |what, of: fn(&Model) -> usize, most| (what, count(of).0, count(of).1, most);
    [
        line("facilities", |m| m.facilities as usize, limits::FACILITIES),
        line("storages", |m| m.capacities.len(), limits::STORAGES),
        line("queues", |m| m.queues as usize, limits::QUEUES),
        line("values", |m| m.values.len(), limits::VALUES),
        line("lists", |m| m.lists as usize, limits::LISTS),
        line("counter", |m| m.counter as usize, limits::COUNTER),
        line("blocks", |m| m.blocks.len(), limits::BLOCKS),
    ]
}
