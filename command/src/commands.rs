//! The commands, one to a file; this table has their words and options.

mod archive;
mod catalogue;
mod check;
mod columns;
mod compare;
mod follow;
mod join;
mod list;
mod run;
mod study;
mod tape;
mod template;
mod verify;

use crate::args::{self, Args};
use crate::durable;
use crate::execute::{execute, Lent};
use crate::failure::{Done, Failure};
use crate::maker::Maker;
use crate::seal;
use crate::standard;
use crate::study::Study;
use engine::Run;
use std::ffi::OsString;
use std::io::{IsTerminal, Write};
use std::path::Path;
use std::sync::mpsc;
use std::time::{Duration, Instant};

pub use archive::archive;

/// A command: its name, the words behind it, what it does in a line, its help and its options.
pub struct Command {
    pub name: &'static str,
    pub words: &'static str,
    pub about: &'static str,
    pub help: &'static str,
    pub flags: &'static [&'static str],
    pub valued: &'static [&'static str],
    pub run: fn(&Args, &mut dyn Write) -> Done<()>,
}

pub const COMMANDS: &[Command] = &[
    check::COMMAND,
    run::COMMAND,
    archive::COMMAND,
    verify::COMMAND,
    catalogue::COMMAND,
    list::COMMAND,
    follow::COMMAND,
    compare::COMMAND,
    template::COMMAND,
    columns::COMMAND,
    tape::COMMAND,
    study::COMMAND,
    join::COMMAND,
];

/// Options of the commands that run a model.
const LENT: &[&str] = &["--budget", "--trace-bytes"];

const LENT_HELP: &str = concat!(
    "  --budget N        at most N turns (without it as many as a run can have)\n",
    "  --trace-bytes N   room for N bytes of trace (without it as many as a run can write)\n",
);

fn help() -> String {
    let mut text = String::from(
        "covrith: block models checked, run, archived and verified by the proved engine\n\n",
    );
    for command in COMMANDS {
        let line = format!("covrith {} {}", command.name, command.words);
        text.push_str(&format!("  {line:42} {}\n", command.about));
    }
    text.push_str(
        "
  covrith COMMAND --help                     more of one command
  covrith --version                          versions of the engine, its library and the kit that proved it

A FOLDER has a model and a tape, each as text (model.txt, tape.txt; docs/TEXT.md), as bytes (model.bin, tape.bin) or both.
Exit status: 0 success; 1 refused, stopped, differs or cannot be done; 2 wrong usage; 3 cannot be judged (verify); 130 interrupted.
Errors go to standard error.
",
    );
    text
}

fn help_of(command: &Command) -> String {
    let mut text = format!(
        "covrith {} {}\n\n{}",
        command.name, command.words, command.help
    );
    if LENT.iter().all(|option| command.valued.contains(option)) {
        text.push_str(LENT_HELP);
    }
    text
}

/// Does what the words behind `covrith` say.
pub fn main(given: &[OsString], out: &mut dyn Write) -> Done<()> {
    let Some((name, rest)) = given.split_first() else {
        return Err(Failure::usage(help().trim_end()));
    };
    let name = name.to_string_lossy();
    match (&*name, rest) {
        ("--help" | "-h" | "help", []) => return say(out, &help()),
        ("help", [name]) => return say(out, &help_of(find(&name.to_string_lossy())?)),
        ("--version" | "-V", []) => {
            let Maker {
                engine,
                library,
                kit,
            } = Maker::this();
            let text = format!("engine {engine}\nlibrary {library}\nkit {kit}\n");
            return say(out, &text);
        }
        _ => {}
    }
    let command = find(&name)?;
    if rest.iter().any(|word| word == "--help" || word == "-h") {
        return say(out, &help_of(command));
    }
    let wrong = |mut failure: Failure| {
        if failure.status == crate::failure::USAGE {
            failure.message = format!(
                "covrith {}: {}\nusage: covrith {} {}; covrith {} --help says more",
                command.name, failure.message, command.name, command.words, command.name
            );
        }
        failure
    };
    let args = args::parse(rest, command.flags, command.valued).map_err(wrong)?;
    (command.run)(&args, out).map_err(wrong)
}

fn find(name: &str) -> Done<&'static Command> {
    let found = COMMANDS.iter().find(|command| command.name == name);
    found.ok_or_else(|| {
        let names = COMMANDS.iter().map(|command| command.name);
        let hint = match modeltext::words::nearest(name, names) {
            Some(meant) => format!("did you mean {meant}?"),
            None => "covrith --help lists the commands".to_string(),
        };
        Failure::usage(format!("covrith: there is no command {name}; {hint}"))
    })
}

/// Writes to standard output.
fn say(out: &mut dyn Write, text: &str) -> Done<()> {
    out.write_all(text.as_bytes()).map_err(cannot_write)
}

fn say_lines(out: &mut dyn Write, lines: &[String]) -> Done<()> {
    lines.iter().try_for_each(|line| {
        say(out, line)?;
        say(out, "\n")
    })
}

pub fn cannot_write(e: std::io::Error) -> Failure {
    if e.kind() == std::io::ErrorKind::BrokenPipe {
        return Failure::new(""); // whoever read it has gone
    }
    Failure::new(format!("standard output: {e}"))
}

/// Writes a file that the user chose: never into an archive, never over what is no regular file, over one only with `--replace`, and
/// to standard output for `-`.
fn write_chosen(path: &Path, bytes: &[u8], replace: bool, out: &mut dyn Write) -> Done<()> {
    if path == Path::new("-") {
        return out.write_all(bytes).map_err(cannot_write);
    }
    seal::refuse(path)?;
    durable::write_file(path, bytes, replace, true)
        .map_err(|trouble| Failure::new(trouble.message(path, "nothing was written")))
}

/// Notes go to standard error: they are no part of the result.
fn tell(notes: &[String]) {
    for note in notes {
        standard::complain(&format!("covrith: {note}"));
    }
}

/// How long a run goes on before a line on the terminal says so.
const PATIENCE: Duration = Duration::from_secs(2);

/// Runs a study; a line on a terminal tells that a long run still goes on.
fn run_study(study: &Study, lent: Lent) -> Done<Run> {
    if !std::io::stderr().is_terminal() {
        return execute(&study.model, &study.tape, lent);
    }
    let (done, waiting) = mpsc::channel::<()>();
    std::thread::scope(|scope| {
        scope.spawn(move || {
            let began = Instant::now();
            let mut pause = PATIENCE;
            while let Err(mpsc::RecvTimeoutError::Timeout) = waiting.recv_timeout(pause) {
                standard::progress(&format!("running, {} s so far", began.elapsed().as_secs()));
                pause = Duration::from_secs(1);
            }
            if began.elapsed() >= PATIENCE {
                standard::progress("");
            }
        });
        let run = execute(&study.model, &study.tape, lent);
        drop(done);
        run
    })
}
