//! `modeltext`: text to bytes and bytes to text.

use modeltext::{distribution, read, tape, Fault};
use std::process::ExitCode;

const HELP: &str = "\
modeltext: models and tapes as text and as bytes

  modeltext model FILE.txt FILE.bin       a model's text to its bytes
  modeltext tape FILE.txt FILE.bin        a tape's text to its bytes
  modeltext show-model FILE.bin           a model's bytes as text, on standard output
  modeltext show-tape FILE.bin            a tape's bytes as text, on standard output
  modeltext distributions FILE.txt        distributions as a call of the tape maker has them, on standard output: the
                                          numbers of the lists, and the doubles as 16 hexadecimal digits
  modeltext folder FOLDER                 model.txt and tape.txt of a folder to model.bin and tape.bin
  modeltext --help

An error names file, line and column and says what to write instead; nothing is written then. docs/TEXT.md has the syntax.
`covrith check` also asks the engine's questions.
";

fn main() -> ExitCode {
    let args: Vec<String> = std::env::args().skip(1).collect();
    let words: Vec<&str> = args.iter().map(String::as_str).collect();
    let done = match words[..] {
        ["--help" | "-h"] => {
            print!("{HELP}");
            Ok(())
        }
        ["model", from, to] => assemble(from, to, modeltext::model_bytes),
        ["tape", from, to] => assemble(from, to, tape::bytes),
        ["show-model", from] => show(from, modeltext::model_text),
        ["show-tape", from] => show(from, tape::text),
        ["distributions", from] => show_arguments(from),
        ["folder", folder] => assemble_folder(folder),
        _ => {
            eprint!("{HELP}");
            return ExitCode::from(2);
        }
    };
    match done {
        Ok(()) => ExitCode::SUCCESS,
        Err(message) => {
            eprintln!("{message}");
            ExitCode::FAILURE
        }
    }
}

fn text_of(path: &str) -> Result<String, String> {
    std::fs::read_to_string(path).map_err(|e| format!("{path}: {e}"))
}

fn told(path: &str, faults: &[Fault]) -> String {
    let lines: Vec<String> = faults.iter().map(|f| format!("{path}:{f}")).collect();
    lines.join("\n")
}

/// Writes beside the file and then renames, so that no half of it is ever there.
fn write(path: &str, bytes: &[u8]) -> Result<(), String> {
    let beside = format!("{path}.new");
    let done = std::fs::write(&beside, bytes).and_then(|()| std::fs::rename(&beside, path));
    done.map_err(|e| {
        let _ = std::fs::remove_file(&beside);
        format!("{path}: {e}")
    })
}

fn assemble(
    from: &str,
    to: &str,
    make: fn(&str) -> Result<Vec<u8>, Vec<Fault>>,
) -> Result<(), String> {
    let bytes = make(&text_of(from)?).map_err(|faults| told(from, &faults))?;
    write(to, &bytes)
}

/// Both files or none: the tape's lists are held to the model's.
fn assemble_folder(folder: &str) -> Result<(), String> {
    let (model_path, tape_path) = (format!("{folder}/model.txt"), format!("{folder}/tape.txt"));
    let (model_text, tape_text) = (text_of(&model_path)?, text_of(&tape_path)?);
    let source = read::model(&model_text);
    let mut messages = Vec::new();
    if !source.faults.is_empty() {
        messages.push(told(&model_path, &source.faults));
    }
    let bytes = tape::bytes(&tape_text);
    if let Err(faults) = &bytes {
        messages.push(told(&tape_path, faults));
    } else if source.faults.is_empty() {
        let found = tape::against(&tape::read(&tape_text), &source.names.lists);
        let faults: Vec<Fault> = found.iter().map(|m| m.fault().clone()).collect();
        if !faults.is_empty() {
            messages.push(told(&tape_path, &faults));
        }
    }
    if !messages.is_empty() {
        return Err(messages.join("\n"));
    }
    write(&format!("{folder}/model.bin"), &source.model.bytes())?;
    write(&format!("{folder}/tape.bin"), &bytes.unwrap_or_default())
}

/// Both with commas between, `-` for none, as `reference/` reads them.
fn show_arguments(from: &str) -> Result<(), String> {
    let beside = |name: &str| {
        let path = std::path::Path::new(from).with_file_name(name);
        std::fs::read_to_string(path).map_err(|e| e.to_string())
    };
    let told = |faults: Vec<Fault>| {
        let path = |fault: &Fault| fault.file.clone().unwrap_or(from.to_string());
        let lines: Vec<String> = faults.iter().map(|f| format!("{}:{f}", path(f))).collect();
        lines.join("\n")
    };
    let lists = distribution::read(&text_of(from)?, &beside).map_err(told)?;
    let (numbers, doubles) = distribution::arguments(&lists);
    let numbers: Vec<String> = numbers.iter().map(u32::to_string).collect();
    let doubles: Vec<String> = doubles
        .iter()
        .map(|double| format!("{:016x}", double.to_bits()))
        .collect();
    let some = |words: Vec<String>| match words.is_empty() {
        true => "-".to_string(),
        false => words.join(","),
    };
    println!("{} {}", some(numbers), some(doubles));
    Ok(())
}

fn show(from: &str, make: fn(&[u8]) -> Result<String, String>) -> Result<(), String> {
    let bytes = std::fs::read(from).map_err(|e| format!("{from}: {e}"))?;
    print!(
        "{}",
        make(&bytes).map_err(|what| format!("{from}: {what}"))?
    );
    Ok(())
}
