//! A folder with a model and a tape. In a work folder the text counts: it is assembled in memory, and bytes that differ are written anew
//! once both are accepted. In an archive the bytes count, and nothing is written.

use crate::durable;
use crate::failure::{Done, Failure};
use crate::files::{self, there, Links};
use crate::judge::{self, ModelFile, TapeFile};
use crate::seal;
use crate::shown;
use modeltext::model::{Block, Model};
use modeltext::show::{self, Names};
use std::path::{Path, PathBuf};

/// An accepted model and tape.
pub struct Study {
    pub folder: PathBuf,
    pub model: Vec<u8>,
    pub tape: Vec<u8>,
    pub decoded: Model,
    pub names: Names,
    /// How many times each list of the tape has.
    pub times: Vec<u64>,
    /// The texts, where they assemble to these bytes.
    pub model_text: Option<String>,
    pub tape_text: Option<String>,
}

impl Study {
    /// A pair of bytes that the engine accepts.
    pub fn of_bytes(folder: &Path, model: Vec<u8>, tape: Vec<u8>) -> Done<Study> {
        let decoded = Model::from_bytes(&model)
            .map_err(|e| Failure::new(format!("{}: {e}", folder.display())))?;
        Ok(Study {
            folder: folder.to_path_buf(),
            names: Names::numbered(&decoded),
            times: counts(&tape, decoded.lists)?,
            model,
            tape,
            decoded,
            model_text: None,
            tape_text: None,
        })
    }

    /// A block by its number, from 1.
    pub fn block(&self, number: u64) -> Option<&Block> {
        self.decoded.blocks.get((number as usize).wrapping_sub(1))
    }

    /// A block as the listing has it.
    pub fn statement(&self, number: u64) -> String {
        match self.block(number) {
            Some(block) => show::block_text(block, &self.names),
            None => "no such block".to_string(),
        }
    }
}

fn counts(tape: &[u8], lists: u32) -> Done<Vec<u64>> {
    let numbers = modeltext::number::read_all(tape).map_err(Failure::new)?;
    let mut at = 0;
    let mut counts = Vec::new();
    for _ in 0..lists {
        let count = numbers.get(at).copied().unwrap_or(0);
        counts.push(count);
        at += 1 + count as usize;
    }
    Ok(counts)
}

/// Text and bytes of a model or of a tape in a folder.
struct Side {
    text_path: PathBuf,
    bytes_path: PathBuf,
    text: Option<String>,
    bytes: Option<Vec<u8>>,
    /// The folder is an archive: its bytes count.
    sealed: bool,
}

fn side(folder: &Path, name: &str, sealed: bool) -> Done<Side> {
    let text_path = folder.join(format!("{name}.txt"));
    let bytes_path = folder.join(format!("{name}.bin"));
    let (has_text, has_bytes) = (there(&text_path), there(&bytes_path));
    if !has_text && !has_bytes {
        let folder = shown::path(folder);
        return Err(Failure::new(format!(
            "{folder}: there is neither {name}.txt nor {name}.bin"
        )));
    }
    let text = match has_text {
        true if sealed && has_bytes => files::regular_text(&text_path).ok(),
        true => Some(files::regular_text(&text_path)?),
        false => None,
    };
    let bytes = match files::regular(&bytes_path, Links::Follow) {
        Ok(bytes) => Some(bytes),
        // where the text counts, bytes that cannot be read are bytes that differ
        Err(_) if !has_bytes || (!sealed && has_text) => None,
        Err(e) => {
            return Err(Failure::new(format!("{}: {e}", shown::path(&bytes_path))));
        }
    };
    Ok(Side {
        text,
        bytes,
        sealed,
        text_path,
        bytes_path,
    })
}

impl Side {
    /// The text where it counts, or gives the very bytes that count; else the bytes.
    fn pick<T>(
        &self,
        of_text: impl Fn(String, &str) -> T,
        of_bytes: impl Fn(String, Vec<u8>) -> T,
        gives: impl Fn(&T, &[u8]) -> bool,
    ) -> T {
        let path = shown::path(&self.text_path);
        let text = self.text.as_deref().map(|text| of_text(path, text));
        match (text, &self.bytes) {
            (Some(text), None) => text,
            (Some(text), Some(_)) if !self.sealed => text,
            (Some(text), Some(bytes)) if gives(&text, bytes) => text,
            (_, bytes) => of_bytes(
                shown::path(&self.bytes_path),
                bytes.clone().unwrap_or_default(),
            ),
        }
    }

    /// Brings the bytes of a work folder up to date with the text that was picked, and says so.
    fn store(&self, bytes: &[u8], notes: &mut Vec<String>) {
        if self.sealed || self.text.is_none() || self.bytes.as_deref() == Some(bytes) {
            return;
        }
        let (text, bin) = (shown::path(&self.text_path), shown::path(&self.bytes_path));
        let done = match durable::write_file(&self.bytes_path, bytes, true, false) {
            Ok(()) if self.bytes.is_some() => {
                format!("{bin} was not what {text} gives: assembled anew")
            }
            Ok(()) => format!("{text}: assembled to {bin}"),
            Err(trouble) => trouble.message(&self.bytes_path, "the text is used as it is"),
        };
        notes.push(done);
    }

    /// What is to be said of a text in an archive that gives other bytes.
    fn differs(&self, picked: bool) -> Option<String> {
        (self.sealed && self.text.is_some() && !picked).then(|| {
            format!(
                "{} says something else than {}, which is archived: the bytes are used",
                shown::path(&self.text_path),
                shown::path(&self.bytes_path)
            )
        })
    }
}

fn sides(folder: &Path) -> Done<(Side, Side)> {
    let sealed = seal::of(folder)?;
    Ok((
        side(folder, "model", sealed)?,
        side(folder, "tape", sealed)?,
    ))
}

/// The model and the tape of a folder as they count, not yet judged.
pub fn files_of(folder: &Path) -> Done<(ModelFile, TapeFile)> {
    let (model, tape) = sides(folder)?;
    Ok((model_file(&model), tape_file(&tape)))
}

/// The model of a folder alone.
pub fn model_of(folder: &Path) -> Done<ModelFile> {
    let sealed = seal::of(folder)?;
    Ok(model_file(&side(folder, "model", sealed)?))
}

fn model_file(side: &Side) -> ModelFile {
    side.pick(ModelFile::text, ModelFile::bytes, |file, bytes| {
        file.faults().is_empty() && file.bytes == bytes
    })
}

fn tape_file(side: &Side) -> TapeFile {
    side.pick(TapeFile::text, TapeFile::bytes, |file, bytes| {
        file.faults().is_empty() && file.bytes == bytes
    })
}

/// Whether a text gives these bytes of a model or of a tape.
pub fn gives(name: &str, text: &str, bytes: &[u8]) -> bool {
    match name {
        "model" => {
            let file = ModelFile::text("", text);
            file.faults().is_empty() && file.bytes == bytes
        }
        _ => {
            let file = TapeFile::text("", text);
            file.faults().is_empty() && file.bytes == bytes
        }
    }
}

/// What is to be said of a flat archive whose text gives other bytes than those that were archived.
pub fn other_text(folder: &Path) -> Vec<String> {
    let mut notes = Vec::new();
    for name in ["model", "tape"] {
        let Ok(side) = side(folder, name, true) else {
            continue;
        };
        let (Some(text), Some(bytes)) = (&side.text, &side.bytes) else {
            continue;
        };
        if !gives(name, text, bytes) {
            notes.push(format!(
                "{} says something else than {}, which was archived",
                shown::path(&side.text_path),
                shown::path(&side.bytes_path)
            ));
        }
    }
    notes
}

/// Loads a folder; notes for standard error are added to `notes`.
pub fn load(folder: &Path, notes: &mut Vec<String>) -> Done<Study> {
    if !folder.is_dir() {
        return Err(Failure::new(format!(
            "{}: no such folder",
            shown::path(folder)
        )));
    }
    let (model_side, tape_side) = sides(folder)?;
    let (model, tape) = (model_file(&model_side), tape_file(&tape_side));
    let told = judge::judge(&model, Some(&tape));
    if !told.is_empty() {
        return Err(Failure::new(told.join("\n")));
    }
    model_side.store(&model.bytes, notes);
    tape_side.store(&tape.bytes, notes);
    notes.extend(model_side.differs(model.source.is_some()));
    notes.extend(tape_side.differs(tape.text.is_some()));
    notes.extend(crate::drawn::changed(folder, &tape.bytes));
    let mut study = Study::of_bytes(folder, model.bytes, tape.bytes)?;
    if let Some(source) = &model.source {
        study.names = Names::of(source);
        study.model_text = model_side.text;
    }
    if tape.text.is_some() {
        study.tape_text = tape_side.text;
    }
    Ok(study)
}
