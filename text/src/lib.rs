//! Text form of models and tapes: text to bytes and bytes to text. `docs/TEXT.md` has the syntax.

pub mod distribution;
pub mod fixed;
pub mod model;
pub mod names;
pub mod number;
pub mod read;
pub mod reader;
pub mod scan;
pub mod shape;
pub mod show;
pub mod student;
pub mod tape;
pub mod words;

/// A place in a text: line and column count from 1.
#[derive(Clone, Copy, Debug, Default, PartialEq, Eq, PartialOrd, Ord)]
pub struct Position {
    pub line: u32,
    pub column: u32,
}

impl Position {
    pub fn at(line: usize, column: usize) -> Position {
        Position {
            line: line as u32,
            column: column as u32,
        }
    }
}

/// What is wrong with a text, where, and what to write instead.
#[derive(Clone, Debug, PartialEq, Eq)]
pub struct Fault {
    /// Where it stands in another file than the text that was read.
    pub file: Option<String>,
    pub at: Position,
    pub what: String,
    pub remedy: String,
}

impl Fault {
    pub fn at(at: Position, what: impl Into<String>, remedy: impl Into<String>) -> Fault {
        Fault {
            file: None,
            at,
            what: what.into(),
            remedy: remedy.into(),
        }
    }
}

impl std::fmt::Display for Fault {
    fn fmt(&self, f: &mut std::fmt::Formatter) -> std::fmt::Result {
        write!(f, "{}:{}: {}", self.at.line, self.at.column, self.what)?;
        write!(f, "\n    {}", self.remedy)
    }
}

/// The bytes of a model's text.
pub fn model_bytes(text: &str) -> Result<Vec<u8>, Vec<Fault>> {
    let source = read::model(text);
    if source.faults.is_empty() {
        Ok(source.model.bytes())
    } else {
        Err(source.faults)
    }
}

/// A text for a model's bytes; it gives the same bytes again.
pub fn model_text(bytes: &[u8]) -> Result<String, String> {
    Ok(show::model(&model::Model::from_bytes(bytes)?))
}
