//! Why a model, a tape or a distribution is refused, and where: the questions 3 to 10 asked once more of the bytes, in words, and 42
//! of a text. The number that is told is the engine's; tests hold these findings to it.

mod asker;
mod blocks;
mod distribution;
mod model;
mod shape;
mod tape;
mod values;

use modeltext::Position;

pub use distribution::distribution;
pub use model::model;
pub use tape::tape;

/// What a number belongs to.
#[derive(Clone, Copy, Debug, PartialEq, Eq)]
pub enum Item {
    /// The declarations: edition and counts.
    Head,
    Capacity(u64),
    Value(u64),
    Block(u64),
    List(u64),
    /// Behind the last number.
    Rest,
}

impl std::fmt::Display for Item {
    fn fmt(&self, f: &mut std::fmt::Formatter) -> std::fmt::Result {
        match self {
            Item::Head => write!(f, "declarations"),
            Item::Capacity(k) => write!(f, "storage {k}"),
            Item::Value(k) => write!(f, "value {k}"),
            Item::Block(k) => write!(f, "block {k}"),
            Item::List(k) => write!(f, "list {k}"),
            Item::Rest => write!(f, "behind the end"),
        }
    }
}

/// A question answered "no".
#[derive(Clone, Debug, PartialEq, Eq)]
pub struct Finding {
    pub question: u64,
    pub item: Item,
    /// Which number of the file, from 1, and its first byte, from 0.
    pub number: usize,
    pub byte: usize,
    /// Where it stands in the text, if there is one.
    pub at: Option<Position>,
    pub rule: String,
    pub remedy: String,
}

/// The rule in words and the remedy.
pub type Words = (String, String);
