//! The names of a model, as its text declares them.

use crate::words;
use crate::{Fault, Position};

/// A name as it was declared, the number that it stands for, and where.
#[derive(Clone, Debug, PartialEq, Eq)]
pub struct Named {
    pub name: String,
    pub number: u32,
    pub at: Position,
}

/// The names of a model, by what they name.
#[derive(Clone, Debug, Default)]
pub struct Names {
    pub facilities: Vec<Named>,
    pub storages: Vec<Named>,
    pub queues: Vec<Named>,
    pub lists: Vec<Named>,
    pub values: Vec<Named>,
    pub labels: Vec<Named>,
}

impl Names {
    /// The names behind a letter (`words::Kind`).
    pub fn of(&self, letter: char) -> &[Named] {
        match letter {
            'f' => &self.facilities,
            's' => &self.storages,
            'q' => &self.queues,
            'l' => &self.lists,
            'w' => &self.values,
            _ => &self.labels,
        }
    }

    fn of_mut(&mut self, letter: char) -> &mut Vec<Named> {
        match letter {
            'f' => &mut self.facilities,
            's' => &mut self.storages,
            'q' => &mut self.queues,
            'l' => &mut self.lists,
            'w' => &mut self.values,
            _ => &mut self.labels,
        }
    }

    pub fn find(&self, letter: char, name: &str) -> Option<&Named> {
        let mut among = self.of(letter).iter();
        among.find(|named| named.name.eq_ignore_ascii_case(name))
    }

    pub(crate) fn define(
        &mut self,
        letter: char,
        name: &str,
        number: u32,
        at: Position,
    ) -> Result<(), Fault> {
        if words::is_reserved(name) {
            let what = format!("`{name}` begins a statement and cannot be a name");
            return Err(Fault::at(
                at,
                what,
                format!("choose another word, as `{name}1`"),
            ));
        }
        if let Some(before) = self.find(letter, name) {
            let what = format!(
                "the {} `{name}` is declared twice, first on line {}",
                words::thing(letter),
                before.at.line
            );
            return Err(Fault::at(at, what, "choose another name for one of them"));
        }
        self.of_mut(letter).push(Named {
            name: name.to_string(),
            number,
            at,
        });
        Ok(())
    }
}
