//! A model's listing: its declarations, and its blocks with their numbers and labels.

use crate::table::Table;
use modeltext::model::Model;
use modeltext::show::{self, Names};

pub fn text(model: &Model, names: &Names) -> String {
    let mut text = show::declarations(model, names);
    let mut table = Table::new(&[">block", "label", "statement"]);
    for (i, block) in model.blocks.iter().enumerate() {
        table.row(vec![
            (i + 1).to_string(),
            names.label(i as u32 + 1).unwrap_or_default(),
            show::block_text(block, names),
        ]);
    }
    for line in table.lines() {
        text.push_str(&line);
        text.push('\n');
    }
    text
}
