//! A second implementation of the machine of document 01, "The five-list
//! engine for block models". Real lists, literal steps, no dependencies.

pub mod account;
pub mod blocks;
pub mod calls;
pub mod claims;
pub mod columns;
pub mod coverage;
pub mod decode;
pub mod drawing;
pub mod generate;
pub mod join;
pub mod line;
pub mod machine;
pub mod maker;
pub mod model;
pub mod number;
pub mod report;
pub mod rules;
pub mod run;
pub mod stored;
pub mod streams;
pub mod tape;
pub mod terms;
pub mod text;
pub mod trace;

pub use rules::Rules;
pub use run::{run, Outcome};
