//! The limits of document 01, by name, with those of document 02, items 1, 4 and 12.

pub const EDITION: u64 = 2;
pub const FACILITIES: u64 = 32;
pub const STORAGES: u64 = 32;
pub const QUEUES: u64 = 32;
pub const VALUES: u64 = 8;
pub const LISTS: u64 = 16;
pub const BLOCKS: u64 = 256;
pub const CAPACITY: u64 = 65_535;
pub const COUNTER: u64 = 65_535;
pub const CONSTANT: u64 = 2_147_483_647;
pub const SUM_TERMS: u64 = 8;
pub const VALUE_NUMBERS: u64 = 64;
pub const OPEN_BRACKETS: u64 = 4;
pub const MENTIONS: u64 = 2;

/// Times of a list, and the longest of them.
pub const TIMES: u64 = 65_535;
pub const TIME: u64 = 10_000_000_000;

/// The largest number of a model, and of a tape: any that fits five groups.
pub const MODEL_NUMBER: u64 = 4_294_967_295;
pub const TAPE_NUMBER: u64 = 34_359_738_367;
pub const NUMBER_BYTES: usize = 5;

/// Of a distribution: counts, times and means, the part of one that times are multiples of, and points of a curve.
pub const DRAWN_TIMES: u64 = 65_535;
pub const DRAWN_TIME: u64 = 1_000_000;
pub const DRAWN_MEAN: u64 = 500_000;
pub const TIME_PARTS: u64 = 64;
pub const FEWEST_POINTS: u64 = 2;
pub const MOST_POINTS: u64 = 24;

/// The most turns of a run (end 26), and the most bytes of a record (end 4).
pub const TURNS: u64 = 100_000_000;
pub const RECORD_BYTES: u64 = 12;
