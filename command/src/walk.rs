//! One walk over the records of a run: entries and waits of each block, how each transaction was made, and where the living were last.

use crate::holders::Holders;
use crate::study::Study;
use engine::{Place, Record, Run};
use modeltext::model::{Block, Operand};
use modeltext::words::{
    ADVANCE, ASSEMBLE, GENERATE, GOTO, IF, SPLIT, WAITIF_JOINED, WAITIF_STATUS,
};
use std::collections::BTreeMap;
use std::ops::Range;

/// How a transaction was made.
#[derive(Clone, Copy, Debug, PartialEq, Eq)]
pub enum Birth {
    /// By a GENERATE, at which it begins: at the start, or when another passed it.
    Arrival { clock: u64, block: u64 },
    /// By a SPLIT of another; it begins at the target.
    Copy {
        clock: u64,
        of: u64,
        block: u64,
        target: u64,
    },
}

/// Follows which transactions come to be: each record of a GENERATE whose list has a time left makes one, each SPLIT its copies.
pub struct Births<'a> {
    study: &'a Study,
    /// Times of each list that are left.
    left: Vec<u64>,
    /// Where a GENERATE found its list used up.
    missed: Vec<Missed>,
    pub made: u64,
}

/// A GENERATE that found its list used up: at the start, or when one passed it at this clock.
#[derive(Clone, Copy, Debug, PartialEq, Eq)]
pub struct Missed {
    pub list: usize,
    pub block: u64,
    pub clock: Option<u64>,
}

impl<'a> Births<'a> {
    /// Those of the start, one for each GENERATE that gets a time.
    pub fn start(study: &'a Study, mut born: impl FnMut(u64, Birth)) -> Births<'a> {
        let mut births = Births {
            study,
            left: study.times.clone(),
            missed: Vec::new(),
            made: 0,
        };
        for (i, block) in study.decoded.blocks.iter().enumerate() {
            let number = i as u64 + 1;
            if block.kind == GENERATE && births.generate(block, number, None) {
                births.made += 1;
                born(
                    births.made,
                    Birth::Arrival {
                        clock: 0,
                        block: number,
                    },
                );
            }
        }
        births
    }

    /// Uses up a time for the next arrival, or notes that there is none.
    fn generate(&mut self, block: &Block, number: u64, clock: Option<u64>) -> bool {
        let drawn = self.draw(block);
        if let (false, Some(list)) = (drawn, list_of(block)) {
            self.missed.push(Missed {
                list,
                block: number,
                clock,
            });
        }
        drawn
    }

    /// Uses up a time of the block's list, if it has one left.
    fn draw(&mut self, block: &Block) -> bool {
        match list_of(block).and_then(|list| self.left.get_mut(list)) {
            Some(left) if *left > 0 => {
                *left -= 1;
                true
            }
            _ => false,
        }
    }

    /// The numbers that a record makes, and how.
    pub fn record(&mut self, record: &Record) -> Option<(Range<u64>, Birth)> {
        if !record.entered() {
            return None;
        }
        let block = self.study.block(record.block)?;
        let (count, birth) = match block.kind {
            GENERATE if self.generate(block, record.block, Some(record.clock)) => {
                let birth = Birth::Arrival {
                    clock: record.clock,
                    block: record.block,
                };
                (1, birth)
            }
            ADVANCE => {
                self.draw(block);
                return None;
            }
            SPLIT => {
                let birth = Birth::Copy {
                    clock: record.clock,
                    of: record.transaction,
                    block: record.block,
                    target: block.target().map_or(0, u64::from),
                };
                (number(block, 'n').map_or(0, u64::from), birth)
            }
            _ => return None,
        };
        let first = self.made + 1;
        self.made += count;
        Some((first..self.made + 1, birth))
    }
}

/// The list that a block names, from 0.
fn list_of(block: &Block) -> Option<usize> {
    number(block, 'l').map(|list| (list as usize).wrapping_sub(1))
}

fn number(block: &Block, letter: char) -> Option<u32> {
    block.lettered().find_map(|operand| match operand {
        (l, Operand::Number(n)) if l == letter => Some(n),
        _ => None,
    })
}

/// What is known of a living transaction.
#[derive(Clone, Copy, Debug, Default)]
pub struct Life {
    pub birth: Option<Birth>,
    pub last: Option<Record>,
    /// It waits for its family at the end.
    pub gathers: bool,
}

impl Life {
    fn at(place: Place) -> Life {
        Life {
            gathers: place == Place::Gathering,
            ..Life::default()
        }
    }

    /// The blocks that it may be about to enter: two behind an IF, and where a joined wait may have sent it back. From an ASSEMBLE one
    /// goes on without a record.
    pub fn next(&self, study: &Study) -> Vec<u64> {
        let Some(last) = self.last else {
            return match self.birth {
                Some(Birth::Arrival { block, .. }) => vec![block],
                Some(Birth::Copy { target, .. }) => vec![target],
                None => Vec::new(),
            };
        };
        let after = last.block + 1;
        let Some(block) = study.block(last.block) else {
            return Vec::new();
        };
        let target = block.target().map_or(0, u64::from);
        match block.kind {
            WAITIF_JOINED if !last.entered() => back_from(study, last.block),
            ASSEMBLE if !self.gathers => vec![after],
            _ if !last.entered() => vec![last.block],
            GOTO => vec![target],
            IF if target == after => vec![after],
            IF => vec![target, after],
            WAITIF_STATUS => back_from(study, after),
            _ => vec![after],
        }
    }
}

/// A block, and the first of its group if it is a joined wait.
fn back_from(study: &Study, block: u64) -> Vec<u64> {
    let back = study.block(block).and_then(|block| number(block, 'g'));
    let first = back.and_then(|back| block.checked_sub(u64::from(back)));
    [Some(block), first].into_iter().flatten().collect()
}

/// What the records of a run come to.
pub struct Walk {
    /// Records of outcome 0 and 1 at each block, block 1 first.
    pub entries: Vec<u64>,
    pub waits: Vec<u64>,
    pub records: u64,
    pub made: u64,
    pub last: Option<Record>,
    /// The living, by number.
    pub living: BTreeMap<u64, Life>,
    pub holders: Holders,
    /// Times of each list that were not used.
    pub left: Vec<u64>,
    pub missed: Vec<Missed>,
}

/// The facility that a block names.
pub fn facility(block: &Block) -> Option<u32> {
    number(block, 'f')
}

/// The storage that a block names.
pub fn storage(block: &Block) -> Option<u32> {
    number(block, 's')
}

pub fn walk(study: &Study, run: &Run) -> Walk {
    let blocks = study.decoded.blocks.len();
    let living = run.report.living.iter();
    let mut walk = Walk {
        entries: vec![0; blocks],
        waits: vec![0; blocks],
        records: 0,
        made: 0,
        last: None,
        living: living.map(|l| (l.transaction, Life::at(l.place))).collect(),
        holders: Holders::default(),
        left: Vec::new(),
        missed: Vec::new(),
    };
    let mut births = Births::start(study, |number, birth| {
        if let Some(life) = walk.living.get_mut(&number) {
            life.birth = Some(birth);
        }
    });
    for record in run.records() {
        let counts = if record.entered() {
            &mut walk.entries
        } else {
            &mut walk.waits
        };
        if let Some(count) = counts.get_mut((record.block as usize).wrapping_sub(1)) {
            *count += 1;
        }
        if let Some((numbers, birth)) = births.record(&record) {
            for (_, life) in walk.living.range_mut(numbers) {
                life.birth = Some(birth);
            }
        }
        if let Some(life) = walk.living.get_mut(&record.transaction) {
            life.last = Some(record);
        }
        walk.holders.record(study, &record);
        walk.records += 1;
        walk.last = Some(record);
    }
    walk.made = births.made;
    walk.left = births.left;
    walk.missed = births.missed;
    walk
}
