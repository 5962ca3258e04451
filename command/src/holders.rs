//! Who holds each facility, told from the records: SEIZE and PREEMPT take it, RELEASE and RETURN give it back.

use crate::study::Study;
use crate::walk::facility;
use engine::Record;
use modeltext::words::{PREEMPT, RELEASE, RETURN, SEIZE};
use std::collections::{BTreeMap, BTreeSet};

#[derive(Default)]
pub struct Holders {
    /// The holder of each facility that is in use.
    pub of: BTreeMap<u32, u64>,
    /// The facilities that were taken with PREEMPT.
    pub preempted: BTreeSet<u32>,
    /// Who was interrupted at each of these, if anybody was.
    pub interrupted: BTreeMap<u32, u64>,
}

/// What a record does to one that holds its facility or held it before.
#[derive(Clone, Copy, Debug, PartialEq, Eq)]
pub enum Handover {
    Interrupted(u64),
    GivenBack(u64),
}

impl Holders {
    pub fn record(&mut self, study: &Study, record: &Record) -> Option<Handover> {
        let block = study.block(record.block).filter(|_| record.entered())?;
        let f = facility(block)?;
        match block.kind {
            SEIZE => {
                self.of.insert(f, record.transaction);
                None
            }
            PREEMPT => {
                self.preempted.insert(f);
                let before = self.of.insert(f, record.transaction)?;
                self.interrupted.insert(f, before);
                Some(Handover::Interrupted(before))
            }
            RELEASE | RETURN => {
                self.preempted.remove(&f);
                self.of.remove(&f);
                let back = self.interrupted.remove(&f)?;
                self.of.insert(f, back);
                Some(Handover::GivenBack(back))
            }
            _ => None,
        }
    }

    /// May this one give the facility back with a block of this kind?
    pub fn may_give(&self, kind: u32, f: u32, number: u64) -> bool {
        self.of.get(&f) == Some(&number) && self.preempted.contains(&f) == (kind == RETURN)
    }
}
