//! Reading terms, values and comparisons (01, Blocks: "Terms are a tag and a number").

use crate::machine::{Machine, Transaction};
use crate::model::{Comparison, Sum, Term};

impl Machine {
    /// A term, "with the transaction's own parameters".
    pub fn term(&self, term: &Term, transaction: &Transaction) -> i32 {
        let storage = |number: u32| &self.storages[number as usize - 1];
        match term {
            Term::Constant(number) => *number as i32,
            Term::MinusConstant(number) => -(*number as i32),
            Term::Parameter(number) => transaction.parameters[*number as usize - 1],
            // 02, item 1: "the clock's low 32 bits as a signed number"
            Term::Clock => self.clock as u32 as i32,
            Term::Entries(block) => self.entries[*block as usize - 1] as i32,
            Term::Content(queue) => self.queues[*queue as usize - 1].content as i32,
            Term::UnitsInUse(number) => storage(*number).in_use as i32,
            Term::UnitsFree(number) => storage(*number).free() as i32,
            Term::FacilityInUse(number) => self.facilities[*number as usize - 1].in_use as i32,
            Term::Value(number) => self.sum(&self.model.values[*number as usize - 1], transaction),
            Term::Comparison(comparison) => i32::from(self.holds(comparison, transaction)),
            Term::Bracket(sum) => self.sum(sum, transaction),
        }
    }

    /// "sums and differences wrap in signed 32 bits"
    pub fn sum(&self, sum: &Sum, transaction: &Transaction) -> i32 {
        let mut total: i32 = 0;
        for part in &sum.parts {
            let number = self.term(&part.term, transaction);
            total = if part.minus {
                total.wrapping_sub(number)
            } else {
                total.wrapping_add(number)
            };
        }
        total
    }

    /// "Relations: 1 =, 2 ≠, 3 <, 4 ≤, 5 >, 6 ≥, signed."
    pub fn holds(&self, comparison: &Comparison, transaction: &Transaction) -> bool {
        let left = self.term(&comparison.left, transaction);
        let right = self.term(&comparison.right, transaction);
        match comparison.relation {
            1 => left == right,
            2 => left != right,
            3 => left < right,
            4 => left <= right,
            5 => left > right,
            _ => left >= right,
        }
    }
}
