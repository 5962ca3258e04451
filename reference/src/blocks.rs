//! Executing one block (01, Blocks).

use crate::machine::{insert, insert_waiter, Gatherer, Interrupted, Machine, Transaction};
use crate::model::{Block, Model};
use std::collections::BTreeMap;

/// What the execution of a block came to.
#[derive(Clone, Copy, Debug, PartialEq, Eq)]
pub enum Done {
    /// Entered: a record of outcome 0.
    Entered,
    /// Entered a TERMINATE that brought the counter to 0 or below: end 2.
    Finished,
    /// Began to wait: a record of outcome 1.
    BeganToWait,
    /// A returning one waits again: "putting back writes nothing".
    PutBack,
    /// Back from a joined wait to the first block of its group: no record.
    WentBack,
    /// A question answered "no": the end is 21..25, 27 or 28.
    Stopped(u32),
}

impl Machine {
    /// Executes the next block of the taken transaction.
    pub fn execute(&mut self, transaction: Transaction) -> Done {
        let number = transaction.next_block;
        let block = self.model.block(number).clone();
        if let Some(end) = self.stopped(&block, &transaction) {
            self.moving = Some(transaction);
            return Done::Stopped(end);
        }
        if self.must_wait(&block, &transaction) {
            return self.wait(&block, transaction);
        }
        if let Block::WaitJoined { code, server, .. } = block {
            let group = self.model.group(number).expect("asked by question 7");
            let entered = transaction.groups.get(&group.start);
            if entered.is_some_and(|clock| *clock < self.clock) {
                return self.go_back(transaction, code, server, group.start);
            }
        }
        let done = self.enter(&block, transaction);
        self.entries[number as usize - 1] += 1;
        done
    }

    /// The questions "Inside a turn, after the taking and before the block has any effect".
    fn stopped(&self, block: &Block, transaction: &Transaction) -> Option<u32> {
        let no_place = |new: u64| self.living() + new > Model::MAX_LIVING;
        let too_late = |time: u64| self.clock + time > self.rules.max_clock();
        match *block {
            Block::Generate { list, .. } => match self.next_time(list) {
                None => None, // "A spent list makes none."
                Some(_) if no_place(1) => Some(21),
                Some(time) if too_late(time) => Some(22),
                Some(_) => None,
            },
            Block::Split { copies, .. } if no_place(u64::from(copies)) => Some(21),
            Block::Advance { list } => match self.next_time(list) {
                None => Some(23),
                Some(time) if too_late(time) => Some(22),
                Some(_) => None,
            },
            Block::Release { facility } => {
                let server = &self.facilities[facility as usize - 1];
                let own = server.holder == Some(transaction.number);
                if server.in_use == 0 {
                    Some(24)
                } else if server.preempted || (self.rules.holders && !own) {
                    Some(27) // "RELEASE by another than the holder, after 24"
                } else {
                    None
                }
            }
            Block::Return { facility } => {
                let server = &self.facilities[facility as usize - 1];
                let own = server.preempted && server.holder == Some(transaction.number);
                let remaining = self.interrupted_at(facility).map(|at| at.1);
                if server.in_use == 0 {
                    Some(24)
                } else if !own {
                    Some(27)
                } else if remaining.is_some_and(too_late) {
                    Some(22)
                } else {
                    None
                }
            }
            // "TERMINATE while holding a facility, before the counter falls"
            Block::Terminate { .. } if self.rules.holders && self.holds_some(transaction) => {
                Some(28)
            }
            // "one that holds a facility ends the run with 28 instead": a later one
            Block::Assemble { .. }
                if self.rules.holders
                    && self.gatherer(transaction).is_some()
                    && self.holds_some(transaction) =>
            {
                Some(28)
            }
            Block::Leave { storage, units }
                if self.storages[storage as usize - 1].in_use < units =>
            {
                Some(24)
            }
            Block::Depart { queue } if self.queues[queue as usize - 1].content == 0 => Some(25),
            _ => None,
        }
    }

    /// Who is interrupted at this facility: its place in the list and the ticks left.
    fn interrupted_at(&self, facility: u32) -> Option<(usize, u64)> {
        let place = self
            .interrupted
            .iter()
            .position(|one| one.facility == facility)?;
        Some((place, self.interrupted[place].remaining))
    }

    /// "It also enters if f was seized by a holder of lower priority that stands
    /// on the FEL": the holder's place there.
    fn can_take_over(&self, facility: u32, transaction: &Transaction) -> Option<usize> {
        let server = &self.facilities[facility as usize - 1];
        if server.preempted {
            return None;
        }
        let holder = server.holder?;
        self.fel.iter().position(|event| {
            event.transaction.number == holder && event.transaction.priority < transaction.priority
        })
    }

    /// The place of its family's gatherer in the list of the next block.
    fn gatherer(&self, transaction: &Transaction) -> Option<usize> {
        let list = self.gatherers.get(&transaction.next_block)?;
        list.iter()
            .position(|one| one.transaction.family == transaction.family)
    }

    /// Does this transaction hold a facility?
    pub fn holds_some(&self, transaction: &Transaction) -> bool {
        let number = Some(transaction.number);
        self.facilities.iter().any(|server| server.holder == number)
    }

    /// Does the block make this transaction wait now?
    pub fn must_wait(&self, block: &Block, transaction: &Transaction) -> bool {
        match block {
            Block::Seize { facility } => self.facilities[*facility as usize - 1].in_use > 0,
            Block::Preempt { facility } => {
                self.facilities[*facility as usize - 1].in_use > 0
                    && self.can_take_over(*facility, transaction).is_none()
            }
            Block::Enter { storage, units } => self.storages[*storage as usize - 1].free() < *units,
            Block::WaitIfStatus { code, server } | Block::WaitJoined { code, server, .. } => {
                self.status_server(*code, *server).code_true(*code)
            }
            Block::WaitIfComparison { comparison } => self.holds(comparison, transaction),
            // "The first of a family at the block waits there"
            Block::Assemble { .. } => self.gatherer(transaction).is_none(),
            _ => false,
        }
    }

    /// "A transaction that must wait takes a fresh serial unless it is
    /// returning; a returning one keeps its serial."
    fn wait(&mut self, block: &Block, mut transaction: Transaction) -> Done {
        let done = if transaction.returning {
            Done::PutBack
        } else {
            transaction.serial = self.fresh();
            Done::BeganToWait
        };
        let begun = u64::from(done == Done::BeganToWait);
        let edition = self.model.edition;
        match *block {
            Block::Seize { facility } | Block::Preempt { facility } => {
                let server = &mut self.facilities[facility as usize - 1];
                server.waits_begun += begun;
                insert_waiter(edition, &mut server.ql, transaction);
            }
            Block::Enter { storage, .. } => {
                let server = &mut self.storages[storage as usize - 1];
                server.waits_begun += begun;
                insert_waiter(edition, &mut server.ql, transaction);
            }
            Block::WaitIfStatus { code, server } | Block::WaitJoined { code, server, .. } => {
                let list = &mut self.status_server_mut(code, server).wel[code as usize - 1];
                insert_waiter(edition, list, transaction);
            }
            Block::Assemble { .. } => {
                let list = self.gatherers.entry(transaction.next_block).or_default();
                let come = 1;
                list.push(Gatherer { transaction, come });
            }
            _ => insert(&mut self.wsl, transaction),
        }
        done
    }

    /// 02, item 7: "moves the WEL's first to REL and goes back to that block,
    /// still moving. This writes no record and clears its returning mark."
    fn go_back(
        &mut self,
        mut transaction: Transaction,
        code: u32,
        server: u32,
        first: u32,
    ) -> Done {
        self.wake_first_of_wel(code, server);
        transaction.next_block = first;
        transaction.returning = false;
        self.moving = Some(transaction);
        Done::WentBack
    }

    /// The effect of a block that is entered. "Entering a block clears the mark."
    fn enter(&mut self, block: &Block, mut transaction: Transaction) -> Done {
        transaction.returning = false;
        let number = transaction.next_block;
        match block {
            Block::Generate { list, priority } => {
                if let Some(time) = self.next_time(*list) {
                    self.use_time(*list);
                    self.generate(number, *priority, time);
                }
            }
            Block::Advance { list } => {
                let time = self.next_time(*list).expect("asked by question 23");
                self.use_time(*list);
                transaction.next_block += 1;
                self.to_fel(transaction, self.clock + time);
                return Done::Entered;
            }
            Block::Terminate { amount } => {
                self.ended += 1;
                self.counter -= i64::from(*amount);
                // "the counter falls by a; at or below 0, end 2"
                return if self.counter <= 0 {
                    Done::Finished
                } else {
                    Done::Entered
                };
            }
            Block::Seize { facility } => {
                let server = &mut self.facilities[*facility as usize - 1];
                server.in_use = 1;
                server.holder = Some(transaction.number);
                server.entries += 1;
                self.offer_status(&[1, 2], *facility);
            }
            Block::Release { facility } => {
                self.release(*facility);
                self.offer_status(&[1, 2], *facility);
            }
            Block::Preempt { facility } => {
                if let Some(place) = self.can_take_over(*facility, &transaction) {
                    self.interrupt(*facility, place);
                }
                let server = &mut self.facilities[*facility as usize - 1];
                server.in_use = 1;
                server.holder = Some(transaction.number);
                server.preempted = true;
                server.entries += 1;
                self.offer_status(&[1, 2], *facility);
            }
            Block::Return { facility } => {
                match self.interrupted_at(*facility) {
                    Some((place, _)) => self.give_back(*facility, place),
                    None => self.release(*facility),
                }
                self.offer_status(&[1, 2], *facility);
            }
            Block::Enter { storage, units } => {
                let server = &mut self.storages[*storage as usize - 1];
                server.in_use += units;
                server.entries += 1;
                self.offer_status(&[3, 4, 5, 6], *storage);
            }
            Block::Leave { storage, units } => {
                self.storages[*storage as usize - 1].in_use -= units;
                if self.model.edition == 1 {
                    self.wake_fitting(*storage);
                } else {
                    self.wake_as_in_1996(*storage, *units);
                }
                self.offer_status(&[3, 4, 5, 6], *storage);
            }
            Block::WaitIfStatus { code, server } => {
                if self.model.begins_group(number) {
                    transaction.groups.insert(number, self.clock);
                }
                self.wake_first_of_wel(*code, *server);
            }
            Block::WaitJoined { code, server, .. } => self.wake_first_of_wel(*code, *server),
            Block::WaitIfComparison { .. } => {}
            Block::If { comparison, target } => {
                transaction.next_block = if self.holds(comparison, &transaction) {
                    *target
                } else {
                    number + 1
                };
                self.moving = Some(transaction);
                return Done::Entered;
            }
            Block::Goto { target } => {
                transaction.next_block = *target;
                self.moving = Some(transaction);
                return Done::Entered;
            }
            Block::Let { parameter, term } => {
                transaction.parameters[*parameter as usize - 1] = self.term(term, &transaction);
            }
            Block::Priority { priority } => {
                transaction.priority = *priority;
                transaction.serial = self.fresh();
                transaction.next_block += 1;
                insert(&mut self.rel, transaction);
                return Done::Entered;
            }
            Block::Split { copies, target } => self.split(&transaction, *copies, *target),
            Block::Arrive { queue } => {
                let queue = &mut self.queues[*queue as usize - 1];
                queue.content += 1;
                queue.arrivals += 1;
            }
            Block::Depart { queue } => self.queues[*queue as usize - 1].content -= 1,
            Block::Assemble { count } => {
                self.gather(&transaction, *count);
                return Done::Entered;
            }
        }
        // "Go on" means next block plus one, still moving.
        transaction.next_block += 1;
        self.moving = Some(transaction);
        Done::Entered
    }

    /// "f idle; the first of its QL goes to REL"
    fn release(&mut self, facility: u32) {
        let server = &mut self.facilities[facility as usize - 1];
        server.in_use = 0;
        server.holder = None;
        server.preempted = false;
        if !server.ql.is_empty() {
            let first = server.ql.remove(0);
            self.wake(first);
        }
    }

    /// "That holder leaves the FEL for a list of interrupted ones, place 8, with
    /// its remaining ticks kept."
    fn interrupt(&mut self, facility: u32, place: usize) {
        let event = self.fel.remove(place);
        self.interrupted.push(Interrupted {
            facility,
            remaining: event.move_time - self.clock,
            transaction: event.transaction,
        });
    }

    /// "gives f back to the interrupted holder, which goes to the FEL at clock +
    /// remaining with a fresh serial"
    fn give_back(&mut self, facility: u32, place: usize) {
        let one = self.interrupted.remove(place);
        let server = &mut self.facilities[facility as usize - 1];
        server.holder = Some(one.transaction.number);
        server.preempted = false;
        self.to_fel(one.transaction, self.clock + one.remaining);
    }

    /// "Each later one of that family writes outcome 0 and ends"; "At the n-th
    /// the first goes to REL with a fresh serial and goes on from the next block".
    fn gather(&mut self, later: &Transaction, count: u32) {
        self.ended += 1;
        let place = self.gatherer(later).expect("else it waits");
        let list = self.gatherers.entry(later.next_block).or_default();
        list[place].come += 1;
        if list[place].come == count {
            let mut first = list.remove(place).transaction;
            first.serial = self.fresh();
            first.returning = false;
            first.next_block += 1;
            insert(&mut self.rel, first);
        }
    }

    /// "n copies, same priority and parameters, on REL with fresh serials in order"
    fn split(&mut self, original: &Transaction, copies: u32, target: u32) {
        for _ in 0..copies {
            self.made += 1;
            let copy = Transaction {
                number: self.made,
                priority: original.priority,
                parameters: original.parameters,
                next_block: target,
                serial: self.fresh(),
                returning: false,
                groups: BTreeMap::new(),
                family: original.family,
            };
            insert(&mut self.rel, copy);
        }
    }

    /// LEAVE: "every QL member whose units, judged alone, fit the free units goes to REL".
    fn wake_fitting(&mut self, storage: u32) {
        let server = &mut self.storages[storage as usize - 1];
        let free = server.free();
        let mut staying = Vec::new();
        let mut going = Vec::new();
        for waiter in std::mem::take(&mut server.ql) {
            if units_wanted(&self.model, &waiter) <= free {
                going.push(waiter);
            } else {
                staying.push(waiter);
            }
        }
        server.ql = staying;
        for waiter in going {
            self.wake(waiter);
        }
    }

    /// LEAVE in edition 2: "document 000, section 6, cases a and b, B being its units".
    fn wake_as_in_1996(&mut self, storage: u32, units: u32) {
        let mut waiting = std::mem::take(&mut self.storages[storage as usize - 1].ql);
        let mut going = Vec::new();
        if !self.model.moves_several_units() {
            // a: "we remove the first transaction on the QL"
            if !waiting.is_empty() {
                going.push(waiting.remove(0));
            }
        } else if units == 1 {
            // b (i): "the first transaction that has an ENTER with B = 1"
            let single = |waiter: &Transaction| units_wanted(&self.model, waiter) == 1;
            if let Some(place) = waiting.iter().position(single) {
                going.push(waiting.remove(place));
            }
        } else {
            // b (ii): from the front; equal, it goes and all is done; less, it goes
            // and its units are taken off; more, the next.
            let mut left = units;
            let mut place = 0;
            while place < waiting.len() && left > 0 {
                let wanted = units_wanted(&self.model, &waiting[place]);
                if wanted > left {
                    place += 1;
                } else {
                    left -= wanted;
                    going.push(waiting.remove(place));
                }
            }
        }
        self.storages[storage as usize - 1].ql = waiting;
        for waiter in going {
            self.wake(waiter);
        }
    }

    /// "After blocks 4 to 7 enter, each WEL of that server whose code is not
    /// true gives its first to REL."
    fn offer_status(&mut self, codes: &[u32], server: u32) {
        for code in codes {
            if !self.status_server(*code, server).code_true(*code) {
                self.wake_first_of_wel(*code, server);
            }
        }
    }

    fn wake_first_of_wel(&mut self, code: u32, server: u32) {
        let list = &mut self.status_server_mut(code, server).wel[code as usize - 1];
        if !list.is_empty() {
            let first = list.remove(0);
            self.wake(first);
        }
    }

    /// "server (a facility for codes 1 and 2, else a storage)"
    pub fn status_server(&self, code: u32, server: u32) -> &crate::machine::Server {
        if code <= 2 {
            &self.facilities[server as usize - 1]
        } else {
            &self.storages[server as usize - 1]
        }
    }

    fn status_server_mut(&mut self, code: u32, server: u32) -> &mut crate::machine::Server {
        if code <= 2 {
            &mut self.facilities[server as usize - 1]
        } else {
            &mut self.storages[server as usize - 1]
        }
    }

    /// The WS scheme: "every WSL member whose comparison no longer holds goes to REL".
    pub fn ws_scheme(&mut self) {
        let mut staying = Vec::new();
        for waiter in std::mem::take(&mut self.wsl) {
            let block = self.model.block(waiter.next_block);
            if self.must_wait(block, &waiter) {
                staying.push(waiter);
            } else {
                self.wake(waiter);
            }
        }
        self.wsl = staying;
    }
}

/// The units of the ENTER at which this transaction waits.
pub fn units_wanted(model: &Model, waiter: &Transaction) -> u32 {
    match model.block(waiter.next_block) {
        Block::Enter { units, .. } => *units,
        _ => 1,
    }
}
