//! What follows from the model, the tape and the records alone, without the
//! machine's lists (01, "What demand 3 speaks of").

use crate::model::{Block, Model};
use crate::rules::Rules;
use crate::tape::Tape;
use crate::trace::{read_record_with, Record, NO_MORE};
use std::collections::{BTreeMap, BTreeSet};

/// A facility or a storage.
#[derive(Clone, Copy, Debug, PartialEq, Eq, PartialOrd, Ord)]
pub enum Place {
    Facility(u32),
    Storage(u32),
}

/// "A wait to seize f begins with a record of outcome 1 at a SEIZE f and ends
/// with that transaction's next record; likewise to enter s."
#[derive(Clone, Copy, Debug)]
pub struct Wait {
    pub place: Place,
    pub priority: u32,
    pub units: u32,
    /// The position of its first record among all records.
    pub began: usize,
}

/// What the report says of one server, from the records.
#[derive(Clone, Debug, Default, PartialEq, Eq)]
pub struct ServerAccount {
    pub in_use: u64,
    pub waiting: u64,
    pub entries: u64,
    pub unit_ticks: u64,
    pub waits_begun: u64,
    pub ticks_waited: u64,
    pub longest: u64,
}

/// The same of one queue.
#[derive(Clone, Debug, Default, PartialEq, Eq)]
pub struct QueueAccount {
    pub content: u64,
    pub arrivals: u64,
    pub content_ticks: u64,
    pub longest: u64,
}

pub struct Account {
    rules: Rules,
    model: Model,
    /// How many times each list has left.
    left: Vec<usize>,
    position: usize,
    pub records: usize,
    pub clock: u64,
    pub made: u64,
    pub ended: u64,
    pub living: BTreeSet<u64>,
    /// The priority of each transaction made, by its number less one.
    priorities: Vec<u32>,
    waits: BTreeMap<u64, Wait>,
    pub servers: BTreeMap<Place, ServerAccount>,
    pub queues: Vec<QueueAccount>,
    /// Who holds each facility: the last to seize or preempt it, if it was not
    /// released since, or to whom it was given back.
    pub holders: BTreeMap<u32, u64>,
    /// The family of each transaction made, by its number less one.
    families: Vec<u64>,
    /// How many records each family has at each ASSEMBLE.
    pub gathered: BTreeMap<(u32, u64), u64>,
    /// The clock of each transaction's last entry of a block.
    entered: BTreeMap<(u64, u32), u64>,
    /// Who was interrupted at each facility.
    pub interrupted: BTreeMap<u32, u64>,
    /// Facilities whose holder entered by PREEMPT.
    preempted: BTreeSet<u32>,
    /// So far each facility was released by its holder, and nobody ended holding one.
    pub own_only: bool,
    pub errors: Vec<String>,
}

impl Account {
    /// "Made: one for each GENERATE that gets a time at the start (of a shared
    /// list, each time goes to one)".
    pub fn new(rules: Rules, model: &Model, tape: &Tape) -> Account {
        let facilities = (1..=model.facilities).map(Place::Facility);
        let storages = (1..=model.capacities.len() as u32).map(Place::Storage);
        let mut account = Account {
            rules,
            model: model.clone(),
            left: tape.iter().map(Vec::len).collect(),
            position: 0,
            records: 0,
            clock: 0,
            made: 0,
            ended: 0,
            living: BTreeSet::new(),
            priorities: Vec::new(),
            waits: BTreeMap::new(),
            servers: facilities
                .chain(storages)
                .map(|place| (place, ServerAccount::default()))
                .collect(),
            queues: vec![QueueAccount::default(); model.queues as usize],
            holders: BTreeMap::new(),
            families: Vec::new(),
            gathered: BTreeMap::new(),
            entered: BTreeMap::new(),
            interrupted: BTreeMap::new(),
            preempted: BTreeSet::new(),
            own_only: true,
            errors: Vec::new(),
        };
        for block in &model.blocks {
            if let Block::Generate { list, priority } = block {
                account.make_if_time(*list, *priority);
            }
        }
        account
    }

    /// `parent`: who splits; one made by GENERATE founds a family.
    fn make(&mut self, priority: u32, parent: Option<u64>) {
        self.made += 1;
        let family = parent.map_or(self.made, |number| self.families[number as usize - 1]);
        self.families.push(family);
        self.living.insert(self.made);
        self.priorities.push(priority);
    }

    fn make_if_time(&mut self, list: u32, priority: u32) {
        if self.left[list as usize - 1] > 0 {
            self.left[list as usize - 1] -= 1;
            self.make(priority, None);
        }
    }

    /// Reads the records that came since the last call.
    pub fn read(&mut self, trace: &[u8]) {
        loop {
            match read_record_with(self.rules, trace, self.position) {
                Ok(record) => {
                    self.position = record.next;
                    self.take(&record);
                }
                Err(NO_MORE) => return,
                Err(number) => {
                    self.errors.push(format!("trace refused: {number}"));
                    return;
                }
            }
        }
    }

    /// The sums of ticks up to this clock.
    pub fn advance_to(&mut self, clock: u64) {
        if clock < self.clock {
            self.errors.push(format!("the clock fell to {clock}"));
            return;
        }
        let ticks = clock - self.clock;
        for server in self.servers.values_mut() {
            server.unit_ticks += server.in_use * ticks;
            server.ticks_waited += server.waiting * ticks;
        }
        for queue in &mut self.queues {
            queue.content_ticks += queue.content * ticks;
        }
        self.clock = clock;
    }

    /// A clock move happens now: "longest QL before a clock move".
    pub fn clock_moves(&mut self) {
        for server in self.servers.values_mut() {
            server.longest = server.longest.max(server.waiting);
        }
        for queue in &mut self.queues {
            queue.longest = queue.longest.max(queue.content);
        }
    }

    fn take(&mut self, record: &Record) {
        self.advance_to(record.clock);
        if !self.living.contains(&record.transaction) {
            let number = record.transaction;
            self.errors
                .push(format!("a record of {number}, not living"));
            return;
        }
        if self
            .interrupted
            .values()
            .any(|one| *one == record.transaction)
        {
            let number = record.transaction;
            self.errors
                .push(format!("a record of {number}, interrupted"));
        }
        if record.block as usize > self.model.blocks.len() {
            self.errors.push(format!("no block {}", record.block));
            return;
        }
        if let Some(wait) = self.waits.remove(&record.transaction) {
            self.end_wait(&wait);
        }
        let block = self.model.block(record.block as u32).clone();
        if record.outcome == 1 {
            self.begin_wait(record.transaction, &block);
            self.gather(record, &block);
        } else {
            self.enter(record.transaction, &block);
            self.enter_group(record);
            self.gather(record, &block);
        }
        self.records += 1;
    }

    fn server(&mut self, place: Place) -> &mut ServerAccount {
        self.servers.get_mut(&place).expect("a server of the model")
    }

    fn begin_wait(&mut self, transaction: u64, block: &Block) {
        let (place, units) = match *block {
            Block::Seize { facility } | Block::Preempt { facility } => {
                (Place::Facility(facility), 1)
            }
            Block::Enter { storage, units } => (Place::Storage(storage), units),
            Block::WaitIfStatus { .. }
            | Block::WaitJoined { .. }
            | Block::WaitIfComparison { .. }
            | Block::Assemble { .. } => return,
            _ => {
                self.errors
                    .push(format!("{transaction} waits at {block:?}"));
                return;
            }
        };
        let wait = Wait {
            place,
            priority: self.priorities[transaction as usize - 1],
            units,
            began: self.records,
        };
        self.waits.insert(transaction, wait);
        let server = self.server(place);
        server.waiting += 1;
        server.waits_begun += 1;
    }

    /// "the one that began later has ended only if the other ended before it"
    fn end_wait(&mut self, wait: &Wait) {
        // Claimed for edition 1, and "for facilities that no PREEMPT names".
        let claimed = match wait.place {
            Place::Facility(facility) => !self.model.preempts(facility),
            Place::Storage(_) => true,
        } && self.model.edition == 1;
        for (number, other) in &self.waits {
            let equal = other.place == wait.place
                && other.priority == wait.priority
                && other.units == wait.units;
            if claimed && equal && other.began < wait.began {
                self.errors
                    .push(format!("{number} overtaken at {:?}", wait.place));
            }
        }
        self.server(wait.place).waiting -= 1;
    }

    fn enter(&mut self, transaction: u64, block: &Block) {
        let priority = self.priorities[transaction as usize - 1];
        match *block {
            Block::Generate { list, priority } => self.make_if_time(list, priority),
            Block::Advance { list } => match self.left[list as usize - 1] {
                0 => self.errors.push("ADVANCE over a spent list".to_string()),
                left => self.left[list as usize - 1] = left - 1,
            },
            Block::Terminate { .. } | Block::Assemble { .. } => {
                self.own_only &= !self.holders.values().any(|holder| *holder == transaction);
                self.ended += 1;
                self.living.remove(&transaction);
            }
            Block::Seize { facility } => {
                self.holders.insert(facility, transaction);
                self.occupy(Place::Facility(facility), 1, 1);
            }
            Block::Preempt { facility } => self.preempt(transaction, facility),
            Block::Return { facility } => self.give_back(transaction, facility),
            Block::Release { facility } => {
                self.own_only &= self.holders.remove(&facility) == Some(transaction);
                self.free(Place::Facility(facility), 1);
            }
            Block::Enter { storage, units } => {
                let capacity = self.model.capacities[storage as usize - 1];
                self.occupy(Place::Storage(storage), units, capacity);
            }
            Block::Leave { storage, units } => self.free(Place::Storage(storage), units),
            Block::Split { copies, .. } => {
                for _ in 0..copies {
                    self.make(priority, Some(transaction));
                }
            }
            Block::Priority { priority } => self.priorities[transaction as usize - 1] = priority,
            Block::Arrive { queue } => {
                let queue = &mut self.queues[queue as usize - 1];
                queue.content += 1;
                queue.arrivals += 1;
            }
            Block::Depart { queue } => match self.queues[queue as usize - 1].content {
                0 => self.errors.push("DEPART from nothing".to_string()),
                content => self.queues[queue as usize - 1].content = content - 1,
            },
            _ => {}
        }
    }

    /// 02, item 7: "whoever enters a kind 17 block entered its whole group at that clock".
    fn enter_group(&mut self, record: &Record) {
        let (transaction, number) = (record.transaction, record.block as u32);
        match self.model.block(number) {
            Block::WaitIfStatus { .. } => {
                self.entered.insert((transaction, number), record.clock);
            }
            Block::WaitJoined { .. } => {
                let mut group = self.model.group(number).expect("asked by question 7");
                let entered = |block: u32| self.entered.get(&(transaction, block)).copied();
                if !group.all(|block| entered(block) == Some(record.clock)) {
                    let text = format!("{transaction} enters {number} without its group");
                    self.errors.push(text);
                }
            }
            _ => {}
        }
    }

    /// Taken over from a holder of lower priority, or taken while idle.
    fn preempt(&mut self, transaction: u64, facility: u32) {
        let priority = |number: u64| self.priorities[number as usize - 1];
        if let Some(holder) = self.holders.get(&facility).copied() {
            if self.preempted.contains(&facility) || priority(holder) >= priority(transaction) {
                let text = format!("{transaction} takes {facility} over from {holder}");
                self.errors.push(text);
            }
            self.interrupted.insert(facility, holder);
            self.server(Place::Facility(facility)).entries += 1;
        } else {
            self.occupy(Place::Facility(facility), 1, 1);
        }
        self.holders.insert(facility, transaction);
        self.preempted.insert(facility);
    }

    /// RETURN: to the one interrupted, or idle.
    fn give_back(&mut self, transaction: u64, facility: u32) {
        let own = self.holders.get(&facility) == Some(&transaction);
        if !own || !self.preempted.remove(&facility) {
            let text = format!("{transaction} gives {facility} back");
            self.errors.push(text);
        }
        match self.interrupted.remove(&facility) {
            Some(holder) => {
                self.holders.insert(facility, holder);
            }
            None => {
                self.holders.remove(&facility);
                self.free(Place::Facility(facility), 1);
            }
        }
    }

    /// The first of a family at an ASSEMBLE has outcome 1, the later ones 0.
    fn gather(&mut self, record: &Record, block: &Block) {
        let Block::Assemble { count } = block else {
            return;
        };
        let family = self.families[record.transaction as usize - 1];
        let come = self
            .gathered
            .entry((record.block as u32, family))
            .or_insert(0);
        let first = *come % u64::from(*count) == 0;
        *come += 1;
        if first != (record.outcome == 1) {
            let text = format!("{} is not the first of its family", record.transaction);
            self.errors.push(text);
        }
    }

    fn occupy(&mut self, place: Place, units: u32, capacity: u32) {
        let server = self.server(place);
        server.in_use += u64::from(units);
        server.entries += 1;
        if server.in_use > u64::from(capacity) {
            self.errors.push(format!("{place:?} over its capacity"));
        }
    }

    fn free(&mut self, place: Place, units: u32) {
        let server = self.server(place);
        if server.in_use < u64::from(units) {
            self.errors.push(format!("{place:?} below nothing"));
            return;
        }
        server.in_use -= u64::from(units);
    }

    /// The numbers of the report as far as the places of the living.
    pub fn report_numbers(&self) -> Vec<u64> {
        let mut numbers = vec![self.clock, self.made, self.ended];
        for server in self.servers.values() {
            numbers.extend([
                server.entries,
                server.unit_ticks,
                server.waits_begun,
                server.ticks_waited,
                server.longest,
            ]);
        }
        for queue in &self.queues {
            numbers.extend([queue.arrivals, queue.content_ticks, queue.longest]);
        }
        numbers.push(self.living.len() as u64);
        numbers
    }
}
