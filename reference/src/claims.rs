//! The claims of demand 3, checked before every turn of a run and at its end
//! (01, "What demand 3 speaks of").

use crate::account::Account;
use crate::blocks::{units_wanted, Done};
use crate::generate::Case;
use crate::machine::{precedes, List, Machine};
use crate::model::Block;
use crate::report::{places, read_report};
use crate::rules::Rules;
use crate::run::{door, run_watched, Outcome, Watcher};
use std::collections::BTreeMap;

/// Watches one run.
pub struct Claims {
    pub account: Account,
    about_to_move: bool,
    pub errors: Vec<String>,
    /// How often waiters were asked whether they were able to go.
    pub asked: u64,
    /// Number and place of the living at the end, by rising number.
    pub places: Vec<(u64, u64)>,
}

impl Claims {
    pub fn new(machine: &Machine) -> Claims {
        Claims {
            account: Account::new(machine.rules, &machine.model, &machine.tape),
            about_to_move: false,
            errors: Vec::new(),
            asked: 0,
            places: Vec::new(),
        }
    }

    fn claim(&mut self, holds: bool, machine: &Machine, text: &str) {
        if !holds {
            self.errors.push(format!("turn {}: {text}", machine.turns));
        }
    }

    /// Each living transaction stands on exactly one list, or is moving; the
    /// living are those that the records tell of.
    fn one_list_each(&mut self, machine: &Machine) {
        let mut found: Vec<u64> = places(machine).iter().map(|(number, _)| *number).collect();
        found.sort();
        let living: Vec<u64> = self.account.living.iter().copied().collect();
        self.claim(found == living, machine, "one list each");
        let made = self.account.made == machine.made;
        let ended = self.account.ended == machine.ended;
        self.claim(made && ended, machine, "made and ended as recorded");
        let balance = machine.made == machine.ended + found.len() as u64;
        self.claim(balance, machine, "made = ended + living");
        self.claim(found.len() <= 1_024, machine, "at most 1,024 living");
    }

    /// 02, item 6: "A facility in use always has a living holder", and that is
    /// who the records say.
    fn living_holders(&mut self, machine: &Machine) {
        let mut holds = true;
        for (index, facility) in machine.facilities.iter().enumerate() {
            let recorded = self.account.holders.get(&(index as u32 + 1)).copied();
            holds &= (facility.in_use == 1) == facility.holder.is_some();
            holds &= facility.holder == recorded;
            holds &= facility
                .holder
                .is_none_or(|h| self.account.living.contains(&h));
        }
        holds |= !machine.rules.holders;
        self.claim(holds, machine, "a living holder of each facility in use");
    }

    /// Each interrupted one belongs to exactly one facility, which is preempted
    /// and in use, and each facility has at most one: those that the records tell of.
    fn interrupted(&mut self, machine: &Machine) {
        let mut found = BTreeMap::new();
        let mut holds = true;
        for one in &machine.interrupted {
            let facility = &machine.facilities[one.facility as usize - 1];
            let new = found.insert(one.facility, one.transaction.number);
            holds &= new.is_none() && facility.preempted;
        }
        for facility in &machine.facilities {
            holds &= !facility.preempted || facility.in_use == 1;
        }
        holds &= found == self.account.interrupted;
        self.claim(holds, machine, "one interrupted at a preempted facility");
    }

    /// Of one family at most one gathers at a block; how many have come is the
    /// number of its records there modulo n, and nobody gathers where that is 0.
    fn gatherers(&mut self, machine: &Machine) {
        let mut found = BTreeMap::new();
        let mut twice = false;
        for (block, list) in &machine.gatherers {
            for one in list {
                let key = (*block, one.transaction.family);
                twice |= found.insert(key, u64::from(one.come)).is_some();
                twice |= one.transaction.next_block != *block;
            }
        }
        let mut recorded = BTreeMap::new();
        for ((block, family), records) in &self.account.gathered {
            if let Block::Assemble { count } = machine.model.block(*block) {
                let come = records % u64::from(*count);
                if come > 0 {
                    recorded.insert((*block, *family), come);
                }
            }
        }
        let holds = !twice && found == recorded;
        self.claim(holds, machine, "one gatherer of a family, as recorded");
    }

    fn sorted(&mut self, machine: &Machine) {
        let in_order = |list: &List| list.windows(2).all(|two| precedes(&two[0], &two[1]));
        let mut holds = in_order(&machine.rel) && in_order(&machine.wsl);
        for server in machine.facilities.iter().chain(machine.storages.iter()) {
            let waiting = in_order(&server.ql) && server.wel.iter().all(in_order);
            holds &= waiting || machine.model.edition != 1;
            holds &= server.in_use <= server.capacity;
        }
        for two in machine.fel.windows(2) {
            holds &= two[0].move_time < two[1].move_time
                || (two[0].move_time == two[1].move_time
                    && precedes(&two[0].transaction, &two[1].transaction));
        }
        holds &= machine.fel.iter().all(|e| e.move_time >= machine.clock);
        self.claim(holds, machine, "lists in order");
    }

    /// Nobody on a QL, a WEL or the WSL is able to go.
    fn nobody_able_to_go(&mut self, machine: &Machine) {
        let mut able = Vec::new();
        for facility in &machine.facilities {
            if facility.in_use == 0 {
                able.extend(facility.ql.iter().map(|t| t.number));
            }
        }
        for storage in &machine.storages {
            for waiter in &storage.ql {
                if units_wanted(&machine.model, waiter) <= storage.capacity - storage.in_use {
                    able.push(waiter.number);
                }
            }
        }
        for server in machine.facilities.iter().chain(machine.storages.iter()) {
            for code in 1..=6 {
                if !server.code_true(code) {
                    able.extend(server.wel[code as usize - 1].iter().map(|t| t.number));
                }
            }
        }
        for waiter in &machine.wsl {
            if let Block::WaitIfComparison { comparison } = machine.model.block(waiter.next_block) {
                if !machine.holds(comparison, waiter) {
                    able.push(waiter.number);
                }
            } else {
                able.push(waiter.number);
            }
        }
        self.asked += 1;
        self.claim(able.is_empty(), machine, &format!("able to go: {able:?}"));
    }
}

impl Watcher for Claims {
    fn before_turn(&mut self, machine: &Machine, trace: &[u8]) {
        self.account.read(trace);
        self.one_list_each(machine);
        self.living_holders(machine);
        self.gatherers(machine);
        self.interrupted(machine);
        self.sorted(machine);
        // "before each turn that finds nobody moving and REL empty"; dry is among them.
        self.about_to_move = machine.moving.is_none() && machine.rel.is_empty();
        // "Zero waiters .. are claimed for edition 1."
        if self.about_to_move && machine.model.edition == 1 {
            self.nobody_able_to_go(machine);
        }
    }

    fn after_turn(&mut self, _kind: u32, _done: Done) {
        if self.about_to_move {
            self.account.clock_moves();
        }
    }

    fn at_end(&mut self, machine: &Machine, _end: u32, trace: &[u8]) {
        self.account.read(trace);
        self.account.advance_to(machine.clock);
        self.one_list_each(machine);
        self.living_holders(machine);
        self.gatherers(machine);
        self.interrupted(machine);
        self.sorted(machine);
        self.places = places(machine);
        self.places.sort();
    }
}

/// The same under the rules of the engine.
pub fn check(case: &Case) -> Result<(Outcome, u64), Vec<String>> {
    check_with(Rules::LANDED, case)
}

/// Runs a case and checks all claims. Gives the result, or what failed; for a
/// refused case there is nothing to check but the lent bytes.
pub fn check_with(rules: Rules, case: &Case) -> Result<(Outcome, u64), Vec<String>> {
    let mut trace = vec![0xA5; case.trace_len];
    let mut report = vec![0xA5; case.report_len];
    let start = door(
        rules,
        &case.model,
        &case.tape,
        case.work_len,
        case.report_len,
    );
    let Ok(machine) = start else {
        let outcome = run_watched(
            rules,
            &case.model,
            &case.tape,
            case.budget,
            case.work_len,
            &mut trace,
            &mut report,
            &mut crate::run::Nobody,
        );
        let untouched = trace.iter().chain(&report).all(|byte| *byte == 0xA5);
        let only = Outcome {
            refusal: outcome.refusal,
            ..Outcome::default()
        };
        if outcome.refusal == 0 || outcome != only || !untouched {
            return Err(vec!["a refusal with results".to_string()]);
        }
        return Ok((outcome, 0));
    };
    let mut claims = Claims::new(&machine);
    let outcome = run_watched(
        rules,
        &case.model,
        &case.tape,
        case.budget,
        case.work_len,
        &mut trace,
        &mut report,
        &mut claims,
    );
    let mut errors = claims.errors;
    errors.extend(claims.account.errors.clone());
    let (written, rest) = report.split_at(outcome.report_bytes as usize);
    let unused = &trace[outcome.trace_bytes as usize..];
    if !rest.iter().chain(unused).all(|byte| *byte == 0xA5) {
        errors.push("bytes past the lengths touched".to_string());
    }
    errors.extend(check_report(
        &claims.account,
        &claims.places,
        &outcome,
        written,
    ));
    if errors.is_empty() {
        Ok((outcome, claims.asked))
    } else {
        Err(errors)
    }
}

/// "Result and report give these counts"; the sums of ticks follow from the
/// records; the living stand there by rising number, each with its place.
fn check_report(
    account: &Account,
    places: &[(u64, u64)],
    outcome: &Outcome,
    report: &[u8],
) -> Vec<String> {
    let mut errors = Vec::new();
    let Some(numbers) = read_report(report) else {
        return vec!["a report of no numbers".to_string()];
    };
    let counts = (outcome.clock, outcome.made, outcome.ended);
    if counts != (account.clock, account.made, account.ended) {
        errors.push("the result's counts differ from the records'".to_string());
    }
    let living: Vec<u64> = places.iter().map(|(number, _)| *number).collect();
    let rising = living.windows(2).all(|two| two[0] < two[1]);
    if !rising || living != account.living.iter().copied().collect::<Vec<u64>>() {
        errors.push("the living of the report differ from the records'".to_string());
    }
    let mut expected = account.report_numbers();
    expected.extend(places.iter().flat_map(|(number, place)| [*number, *place]));
    if numbers != expected {
        errors.push(format!("report {numbers:?}, from the records {expected:?}"));
    }
    errors
}
