//! The lists of the machine drawn as text, at the start and after each turn (docs/MANUAL.md, "A worked run").

use crate::blocks::Done;
use crate::machine::{List, Machine, Server, Transaction};
use crate::model::Block;
use crate::report::REPORT_BYTES;
use crate::rules::Rules;
use crate::run::{door, run_from, Watcher, WORK_NUMBERS};
use crate::text::{BUDGET, TRACE_BYTES};

/// The drawings of a run, or its refusal. `names` are those of the facilities, then of the storages; a server without one has its number.
pub fn drawings(rules: Rules, model: &[u8], tape: &[u8], names: &[String]) -> Result<String, u32> {
    let machine = door(rules, model, tape, WORK_NUMBERS, REPORT_BYTES)?;
    let mut drawer = Drawer::new(&machine, names);
    let mut trace = vec![0; TRACE_BYTES];
    let mut report = vec![0; REPORT_BYTES];
    run_from(machine, BUDGET, &mut trace, &mut report, &mut drawer);
    Ok(drawer.text)
}

/// Draws the state that each turn leaves, headed by what the turn did.
struct Drawer {
    servers: Vec<String>,
    codes: Vec<(u32, usize)>,
    /// What the coming turn takes: transaction and block.
    taken: Option<(u64, u32)>,
    done: Option<(u32, Done)>,
    drawn: Option<u64>,
    text: String,
}

impl Drawer {
    fn new(machine: &Machine, names: &[String]) -> Drawer {
        let facilities = machine.facilities.len();
        let servers = (0..facilities + machine.storages.len())
            .map(|k| match names.get(k) {
                Some(name) => name.clone(),
                None if k < facilities => format!("facility {}", k + 1),
                None => format!("storage {}", k + 1 - facilities),
            })
            .collect();
        Drawer {
            servers,
            codes: codes(machine),
            taken: None,
            done: None,
            drawn: None,
            text: String::new(),
        }
    }

    fn draw(&mut self, machine: &Machine) {
        if self.drawn == Some(machine.turns) {
            return;
        }
        self.drawn = Some(machine.turns);
        self.text.push_str(&self.heading(machine));
        self.text.push_str(&self.in_use(machine));
        for (name, members) in self.lists(machine) {
            self.text.push_str(&format!("  {name:<12}"));
            for member in members {
                self.text.push_str(&format!(" [{member}]"));
            }
            let end = self.text.trim_end().len();
            self.text.truncate(end);
            self.text.push('\n');
        }
        self.text.push('\n');
    }

    /// The turn, the clock and what happened.
    fn heading(&self, machine: &Machine) -> String {
        let (Some((number, block)), Some((kind, done))) = (self.taken, self.done) else {
            return "start, clock 0\n".to_string();
        };
        let what = match done {
            Done::Entered => "entered".to_string(),
            Done::Finished => "entered, and the counter fell to 0: end 2".to_string(),
            Done::BeganToWait => "began to wait".to_string(),
            Done::PutBack => "put back, no record".to_string(),
            Done::WentBack => "went back to the first of its group, no record".to_string(),
            Done::Stopped(end) => format!("stopped, end {end}"),
        };
        let word = word(kind);
        let (turn, clock) = (machine.turns, machine.clock);
        format!("turn {turn}, clock {clock}: {number} at block {block} {word}: {what}\n")
    }

    /// Units in use of each server, of its capacity.
    fn in_use(&self, machine: &Machine) -> String {
        let servers = machine.facilities.iter().chain(machine.storages.iter());
        let words = servers.zip(&self.servers);
        let words: Vec<String> = words
            .map(|(server, name)| format!("{name} {} of {}", server.in_use, server.capacity))
            .collect();
        format!("  {:<12} {}\n", "in use", words.join(", "))
    }

    /// Every list that the model can use, with its members from the front.
    fn lists(&self, machine: &Machine) -> Vec<(String, Vec<String>)> {
        let servers = || machine.facilities.iter().chain(machine.storages.iter());
        let mut lists = vec![(
            "moving".to_string(),
            machine.moving.iter().map(mark).collect(),
        )];
        lists.push(("REL".to_string(), marks(&machine.rel)));
        let later = machine.fel.iter();
        let later =
            later.map(|event| format!("{} at {}", mark(&event.transaction), event.move_time));
        lists.push(("FEL".to_string(), later.collect()));
        for (server, name) in servers().zip(&self.servers) {
            lists.push((format!("QL {name}"), marks(&server.ql)));
        }
        for &(code, server) in &self.codes {
            let found: Option<&Server> = servers().nth(server);
            let members = found.map_or(Vec::new(), |s| marks(&s.wel[code as usize - 1]));
            let name = &self.servers[server];
            lists.push((format!("WEL {name}={}", CODES[code as usize - 1]), members));
        }
        let blocks = machine.model.blocks.iter();
        if blocks.clone().any(|block| block.kind() == 9) {
            lists.push(("WSL".to_string(), marks(&machine.wsl)));
        }
        for (number, block) in blocks.clone().enumerate() {
            if block.kind() == 18 {
                let number = number as u32 + 1;
                let gatherers = machine.gatherers.get(&number).into_iter().flatten();
                let members =
                    gatherers.map(|g| format!("{}, {} came", mark(&g.transaction), g.come));
                lists.push((format!("gather {number}"), members.collect()));
            }
        }
        if blocks.clone().any(|block| block.kind() == 19) {
            let members = machine.interrupted.iter();
            let members =
                members.map(|i| format!("{}, {} left", mark(&i.transaction), i.remaining));
            lists.push(("interrupted".to_string(), members.collect()));
        }
        lists
    }
}

impl Watcher for Drawer {
    fn before_turn(&mut self, machine: &Machine, _trace: &[u8]) {
        self.draw(machine);
        let later = machine.fel.first().map(|event| &event.transaction);
        let next = machine.moving.as_ref().or(machine.rel.first()).or(later);
        self.taken = next.map(|t| (t.number, t.next_block));
    }

    fn after_turn(&mut self, kind: u32, done: Done) {
        self.done = Some((kind, done));
    }

    fn at_end(&mut self, machine: &Machine, _end: u32, _trace: &[u8]) {
        self.draw(machine);
    }
}

/// The codes that server waits of the model name, with the index of the server among facilities and storages.
fn codes(machine: &Machine) -> Vec<(u32, usize)> {
    let facilities = machine.facilities.len();
    let mut codes = Vec::new();
    for block in &machine.model.blocks {
        if let Block::WaitIfStatus { code, server } | Block::WaitJoined { code, server, .. } =
            *block
        {
            let first = if code <= 2 { 0 } else { facilities };
            let pair = (code, first + server as usize - 1);
            if !codes.contains(&pair) {
                codes.push(pair);
            }
        }
    }
    codes
}

/// Number, priority, serial, and r for returning.
fn mark(t: &Transaction) -> String {
    let returning = if t.returning { " r" } else { "" };
    format!("{} p{} s{}{returning}", t.number, t.priority, t.serial)
}

fn marks(list: &List) -> Vec<String> {
    list.iter().map(mark).collect()
}

const CODES: [&str; 6] = ["U", "NU", "E", "NE", "F", "NF"];

fn word(kind: u32) -> &'static str {
    const WORDS: [&str; 20] = [
        "GENERATE",
        "ADVANCE",
        "TERMINATE",
        "SEIZE",
        "RELEASE",
        "ENTER",
        "LEAVE",
        "WAITIF",
        "WAITIF",
        "IF",
        "GOTO",
        "LET",
        "PRIORITY",
        "SPLIT",
        "ARRIVE",
        "DEPART",
        "WAITIF",
        "ASSEMBLE",
        "PREEMPT",
        "RETURN",
    ];
    WORDS[kind as usize - 1]
}
