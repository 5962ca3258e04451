//! `objects < FILE`: runs the cases of standard input, printed as by `cases`, and
//! prints the results of each as a line of JSON, from the machine's own lists.

use reference::line::parse;
use reference::machine::{Machine, Queue, Server};
use reference::report::places;
use reference::run::{run_watched, Watcher};
use reference::trace::TraceReader;
use reference::Rules;
use std::io::{BufWriter, Write};

fn main() {
    let mut output = BufWriter::new(std::io::stdout().lock());
    for (number, text) in std::io::stdin().lines().enumerate() {
        let Some(case) = text.ok().as_deref().and_then(parse) else {
            eprintln!("line {} is no case", number + 1);
            std::process::exit(2);
        };
        let mut trace = vec![0; case.trace_len];
        let mut report = vec![0; case.report_len];
        let mut last = Last::default();
        let outcome = run_watched(
            Rules::LANDED,
            &case.model,
            &case.tape,
            case.budget,
            case.work_len,
            &mut trace,
            &mut report,
            &mut last,
        );
        let line = match outcome.refusal {
            0 => format!("{{\"refusal\":0,{}}}", last.0),
            refusal => format!("{{\"refusal\":{refusal}}}"),
        };
        if writeln!(output, "{line}").is_err() {
            return; // nobody reads on
        }
    }
}

/// What stands on the machine's lists after the last turn, as JSON.
#[derive(Default)]
struct Last(String);

impl Watcher for Last {
    fn at_end(&mut self, machine: &Machine, end: u32, trace: &[u8]) {
        let mut living = places(machine);
        living.sort();
        let counts = format!(
            "\"clock\":{},\"made\":{},\"ended\":{}",
            machine.clock, machine.made, machine.ended
        );
        self.0 = format!(
            "\"end\":{end},\"turns\":{},{counts},\"records\":{},\
             \"report\":{{{counts},\"facilities\":{},\"storages\":{},\"queues\":{},\"living\":{}}}",
            machine.turns,
            records(trace),
            list(machine.facilities.iter().map(server)),
            list(machine.storages.iter().map(server)),
            list(machine.queues.iter().map(queue)),
            list(living.iter().map(living_one)),
        );
    }
}

fn list(items: impl Iterator<Item = String>) -> String {
    format!("[{}]", items.collect::<Vec<_>>().join(","))
}

fn records(trace: &[u8]) -> String {
    let mut reader = TraceReader::new(trace);
    list(std::iter::from_fn(|| {
        let record = reader.next_record().ok()?;
        Some(format!(
            "[{},{},{},{}]",
            record.clock, record.transaction, record.block, record.outcome
        ))
    }))
}

fn server(server: &Server) -> String {
    format!(
        "{{\"entries\":{},\"unit_ticks\":{},\"waits_begun\":{},\"ticks_waited\":{},\"longest\":{}}}",
        server.entries, server.unit_ticks, server.waits_begun, server.ticks_waited, server.longest
    )
}

fn queue(queue: &Queue) -> String {
    format!(
        "{{\"arrivals\":{},\"content_ticks\":{},\"longest\":{}}}",
        queue.arrivals, queue.content_ticks, queue.longest
    )
}

fn living_one((transaction, place): &(u64, u64)) -> String {
    format!("{{\"transaction\":{transaction},\"place\":{place}}}")
}
