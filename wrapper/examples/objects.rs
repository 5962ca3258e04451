//! `objects < FILE`: runs the cases of a file and prints what each gives as a line of JSON. A line of the file has model, tape, budget,
//! and the lengths of work, trace and report; bytes are hexadecimal, `-` for none.
//! `objects --words`: all ends, refusals and places with their words.

use covrith::{run, End, Header, Living, Place, Queue, Record, Records, Refusal, Report, Server};

fn main() {
    if std::env::args().nth(1).as_deref() == Some("--words") {
        words();
        return;
    }
    for line in std::io::stdin().lines() {
        let line = line.expect("standard input reads");
        println!("{}", case(&line).expect("a line of a case"));
    }
}

fn words() {
    for end in End::ALL {
        println!("end {} {end}", end.number());
    }
    for refusal in Refusal::ALL {
        println!("refusal {} {refusal}", refusal.number());
    }
    for place in Place::ALL {
        println!("place {} {place}", place.number());
    }
}

/// Runs the case of a line; none if it is no case.
fn case(line: &str) -> Option<String> {
    let words: Vec<&str> = line.split(' ').collect();
    let length = |at: usize| words.get(at)?.parse::<usize>().ok();
    let (model, tape) = (bytes(words.first()?)?, bytes(words.get(1)?)?);
    let budget = words.get(2)?.parse().ok()?;
    let mut work = vec![0; length(3)?];
    let mut trace = vec![0; length(4)?];
    let mut report = vec![0; length(5)?];
    let outcome = run(&model, &tape, budget, &mut work, &mut trace, &mut report);
    let end = match outcome.result() {
        Ok(end) => end,
        Err(refusal) => return Some(format!("{{\"refusal\":{}}}", refusal.number())),
    };
    let records = Records::new(&trace[..outcome.trace_bytes as usize])
        .map(|item| record(item.expect("a record")));
    let header = Header::read(&model).expect("an accepted model");
    let report = Report::read(&report[..outcome.report_bytes as usize], &header).expect("a report");
    Some(format!(
        "{{\"refusal\":0,\"end\":{},\"turns\":{},\"clock\":{},\"made\":{},\"ended\":{},\"records\":{},\"report\":{}}}",
        end.number(),
        outcome.turns,
        outcome.clock,
        outcome.made,
        outcome.ended,
        list(records),
        report_json(&report)
    ))
}

fn bytes(hex: &str) -> Option<Vec<u8>> {
    if hex == "-" {
        return Some(Vec::new());
    }
    (0..hex.len())
        .step_by(2)
        .map(|at| u8::from_str_radix(hex.get(at..at + 2)?, 16).ok())
        .collect()
}

fn list(items: impl Iterator<Item = String>) -> String {
    format!("[{}]", items.collect::<Vec<_>>().join(","))
}

fn record(record: Record) -> String {
    format!(
        "[{},{},{},{}]",
        record.clock, record.transaction, record.block, record.outcome
    )
}

fn report_json(report: &Report) -> String {
    format!(
        "{{\"clock\":{},\"made\":{},\"ended\":{},\"facilities\":{},\"storages\":{},\"queues\":{},\"living\":{}}}",
        report.clock,
        report.made,
        report.ended,
        list(report.facilities.iter().map(server)),
        list(report.storages.iter().map(server)),
        list(report.queues.iter().map(queue)),
        list(report.living.iter().map(living))
    )
}

fn server(server: &Server) -> String {
    format!(
        "{{\"entries\":{},\"unit_ticks\":{},\"waits_begun\":{},\"ticks_waited\":{},\"longest\":{}}}",
        server.entries, server.unit_ticks, server.waits_begun, server.ticks_waited, server.longest
    )
}

fn queue(queue: &Queue) -> String {
    format!(
        "{{\"arrivals\":{},\"content_ticks\":{},\"longest\":{}}}",
        queue.arrivals, queue.content_ticks, queue.longest
    )
}

fn living(one: &Living) -> String {
    format!(
        "{{\"transaction\":{},\"place\":{}}}",
        one.transaction,
        one.place.number()
    )
}
