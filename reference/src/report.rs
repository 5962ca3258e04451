//! The report (01, Bytes: "Report: clock, made, ended").

use crate::machine::{Machine, Server};
use crate::number::number_bytes;

/// Question 2 asks for this many bytes.
pub const REPORT_BYTES: usize = 10_240;

pub const PLACE_QL: u64 = 1;
pub const PLACE_WEL: u64 = 2;
pub const PLACE_WSL: u64 = 3;
pub const PLACE_FEL: u64 = 4;
pub const PLACE_REL: u64 = 5;
pub const PLACE_MOVING: u64 = 6;
pub const PLACE_GATHERING: u64 = 7;
pub const PLACE_INTERRUPTED: u64 = 8;

/// Number and place of everybody found on a list, in the order of the lists.
pub fn places(machine: &Machine) -> Vec<(u64, u64)> {
    let mut places = Vec::new();
    for server in machine.facilities.iter().chain(machine.storages.iter()) {
        places.extend(server.ql.iter().map(|t| (t.number, PLACE_QL)));
        for list in &server.wel {
            places.extend(list.iter().map(|t| (t.number, PLACE_WEL)));
        }
    }
    places.extend(machine.wsl.iter().map(|t| (t.number, PLACE_WSL)));
    places.extend(
        machine
            .fel
            .iter()
            .map(|e| (e.transaction.number, PLACE_FEL)),
    );
    places.extend(machine.rel.iter().map(|t| (t.number, PLACE_REL)));
    for one in machine.gatherers.values().flatten() {
        places.push((one.transaction.number, PLACE_GATHERING));
    }
    for one in &machine.interrupted {
        places.push((one.transaction.number, PLACE_INTERRUPTED));
    }
    places.extend(machine.moving.iter().map(|t| (t.number, PLACE_MOVING)));
    places
}

/// The numbers of the report; 02, item 2: "List the living by rising transaction number."
pub fn report_numbers(machine: &Machine) -> Vec<u64> {
    let mut numbers = vec![machine.clock, machine.made, machine.ended];
    for server in machine.facilities.iter().chain(machine.storages.iter()) {
        numbers.extend(server_fields(server));
    }
    for queue in &machine.queues {
        numbers.extend([queue.arrivals, queue.content_ticks, queue.longest]);
    }
    let mut living = places(machine);
    living.sort();
    numbers.push(living.len() as u64);
    for (number, place) in living {
        numbers.extend([number, place]);
    }
    numbers
}

fn server_fields(server: &Server) -> [u64; 5] {
    [
        server.entries,
        server.unit_ticks,
        server.waits_begun,
        server.ticks_waited,
        server.longest,
    ]
}

/// Writes the report and gives its length.
pub fn write_report(machine: &Machine, report: &mut [u8]) -> usize {
    let mut bytes = Vec::new();
    for number in report_numbers(machine) {
        bytes.extend(number_bytes(number));
    }
    report[..bytes.len()].copy_from_slice(&bytes);
    bytes.len()
}

/// Reads report numbers back; `None` if the bytes are no row of numbers.
pub fn read_report(bytes: &[u8]) -> Option<Vec<u64>> {
    let mut numbers = Vec::new();
    let mut value: u64 = 0;
    let mut whole = true;
    for byte in bytes {
        if whole && *byte == 0x80 {
            return None;
        }
        value = value.checked_mul(128)? + u64::from(byte & 0x7F);
        whole = *byte < 0x80;
        if whole {
            numbers.push(value);
            value = 0;
        }
    }
    whole.then_some(numbers)
}
