//! A report by names.

use crate::number::Numbers;
use crate::{Header, Place};
use std::fmt;

/// What a run reports at its end.
#[derive(Clone, Debug, PartialEq, Eq)]
pub struct Report {
    pub clock: u64,
    pub made: u64,
    pub ended: u64,
    /// Facility 1 first.
    pub facilities: Vec<Server>,
    /// Storage 1 first.
    pub storages: Vec<Server>,
    /// Queue 1 first.
    pub queues: Vec<Queue>,
    /// Those that have not ended.
    pub living: Vec<Living>,
}

/// A facility or a storage.
#[derive(Clone, Copy, Debug, PartialEq, Eq)]
pub struct Server {
    /// How often it was entered, with any units.
    pub entries: u64,
    /// Units in use, summed over the ticks.
    pub unit_ticks: u64,
    /// Waits begun for it.
    pub waits_begun: u64,
    /// The length of its QL, summed over the ticks.
    pub ticks_waited: u64,
    /// The longest QL before a clock move.
    pub longest: u64,
}

/// A queue.
#[derive(Clone, Copy, Debug, PartialEq, Eq)]
pub struct Queue {
    pub arrivals: u64,
    /// Its content, summed over the ticks.
    pub content_ticks: u64,
    /// The most content at a clock move.
    pub longest: u64,
}

/// A living transaction and where it stands.
#[derive(Clone, Copy, Debug, PartialEq, Eq)]
pub struct Living {
    pub transaction: u64,
    pub place: Place,
}

/// Bytes that are no report of a model with this header, and where that shows.
#[derive(Clone, Copy, Debug, PartialEq, Eq)]
pub struct NoReport {
    pub position: usize,
}

impl fmt::Display for NoReport {
    fn fmt(&self, to: &mut fmt::Formatter<'_>) -> fmt::Result {
        write!(to, "no report of this model: byte {}", self.position)
    }
}

impl std::error::Error for NoReport {}

impl Report {
    /// Reads the report of a model with this header: all of its bytes and no more.
    ///
    /// ```
    /// use covrith::{Header, Report};
    /// let header = Header { edition: 1, facilities: 1, capacities: vec![], queues: 0 };
    /// let report = Report::read(&[12, 2, 2, 2, 9, 1, 3, 1, 0], &header).unwrap();
    /// assert_eq!((report.clock, report.made, report.ended), (12, 2, 2));
    /// assert_eq!(report.facilities[0].unit_ticks, 9);
    /// assert!(report.living.is_empty());
    /// assert_eq!(Report::read(&[12, 2], &header).unwrap_err().position, 2);
    /// ```
    pub fn read(bytes: &[u8], header: &Header) -> Result<Report, NoReport> {
        let mut numbers = Numbers::new(bytes);
        let position = |numbers: &Numbers| NoReport {
            position: numbers.position(),
        };
        let report = Report::of(&mut numbers, header).ok_or_else(|| position(&numbers))?;
        if numbers.at_end() {
            Ok(report)
        } else {
            Err(position(&numbers))
        }
    }

    fn of(numbers: &mut Numbers, header: &Header) -> Option<Report> {
        Some(Report {
            clock: numbers.of_report()?,
            made: numbers.of_report()?,
            ended: numbers.of_report()?,
            facilities: rows(numbers, header.facilities as u64, server)?,
            storages: rows(numbers, header.capacities.len() as u64, server)?,
            queues: rows(numbers, header.queues as u64, queue)?,
            living: {
                let living = numbers.of_report()?;
                rows(numbers, living, living_one)?
            },
        })
    }
}

fn rows<T>(
    numbers: &mut Numbers,
    count: u64,
    row: impl Fn(&mut Numbers) -> Option<T>,
) -> Option<Vec<T>> {
    let mut found = Vec::new();
    for _ in 0..count {
        found.push(row(numbers)?);
    }
    Some(found)
}

fn server(numbers: &mut Numbers) -> Option<Server> {
    Some(Server {
        entries: numbers.of_report()?,
        unit_ticks: numbers.of_report()?,
        waits_begun: numbers.of_report()?,
        ticks_waited: numbers.of_report()?,
        longest: numbers.of_report()?,
    })
}

fn queue(numbers: &mut Numbers) -> Option<Queue> {
    Some(Queue {
        arrivals: numbers.of_report()?,
        content_ticks: numbers.of_report()?,
        longest: numbers.of_report()?,
    })
}

fn living_one(numbers: &mut Numbers) -> Option<Living> {
    Some(Living {
        transaction: numbers.of_report()?,
        place: Place::of(numbers.of_report()?)?,
    })
}
