//! The front of a model: what a reader of reports must know of it.

use crate::number::Numbers;
use crate::Refusal;
use std::ops::RangeInclusive;

/// Editions that this crate knows; the second is for the 1996 rules.
const EDITIONS: RangeInclusive<u64> = 1..=2;

/// How many facilities, storages and queues a model may have, each.
const SERVERS: RangeInclusive<u64> = 0..=32;

const CAPACITY: RangeInclusive<u64> = 1..=65_535;

/// The first numbers of a model: edition, facilities, storages with their capacities, and queues.
#[derive(Clone, Debug, PartialEq, Eq)]
pub struct Header {
    pub edition: u64,
    pub facilities: usize,
    /// The capacity of each storage.
    pub capacities: Vec<u64>,
    pub queues: usize,
}

impl Header {
    /// Reads the front of a model; what follows the number of queues is not looked at. A refusal is the one that
    /// `run` would give.
    ///
    /// ```
    /// use covrith::{Header, Refusal};
    /// let header = Header::read(&[1, 2, 1, 3, 0]).unwrap(); // two facilities, a storage of 3 units
    /// assert_eq!((header.facilities, &header.capacities[..], header.queues), (2, &[3][..], 0));
    /// assert_eq!(Header::read(&[1, 33]), Err(Refusal::ModelRange));
    /// assert_eq!(Header::read(&[2, 0, 0, 0]).unwrap().edition, 2);
    /// assert_eq!(Header::read(&[3, 0, 0, 0]), Err(Refusal::ModelRange));
    /// ```
    pub fn read(model: &[u8]) -> Result<Header, Refusal> {
        let mut numbers = Numbers::new(model);
        let edition = field(&mut numbers, EDITIONS)?;
        let facilities = field(&mut numbers, SERVERS)? as usize;
        let storages = field(&mut numbers, SERVERS)?;
        let capacities = (0..storages)
            .map(|_| field(&mut numbers, CAPACITY))
            .collect::<Result<_, _>>()?;
        let queues = field(&mut numbers, SERVERS)? as usize;
        Ok(Header {
            edition,
            facilities,
            capacities,
            queues,
        })
    }
}

fn field(numbers: &mut Numbers, range: RangeInclusive<u64>) -> Result<u64, Refusal> {
    let number = numbers.of_model().ok_or(Refusal::ModelNumber)?;
    if range.contains(&number) {
        Ok(number)
    } else {
        Err(Refusal::ModelRange)
    }
}
