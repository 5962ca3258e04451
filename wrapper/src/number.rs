//! Numbers as bytes: groups of seven bits, highest first, the top bit on all bytes but the last.

/// The most bytes of a number of a model.
const MODEL_BYTES: usize = 5;

/// The largest number of a model.
const MODEL_MAX: u64 = 4_294_967_295;

/// The most bytes of a number of a report.
const REPORT_NUMBER_BYTES: usize = 9;

/// Takes numbers from bytes, one after the other.
pub(crate) struct Numbers<'a> {
    bytes: &'a [u8],
    position: usize,
}

impl<'a> Numbers<'a> {
    pub(crate) fn new(bytes: &'a [u8]) -> Numbers<'a> {
        Numbers { bytes, position: 0 }
    }

    pub(crate) fn position(&self) -> usize {
        self.position
    }

    pub(crate) fn at_end(&self) -> bool {
        self.position == self.bytes.len()
    }

    /// The next number of a model; none if it is not whole, shortest and in size, and the position stays.
    pub(crate) fn of_model(&mut self) -> Option<u64> {
        self.next(MODEL_BYTES, MODEL_MAX)
    }

    /// The next number of a report, likewise.
    pub(crate) fn of_report(&mut self) -> Option<u64> {
        self.next(REPORT_NUMBER_BYTES, u64::MAX)
    }

    fn next(&mut self, most_bytes: usize, most: u64) -> Option<u64> {
        let rest = &self.bytes[self.position..];
        if rest.first() == Some(&0x80) {
            return None; // a leading group of zeros: not the shortest form
        }
        let length = 1 + rest.iter().take(most_bytes).position(|byte| *byte < 0x80)?;
        let value = rest[..length]
            .iter()
            .fold(0, |value, byte| value << 7 | u64::from(byte & 0x7F));
        if value > most {
            return None;
        }
        self.position += length;
        Some(value)
    }
}
