//! Which records meet the bounds. "The record need not be a passage line": only
//! its two digits are asked for.

use super::{length, Bounds, DIGITS, RECORD_BYTES};
use crate::limit::{self, TWO};
use crate::record::Record;
use crate::refusal::Refusal;

/// The two digits of a record's axles.
#[derive(Clone, Copy, Debug, PartialEq, Eq)]
pub struct Axles {
    pub tens: u8,
    pub units: u8,
}

impl Axles {
    /// The digits of 63 bytes, where "both bytes are digits".
    pub fn of(record: &[u8]) -> Option<Axles> {
        let digit = |byte: u8| byte.is_ascii_digit().then(|| byte - b'0');
        Some(Axles {
            tens: digit(record[DIGITS.start])?,
            units: digit(record[DIGITS.start + 1])?,
        })
    }

    pub fn number(self) -> u8 {
        10 * self.tens + self.units
    }
}

/// What the producer takes: a record with its bounds and its axles, which lie
/// within them.
#[derive(Clone, Debug, PartialEq, Eq)]
pub struct Billed {
    pub bounds: Bounds,
    pub record: Record,
    pub axles: Axles,
}

impl Billed {
    /// Refusals 13, 18, 19: "to the producer, a record that does not meet this".
    pub fn new(lower: u64, upper: u64, record: &[u8]) -> Result<Billed, Refusal> {
        if record.len() != RECORD_BYTES {
            return Err(Refusal::RecordBytes);
        }
        let bounds = Bounds::new(lower, upper)?;
        let within = |axles: &Axles| bounds.hold(axles.number());
        let axles = Axles::of(record).filter(within);
        Ok(Billed {
            bounds,
            record: limit::record(TWO, length().bits() as u64, record)?,
            axles: axles.ok_or(Refusal::OutsideBand)?,
        })
    }
}
