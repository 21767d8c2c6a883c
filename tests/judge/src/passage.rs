//! "Passage records": "a passage is one line of 63 bytes, without line feed or
//! quoting". Read, write, seal and check; as for the other operations, a
//! refused call changes no lent byte, and bytes of a written buffer past its
//! result keep their value.

pub mod line;
mod reading;
mod sealing;
mod writing;

pub use reading::{read, Passage};
pub use sealing::{check, seal};
pub use writing::write;

use crate::refusal::Refusal;

/// The four fields that are numbers.
#[derive(Clone, Copy, Debug, PartialEq, Eq)]
pub struct Numbers {
    pub lane: u64,
    /// "Seconds since 1970 UTC."
    pub time: u64,
    pub class: u64,
    pub axles: u64,
}

impl Numbers {
    /// Refusal 17: "lane 000 or axles below 02".
    fn high_enough(&self) -> Result<(), Refusal> {
        if self.lane == 0 || self.axles < 2 {
            return Err(Refusal::LaneOrAxles);
        }
        Ok(())
    }
}
