//! Two bounds, both of them ends of the band.

use crate::refusal::Refusal;

/// "Bounds from 2 to 99."
const LOWEST: u64 = 2;
const HIGHEST: u64 = 99;

/// Two bounds that are known to be right.
#[derive(Clone, Copy, Debug, PartialEq, Eq)]
pub struct Bounds {
    lower: u8,
    upper: u8,
}

impl Bounds {
    /// Refusal 18: "a bound outside 2 to 99 or the lower above the upper". The
    /// numbers are compared as they come.
    pub fn new(lower: u64, upper: u64) -> Result<Bounds, Refusal> {
        let allowed = LOWEST..=HIGHEST;
        if !allowed.contains(&lower) || !allowed.contains(&upper) || lower > upper {
            return Err(Refusal::Bounds);
        }
        Ok(Bounds {
            lower: lower as u8,
            upper: upper as u8,
        })
    }

    pub fn lower(self) -> u8 {
        self.lower
    }

    pub fn upper(self) -> u8 {
        self.upper
    }

    /// "The axles lie within the bounds, ends included."
    pub fn hold(self, axles: u8) -> bool {
        (self.lower..=self.upper).contains(&axles)
    }
}
