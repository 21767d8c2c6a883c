//! Record lengths in range, and what follows from a length by counting.

use crate::refusal::Refusal;

/// "The length becomes a bit count from 0 to 8,127 everywhere."
pub const LONGEST: u64 = 8127;

/// A record length, in bits, that is known to be in range.
#[derive(Clone, Copy, Debug, PartialEq, Eq)]
pub struct Length(usize);

impl Length {
    /// Refusal 2: the record has more than 8,127 bits.
    pub fn new(bits: u64) -> Result<Length, Refusal> {
        if bits > LONGEST {
            return Err(Refusal::Length);
        }
        Ok(Length(bits as usize))
    }

    pub fn bits(self) -> usize {
        self.0
    }

    /// The bytes that hold a record: "the bits over 8 rounded up".
    pub fn record_bytes(self) -> usize {
        self.0.div_ceil(8)
    }

    /// "Blocks are floor((bits + 64) / 512) + 1."
    pub fn blocks(self) -> usize {
        (self.0 + 64) / 512 + 1
    }

    /// "Wires in all: 513 + 22,528 × n."
    pub fn wires(self) -> usize {
        513 + 22_528 * self.blocks()
    }

    /// "A block has 32,320 rows; in all 512 + 32,320 × n."
    pub fn rows(self) -> usize {
        512 + 32_320 * self.blocks()
    }

    /// "The right byte lengths are 8 × wires for an assignment."
    pub fn assignment_bytes(self) -> usize {
        8 * self.wires()
    }

    /// The bytes of a packed assignment: "the wires over 8 rounded up".
    pub fn packed_bytes(self) -> usize {
        self.wires().div_ceil(8)
    }

    /// Refusal 6 for a record of this length.
    pub fn right_assignment(self, assignment: &[u8]) -> Result<(), Refusal> {
        right_assignment(self.wires(), assignment)
    }
}

/// Refusal 6: "An assignment of 8-byte entries handed over to be read is not
/// exactly 8 × wires bytes."
pub(crate) fn right_assignment(wires: usize, assignment: &[u8]) -> Result<(), Refusal> {
    if assignment.len() != 8 * wires {
        return Err(Refusal::AssignmentBytes);
    }
    Ok(())
}
