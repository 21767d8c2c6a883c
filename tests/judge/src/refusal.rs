//! "Refusals in checking order", those that packing adds, the two that lengths
//! in bits add, the three of passage records, the two of axles between bounds,
//! the one of entries below the prime and the two of a limit in blocks. Each has a
//! number. Four carry more: 9 "the lowest row that is not satisfied", 10 and 20 the
//! "lowest wire", and 16 the "lowest byte".

use crate::forms::{RowNumber, Wire};
use crate::passage::line::Place;

#[derive(Clone, Copy, Debug, PartialEq, Eq)]
pub enum Refusal {
    /// 1. The program's line is not of the right shape.
    Line,
    /// 2. The record length is above 8,127 bits.
    Length,
    /// 3. The row number is not below the row count.
    Row,
    /// 4. The buffer to be written is too short.
    Buffer,
    /// 5. The digest that an assignment is held against is not 32 bytes.
    DigestBytes,
    /// 6. The assignment is not exactly 8 × wires bytes.
    AssignmentBytes,
    /// 7. Wire 0 does not read as 1.
    WireZero,
    /// 8. A digest wire does not read as its bit of the digest.
    DigestWire,
    /// 9. A row is not satisfied; this is the lowest one.
    Unsatisfied(RowNumber),
    /// 10. An entry reads neither 0 nor 1; this is the lowest one's wire.
    NoBit(Wire),
    /// 11. The packed length is not the wires over 8 rounded up.
    PackedBytes,
    /// 12. A spare bit is set.
    SpareBit,
    /// 13. The record's bytes are not the bits over 8 rounded up.
    RecordBytes,
    /// 14. A bit after the last record bit is set.
    BitAfterRecord,
    /// 15. The passage is not 63 bytes.
    LineBytes,
    /// 16. A byte or value that its place does not allow; this is the lowest one.
    WrongByte(Place),
    /// 17. Lane 000 or axles below 02.
    LaneOrAxles,
    /// 18. A bound outside 2 to 99, or the lower above the upper.
    Bounds,
    /// 19. The record's axles are no two digits, or not within the bounds.
    OutsideBand,
    /// 20. An entry of p or more; this is the lowest one's wire.
    NotBelowPrime(Wire),
    /// 21. The limit is outside 1 to 16.
    Limit,
    /// 22. The length needs more blocks than the limit.
    TooManyBlocks,
}

impl Refusal {
    /// The paper's number.
    pub fn number(self) -> u8 {
        match self {
            Refusal::Line => 1,
            Refusal::Length => 2,
            Refusal::Row => 3,
            Refusal::Buffer => 4,
            Refusal::DigestBytes => 5,
            Refusal::AssignmentBytes => 6,
            Refusal::WireZero => 7,
            Refusal::DigestWire => 8,
            Refusal::Unsatisfied(_) => 9,
            Refusal::NoBit(_) => 10,
            Refusal::PackedBytes => 11,
            Refusal::SpareBit => 12,
            Refusal::RecordBytes => 13,
            Refusal::BitAfterRecord => 14,
            Refusal::LineBytes => 15,
            Refusal::WrongByte(_) => 16,
            Refusal::LaneOrAxles => 17,
            Refusal::Bounds => 18,
            Refusal::OutsideBand => 19,
            Refusal::NotBelowPrime(_) => 20,
            Refusal::Limit => 21,
            Refusal::TooManyBlocks => 22,
        }
    }
}
