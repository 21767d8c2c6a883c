//! Row, produce and check on lent buffers. As for the other operations, a
//! refused call changes no lent byte, and bytes of a written buffer past its
//! result keep their value.

use super::band::Billed;
use super::{assignment_bytes, layout, row_count, rows, wires, Bounds};
use crate::check::{check_circuit, check_sizes};
use crate::forms::{RowNumber, RowTable};
use crate::operations::{long_enough, row_arguments, row_at_hand, Counts};
use crate::refusal::Refusal;

/// One row by its number: refusals 18, 3, 4.
pub fn row(lower: u64, upper: u64, number: u64, buffer: &mut [u8]) -> Result<Counts, Refusal> {
    let bounds = Bounds::new(lower, upper)?;
    // The arguments first, so that no row is built for what is refused.
    row_arguments(row_count(), number, buffer)?;
    row_with(&rows::all(bounds), number, buffer)
}

/// The same with the rows of bounds at hand: refusals 3, 4.
pub fn row_with(table: &RowTable, number: u64, buffer: &mut [u8]) -> Result<Counts, Refusal> {
    row_arguments(row_count(), number, buffer)?;
    row_at_hand(table.row(RowNumber(number as u32)), buffer)
}

/// The whole assignment for a record into the first 8 × wires bytes: refusals
/// 13, 18, 19, 4.
pub fn produce(lower: u64, upper: u64, record: &[u8], buffer: &mut [u8]) -> Result<(), Refusal> {
    let billed = Billed::new(lower, upper, record)?;
    long_enough(buffer, assignment_bytes())?;
    layout::write_assignment(&billed, buffer);
    Ok(())
}

/// `Ok` when the assignment is accepted under the bounds against the digest:
/// refusals 18, 5, 6, 20, 7, 8, 9.
pub fn check(lower: u64, upper: u64, digest: &[u8], assignment: &[u8]) -> Result<(), Refusal> {
    let bounds = Bounds::new(lower, upper)?;
    // Sizes first, so that a wrong size is refused before any row is built.
    check_sizes(wires(), assignment, digest)?;
    check_with(&rows::all(bounds), digest, assignment)
}

/// The same with the rows of bounds at hand: refusals 5, 6, 20, 7, 8, 9. All
/// 45,591 entries are asked for 20, the appended ones too.
pub fn check_with(table: &RowTable, digest: &[u8], assignment: &[u8]) -> Result<(), Refusal> {
    check_circuit(table, wires(), assignment, digest)
}
