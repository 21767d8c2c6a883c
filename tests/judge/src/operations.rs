//! The three operations of the base that write into a lent buffer. "Each
//! refusal returns its number and nothing else; no lent byte changes." "Bytes
//! of a written buffer past its result keep their value."

use crate::forms::{Row, RowNumber, RowTable, Term};
use crate::layout;
use crate::length::Length;
use crate::limit;
use crate::refusal::Refusal;
use crate::rows;
use crate::sm3;

/// Refusal 4: "The buffer to be written is shorter than 32 bytes for a
/// digest, 1,956 for a row, or 8 × wires for an assignment."
pub const DIGEST_BYTES: usize = 32;
pub const ROW_BYTES: usize = 1956;

/// Refusal 4, "any other written buffer shorter than its result" too.
pub(crate) fn long_enough(buffer: &[u8], bytes: usize) -> Result<(), Refusal> {
    if buffer.len() < bytes {
        return Err(Refusal::Buffer);
    }
    Ok(())
}

/// The digest of a record into the first 32 bytes: refusals 21, 2, 13, 14, 22, 4.
pub fn digest(limit: u64, length: u64, record: &[u8], buffer: &mut [u8]) -> Result<(), Refusal> {
    let record = limit::record(limit, length, record)?;
    long_enough(buffer, DIGEST_BYTES)?;
    buffer[..DIGEST_BYTES].copy_from_slice(&sm3::hash(&record));
    Ok(())
}

/// The whole assignment for a record into the first 8 × wires bytes:
/// refusals 21, 2, 13, 14, 22, 4.
pub fn produce(limit: u64, length: u64, record: &[u8], buffer: &mut [u8]) -> Result<(), Refusal> {
    let record = limit::record(limit, length, record)?;
    long_enough(buffer, record.length().assignment_bytes())?;
    layout::write_assignment(&record, buffer);
    Ok(())
}

/// The "three counts" that a row is handed over with: terms of A, B and C.
#[derive(Clone, Copy, Debug, PartialEq, Eq)]
pub struct Counts {
    pub a: usize,
    pub b: usize,
    pub c: usize,
}

/// One row by its number: refusals 21, 2, 22, 3, 4.
pub fn row(limit: u64, length: u64, number: u64, buffer: &mut [u8]) -> Result<Counts, Refusal> {
    let length = limit::length(limit, length)?;
    // The arguments first, so that no row is built for what is refused.
    row_arguments(length.rows(), number, buffer)?;
    row_with(&rows::rows(length), length, number, buffer)
}

/// The same for a length that is allowed, with the rows of that length at hand:
/// refusals 3, 4.
pub fn row_with(
    table: &RowTable,
    length: Length,
    number: u64,
    buffer: &mut [u8],
) -> Result<Counts, Refusal> {
    row_arguments(length.rows(), number, buffer)?;
    row_at_hand(table.row(RowNumber(number as u32)), buffer)
}

/// A row at hand: refusal 4 alone.
pub fn row_at_hand(row: Row<'_>, buffer: &mut [u8]) -> Result<Counts, Refusal> {
    long_enough(buffer, ROW_BYTES)?;
    Ok(write_row(row, buffer))
}

/// Refusal 3, "the row number is not below the row count", then refusal 4.
pub(crate) fn row_arguments(count: usize, number: u64, buffer: &[u8]) -> Result<(), Refusal> {
    if number >= count as u64 {
        return Err(Refusal::Row);
    }
    long_enough(buffer, ROW_BYTES)
}

/// "A row is handed over as the terms of A, then B, then C, 12 bytes each."
fn write_row(row: Row<'_>, buffer: &mut [u8]) -> Counts {
    let terms = row.a.iter().chain(row.b).chain(row.c);
    for (twelve, &term) in buffer.chunks_exact_mut(12).zip(terms) {
        twelve.copy_from_slice(&term_bytes(term));
    }
    Counts {
        a: row.a.len(),
        b: row.b.len(),
        c: row.c.len(),
    }
}

/// "Wire 4, coefficient 8, least byte first", and the coefficient "as 8 bytes
/// two's complement".
fn term_bytes(term: Term) -> [u8; 12] {
    let mut bytes = [0; 12];
    bytes[..4].copy_from_slice(&term.wire.0.to_le_bytes());
    bytes[4..].copy_from_slice(&term.coefficient.to_le_bytes());
    bytes
}
