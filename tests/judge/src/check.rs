//! The check of an assignment against a digest: refusals 21, 2, 22, 5, 6, 20, 7,
//! 8, 9, in this order, straight over the rows.

use crate::bits::bit;
use crate::entries;
use crate::field;
use crate::forms::{Row, RowNumber, RowTable, Term};
use crate::length::{right_assignment, Length};
use crate::limit;
use crate::refusal::Refusal;
use crate::rows;

/// The value of a weighted sum of wires. A signed coefficient counts modulo p.
fn evaluate(sum: &[Term], entries: &[u64]) -> u64 {
    sum.iter().fold(0, |total, term| {
        let product = field::multiply(term.residue(), entries[term.wire.0 as usize]);
        field::add(total, product)
    })
}

/// "A row is satisfied when A × B = C modulo p."
pub fn satisfied(row: Row<'_>, entries: &[u64]) -> bool {
    let [a, b, c] = [row.a, row.b, row.c].map(|sum| evaluate(sum, entries));
    field::multiply(a, b) == c
}

/// The lowest row that is not satisfied, if there is one.
fn lowest_unsatisfied(table: &RowTable, entries: &[u64]) -> Option<RowNumber> {
    let mut rows = table.iter();
    rows.find(|&(_, row)| !satisfied(row, entries))
        .map(|(number, _)| number)
}

/// Refusals 5 and 6: the two byte lengths.
pub(crate) fn check_sizes(wires: usize, assignment: &[u8], digest: &[u8]) -> Result<(), Refusal> {
    if digest.len() != 32 {
        return Err(Refusal::DigestBytes);
    }
    right_assignment(wires, assignment)
}

/// Refusals 7 and 8: wire 0, then "Wires 1 to 256: digest".
fn check_digest_wires(entries: &[u64], digest: &[u8]) -> Result<(), Refusal> {
    if entries[0] != 1 {
        return Err(Refusal::WireZero);
    }
    if (0..256).any(|number| entries[1 + number] != bit(digest, number)) {
        return Err(Refusal::DigestWire);
    }
    Ok(())
}

/// Refusals 5, 6, 20, 7, 8, 9 for a length that is allowed, with the rows of that
/// length at hand. It saves time where many assignments of one length are judged.
pub fn check_with(
    table: &RowTable,
    length: Length,
    assignment: &[u8],
    digest: &[u8],
) -> Result<(), Refusal> {
    check_circuit(table, length.wires(), assignment, digest)
}

/// The same for any circuit, by its rows and by how many wires it has.
pub(crate) fn check_circuit(
    table: &RowTable,
    wires: usize,
    assignment: &[u8],
    digest: &[u8],
) -> Result<(), Refusal> {
    check_sizes(wires, assignment, digest)?;
    let entries = entries::read(assignment)?;
    check_digest_wires(&entries, digest)?;
    match lowest_unsatisfied(table, &entries) {
        Some(number) => Err(Refusal::Unsatisfied(number)),
        None => Ok(()),
    }
}

/// The whole check: `Ok` when the assignment is accepted for the length
/// against the digest.
pub fn check(limit: u64, length: u64, assignment: &[u8], digest: &[u8]) -> Result<(), Refusal> {
    let length = limit::length(limit, length)?;
    // Sizes first, so that a wrong size is refused before any row is built.
    check_sizes(length.wires(), assignment, digest)?;
    check_with(&rows::rows(length), length, assignment, digest)
}
