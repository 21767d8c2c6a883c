//! The entries of an assignment: "8 bytes a wire, least byte first". By "Entries
//! below the prime" every check and the packer ask that each is below p, so that
//! nothing reads one modulo p: it is taken as it stands.

use crate::field::P;
use crate::forms::Wire;
use crate::refusal::Refusal;

/// Every entry of an assignment of whole entries, in wire order. Refusal 20: "an
/// entry of p or more (lowest wire returned)".
pub fn read(assignment: &[u8]) -> Result<Vec<u64>, Refusal> {
    let entry = |eight: &[u8]| u64::from_le_bytes(eight.try_into().expect("eight bytes"));
    let entries: Vec<u64> = assignment.chunks_exact(8).map(entry).collect();
    match entries.iter().position(|&entry| entry >= P) {
        Some(wire) => Err(Refusal::NotBelowPrime(Wire(wire as u32))),
        None => Ok(entries),
    }
}
