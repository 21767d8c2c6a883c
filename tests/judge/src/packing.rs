//! "Packed assignments": one bit a wire, "wire w goes to byte floor(w / 8), the
//! first wire in the highest bit, spare low bits zero". As for the other
//! operations, a refused call changes no lent byte, and bytes of a written
//! buffer past its result keep their value.

use crate::bits;
use crate::entries;
use crate::forms::Wire;
use crate::length::Length;
use crate::limit;
use crate::operations::long_enough;
use crate::refusal::Refusal;

/// An assignment into its packed bytes: refusals 21, 2, 22, 4, 6, 20, 10.
pub fn pack(limit: u64, length: u64, assignment: &[u8], buffer: &mut [u8]) -> Result<(), Refusal> {
    let length = limit::length(limit, length)?;
    long_enough(buffer, length.packed_bytes())?;
    length.right_assignment(assignment)?;
    let packed = packed(&entries::read(assignment)?)?;
    buffer[..packed.len()].copy_from_slice(&packed);
    Ok(())
}

/// Packed bytes into "8-byte entries": refusals 21, 2, 22, 4, 11, 12.
pub fn unpack(limit: u64, length: u64, packed: &[u8], buffer: &mut [u8]) -> Result<(), Refusal> {
    let length = limit::length(limit, length)?;
    long_enough(buffer, length.assignment_bytes())?;
    let assignment = unpacked(length, packed)?;
    buffer[..assignment.len()].copy_from_slice(&assignment);
    Ok(())
}

/// Refusal 10, "an entry reads neither 0 nor 1 (lowest wire returned)"; else
/// a byte for every eight wires.
fn packed(entries: &[u64]) -> Result<Vec<u8>, Refusal> {
    if let Some(wire) = entries.iter().position(|&entry| entry > 1) {
        return Err(Refusal::NoBit(Wire(wire as u32)));
    }
    Ok(entries.chunks(8).map(byte).collect())
}

/// Eight bits, or the last ones and zeros, from the highest bit.
fn byte(bits: &[u64]) -> u8 {
    let places = bits.iter().zip((0..8).rev());
    places.map(|(&bit, place)| (bit as u8) << place).sum()
}

/// The assignment that packed bytes stand for, each entry "the number 0 or 1":
/// refusals 11 and 12.
pub fn unpacked(length: Length, packed: &[u8]) -> Result<Vec<u8>, Refusal> {
    if packed.len() != length.packed_bytes() {
        return Err(Refusal::PackedBytes);
    }
    if (length.wires()..8 * packed.len()).any(|spare| bits::bit(packed, spare) == 1) {
        return Err(Refusal::SpareBit);
    }
    let entry = |wire| bits::bit(packed, wire).to_le_bytes();
    Ok((0..length.wires()).flat_map(entry).collect())
}
