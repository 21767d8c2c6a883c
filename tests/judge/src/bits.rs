//! Bits of bytes: "the highest bit of a byte first", in digests; "wire w goes
//! to byte floor(w / 8), the first wire in the highest bit", in packed bytes.

/// Bit `number` of some bytes.
pub fn bit(bytes: &[u8], number: usize) -> u64 {
    u64::from(bytes[number / 8] >> (7 - number % 8) & 1)
}
