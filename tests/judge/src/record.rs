//! Records: bit strings, "handed over in bytes that 13 and 14 let pass".

use crate::length::Length;
use crate::refusal::Refusal;

/// A record in range: its bits, and the bytes that hold them, "the highest bit
/// of a byte first". Bits of the last byte that are not the record's are zero.
#[derive(Clone, Debug, PartialEq, Eq)]
pub struct Record {
    length: Length,
    bytes: Vec<u8>,
}

/// Those bits of the last byte that stand after the last record bit. Where the
/// bits fill whole bytes there are none.
pub fn spare_bits(bits: u64) -> u8 {
    match bits % 8 {
        0 => 0,
        used => 0xff >> used,
    }
}

impl Record {
    /// Refusals 2, 13, 14.
    pub fn new(bits: u64, bytes: &[u8]) -> Result<Record, Refusal> {
        Record::of(Length::new(bits)?, bytes)
    }

    /// Refusals 13 and 14 for a length in range. 13: "the record's bytes are not
    /// the bits over 8 rounded up". 14: "a bit after the last record bit is set".
    pub(crate) fn of(length: Length, bytes: &[u8]) -> Result<Record, Refusal> {
        if bytes.len() != length.record_bytes() {
            return Err(Refusal::RecordBytes);
        }
        let last = bytes.last().copied().unwrap_or(0);
        if last & spare_bits(length.bits() as u64) != 0 {
            return Err(Refusal::BitAfterRecord);
        }
        Ok(Record {
            length,
            bytes: bytes.to_vec(),
        })
    }

    /// The record of all bits of some bytes: refusal 2.
    pub fn whole(bytes: &[u8]) -> Result<Record, Refusal> {
        Record::new(8 * bytes.len() as u64, bytes)
    }

    /// The record of so many bits from the front of enough bytes; the bits
    /// after them are dropped. Refusal 2.
    pub fn front(bits: u64, bytes: &[u8]) -> Result<Record, Refusal> {
        let length = Length::new(bits)?;
        let mut bytes = bytes[..length.record_bytes()].to_vec();
        if let Some(last) = bytes.last_mut() {
            *last &= !spare_bits(bits);
        }
        Ok(Record { length, bytes })
    }

    pub fn length(&self) -> Length {
        self.length
    }

    pub fn bits(&self) -> usize {
        self.length.bits()
    }

    pub fn bytes(&self) -> &[u8] {
        &self.bytes
    }
}
