//! The places of a line and what each allows.

use std::ops::Range;

use crate::refusal::Refusal;

/// "One line of 63 bytes."
pub const LINE_BYTES: usize = 63;

/// A letter for each place in turn: `d` a digit, `c` a class, `F` the first
/// place of the plate, `p` a later one, `h` a hexadecimal digit, and the
/// commas that part the fields.
const PLACES: &[u8; LINE_BYTES] =
    b"ddd,dddddddddd,c,dd,Fppppppppp,hhhhhhhhhhhhhhhhhhhhhhhhhhhhhhhh";

/// The bytes of each field.
pub const LANE: Range<usize> = 0..3;
pub const TIME: Range<usize> = 4..14;
pub const CLASS: Range<usize> = 15..16;
pub const AXLES: Range<usize> = 17..19;
pub const PLATE: Range<usize> = 20..30;
pub const BLIND: Range<usize> = 31..63;

/// The number of a byte in its line, from 0.
#[derive(Clone, Copy, Debug, PartialEq, Eq)]
pub struct Place(pub u8);

/// "A to Z and 0 to 9."
fn letter_or_digit(byte: u8) -> bool {
    matches!(byte, b'A'..=b'Z' | b'0'..=b'9')
}

/// Whether the place allows its byte. The line has all its bytes: of the plate
/// the byte before tells too, as "after a `-` only `-` is allowed".
fn allowed(line: &[u8], place: usize) -> bool {
    let byte = line[place];
    match PLACES[place] {
        b'd' => byte.is_ascii_digit(),
        b'c' => matches!(byte, b'1'..=b'9'),
        b'F' => letter_or_digit(byte),
        b'p' if line[place - 1] == b'-' => byte == b'-',
        b'p' => letter_or_digit(byte) || byte == b'-',
        b'h' => matches!(byte, b'0'..=b'9' | b'a'..=b'f'),
        comma => byte == comma,
    }
}

/// Refusals 15, "not 63 bytes", and 16, "a byte that its place does not allow
/// (lowest byte returned, from 0)".
pub fn right_bytes(line: &[u8]) -> Result<(), Refusal> {
    if line.len() != LINE_BYTES {
        return Err(Refusal::LineBytes);
    }
    match (0..LINE_BYTES).find(|&place| !allowed(line, place)) {
        Some(place) => Err(Refusal::WrongByte(Place(place as u8))),
        None => Ok(()),
    }
}
