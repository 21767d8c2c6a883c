//! Helpers of the self checks of axles between two bounds: records of so many
//! axles and what is produced of them.

use judge::axles::{produce, Bounds};
use judge::forms::RowNumber;
use judge::record::Record;
use judge::refusal::Refusal;
use judge::sm3;

use super::OLD;

/// A passage with its axles left to be set.
pub const LINE: &[u8; 63] = b"042,1700000000,3,__,AB12345---,0123456789abcdef0123456789abcdef";

/// The bytes of an assignment, 8 × 45,591, and where the appended rows begin.
pub const ASSIGNMENT: usize = 364_728;
pub const APPENDED: u32 = 65_152;

pub fn bounds(lower: u64, upper: u64) -> Bounds {
    Bounds::new(lower, upper).expect("right bounds")
}

/// The passage with these two bytes for its axles.
pub fn with_bytes(tens: u8, units: u8) -> Vec<u8> {
    let mut line = LINE.to_vec();
    line[17] = tens;
    line[18] = units;
    line
}

/// The passage of so many axles.
pub fn line(axles: u8) -> Vec<u8> {
    with_bytes(b'0' + axles / 10, b'0' + axles % 10)
}

pub fn digest(record: &[u8]) -> [u8; 32] {
    sm3::hash(&Record::whole(record).unwrap())
}

pub fn produced(lower: u64, upper: u64, record: &[u8]) -> Result<Vec<u8>, Refusal> {
    let mut buffer = vec![OLD; ASSIGNMENT];
    produce(lower, upper, record, &mut buffer).map(|()| buffer)
}

pub fn unsatisfied(row: u32) -> Result<(), Refusal> {
    Err(Refusal::Unsatisfied(RowNumber(row)))
}

/// All pairs of right bounds.
pub fn all_bounds() -> impl Iterator<Item = (u64, u64)> {
    (2..=99).flat_map(|lower| (lower..=99).map(move |upper| (lower, upper)))
}

/// The bits of four numbers, each without what is too great for them.
pub fn bits_of(numbers: [i32; 4]) -> Vec<u8> {
    let places = [4, 4, 7, 7];
    let bits = |(number, count): (i32, i32)| (0..count).rev().map(move |k| (number >> k & 1) as u8);
    numbers.into_iter().zip(places).flat_map(bits).collect()
}
