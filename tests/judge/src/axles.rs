//! "Axles between two bounds": the circuit "for a record of a passage's length,
//! with bounds from 2 to 99". It is the circuit of a record of 504 bits with 22
//! wires and 34 rows appended, by which "both bytes are digits and the axles lie
//! within the bounds, ends included".
//!
//! * `bounds`: two bounds, refusal 18.
//! * `band`: which records meet the bounds, refusals 13, 18, 19.
//! * `layout`: the appended wires, from the axles and the bounds alone.
//! * `rows`: the appended rows, behind those of the record.
//! * `operations`: row, produce and check on lent buffers.
//! * `listing`: the programs `axle_rows` and `axle_steps`.

pub mod band;
pub mod bounds;
pub mod layout;
pub mod listing;
mod operations;
pub mod rows;

pub use bounds::Bounds;
pub use operations::{check, check_with, produce, row, row_with};

use std::ops::Range;

use crate::length::Length;
use crate::limit::{self, TWO};
use crate::passage::line::{AXLES, LINE_BYTES};

/// "A record of other than 63 bytes is 13 here."
pub const RECORD_BYTES: usize = LINE_BYTES;

/// The bytes of the two digits in a record, the tens first: a passage's axles.
pub const DIGITS: Range<usize> = AXLES;

/// "Append 22 wires"; "append 34 rows".
pub const APPENDED_WIRES: usize = 22;
pub const APPENDED_ROWS: usize = 34;

/// The bits of the four numbers, in their order: "9 minus the tens digit, 9
/// minus the units digit (4 bits each), axles minus the lower bound, upper bound
/// minus axles (7 bits each)".
const NUMBER_BITS: [usize; 4] = [4, 4, 7, 7];

/// The length of the record, in bits: two blocks, which the limit of these calls
/// allows.
pub fn length() -> Length {
    limit::length(TWO, 8 * RECORD_BYTES as u64).expect("a passage is in range")
}

/// All wires and all rows of the circuit, and the bytes of an assignment.
pub fn wires() -> usize {
    length().wires() + APPENDED_WIRES
}

pub fn row_count() -> usize {
    length().rows() + APPENDED_ROWS
}

pub fn assignment_bytes() -> usize {
    8 * wires()
}
