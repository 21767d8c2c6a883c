//! Reading: from a line to its fields.

use std::ops::Range;

use super::line::{right_bytes, AXLES, BLIND, CLASS, LANE, PLATE, TIME};
use super::Numbers;
use crate::refusal::Refusal;

/// What a line says, "plate and blind as their bytes in the line".
#[derive(Clone, Copy, Debug, PartialEq, Eq)]
pub struct Passage<'a> {
    pub numbers: Numbers,
    pub plate: &'a [u8],
    pub blind: &'a [u8],
}

/// The number that some digits write.
fn number(line: &[u8], field: Range<usize>) -> u64 {
    let digits = line[field].iter().map(|&byte| u64::from(byte - b'0'));
    digits.fold(0, |number, digit| 10 * number + digit)
}

/// The fields of a line: refusals 15, 16, 17.
pub fn read(line: &[u8]) -> Result<Passage<'_>, Refusal> {
    right_bytes(line)?;
    let numbers = Numbers {
        lane: number(line, LANE),
        time: number(line, TIME),
        class: number(line, CLASS),
        axles: number(line, AXLES),
    };
    numbers.high_enough()?;
    Ok(Passage {
        numbers,
        plate: &line[PLATE],
        blind: &line[BLIND],
    })
}
