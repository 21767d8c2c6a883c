//! Writing: from fields to their line.

use super::line::{right_bytes, Place, AXLES, BLIND, CLASS, LANE, LINE_BYTES, PLATE, TIME};
use super::Numbers;
use crate::operations::long_enough;
use crate::refusal::Refusal;

/// Refusal 15: a plate of other than 10 bytes or a blind of other than 32, also
/// where both together would fill the line.
fn right_sizes(plate: &[u8], blind: &[u8]) -> Result<(), Refusal> {
    if plate.len() != PLATE.len() || blind.len() != BLIND.len() {
        return Err(Refusal::LineBytes);
    }
    Ok(())
}

/// Refusal 16 for numbers: "in writing, a number too great for its digits, or
/// class 0, gives its field's first byte". They are looked through in the order
/// of the line, so that the lowest byte is returned.
fn right_numbers(numbers: Numbers) -> Result<(), Refusal> {
    let faults = [
        (numbers.lane > 999, LANE),
        (numbers.time > 9_999_999_999, TIME),
        (numbers.class == 0 || numbers.class > 9, CLASS),
        (numbers.axles > 99, AXLES),
    ];
    for (fault, field) in faults {
        if fault {
            return Err(Refusal::WrongByte(Place(field.start as u8)));
        }
    }
    Ok(())
}

/// The line of numbers that fit their digits.
fn line(numbers: Numbers, plate: &[u8], blind: &[u8]) -> Vec<u8> {
    let Numbers {
        lane,
        time,
        class,
        axles,
    } = numbers;
    let front = format!("{lane:03},{time:010},{class},{axles:02},");
    [front.as_bytes(), plate, b",", blind].concat()
}

/// The line of these fields into the first 63 bytes: refusals 15, 16, 17, 4.
/// Plate and blind stand after all numbers, so that a wrong byte of theirs
/// comes after a wrong number.
pub fn write(
    numbers: Numbers,
    plate: &[u8],
    blind: &[u8],
    buffer: &mut [u8],
) -> Result<(), Refusal> {
    right_sizes(plate, blind)?;
    right_numbers(numbers)?;
    let line = line(numbers, plate, blind);
    right_bytes(&line)?;
    numbers.high_enough()?;
    long_enough(buffer, LINE_BYTES)?;
    buffer[..LINE_BYTES].copy_from_slice(&line);
    Ok(())
}
