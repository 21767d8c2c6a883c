//! The wires of the circuit, worked out from the record and the bounds alone and
//! from no row.

use super::band::{Axles, Billed};
use super::{Bounds, APPENDED_WIRES, NUMBER_BITS};
use crate::layout;

/// The four numbers that are appended, of axles that lie within the bounds.
fn numbers(bounds: Bounds, axles: Axles) -> [u8; 4] {
    [
        9 - axles.tens,
        9 - axles.units,
        axles.number() - bounds.lower(),
        bounds.upper() - axles.number(),
    ]
}

/// The 22 wires that are appended, each number "highest bit first".
pub fn appended(bounds: Bounds, axles: Axles) -> [u8; APPENDED_WIRES] {
    let mut wires = Vec::with_capacity(APPENDED_WIRES);
    for (number, bits) in numbers(bounds, axles).into_iter().zip(NUMBER_BITS) {
        wires.extend((0..bits).rev().map(|place| number >> place & 1));
    }
    wires.try_into().expect("22 bits")
}

/// The value, 0 or 1, of every wire.
pub fn wires(billed: &Billed) -> Vec<u8> {
    let mut wires = layout::wires(&billed.record);
    wires.extend(appended(billed.bounds, billed.axles));
    wires
}

/// The assignment, into a buffer that is long enough; bytes past it stay.
pub fn write_assignment(billed: &Billed, buffer: &mut [u8]) {
    layout::write_wires(&wires(billed), buffer);
}
