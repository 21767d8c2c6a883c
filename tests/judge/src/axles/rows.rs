//! The rows of the circuit: those of a record of 504 bits, then 34 appended.

use super::{length, Bounds, DIGITS, NUMBER_BITS};
use crate::forms::{weighted, RowTable, Weighted, Wire, ONE};
use crate::rows;
use crate::steps::Form;

/// Where the block bits begin, and so the record's.
const RECORD: usize = 513;

/// So many wires, from one on.
fn run(first: usize, count: usize) -> Vec<Wire> {
    (first..first + count)
        .map(|wire| Wire(wire as u32))
        .collect()
}

/// The wires of a digit's byte: its high half, then its low half, and "a digit
/// is its byte's low half".
struct Digit {
    high: Vec<Wire>,
    low: Vec<Wire>,
}

impl Digit {
    /// That byte of the record.
    fn at(byte: usize) -> Digit {
        let first = RECORD + 8 * byte;
        Digit {
            high: run(first, 4),
            low: run(first + 4, 4),
        }
    }

    /// So many times the digit.
    fn times(&self, factor: i64) -> impl Iterator<Item = Weighted> + '_ {
        weighted(&self.low, factor)
    }

    /// "9 minus the digit."
    fn nine_minus(&self) -> Vec<Weighted> {
        [(ONE, 9)].into_iter().chain(self.times(-1)).collect()
    }
}

/// So many times the axles, which are ten times the tens and the units, and a
/// number added.
fn axles([tens, units]: &[Digit; 2], factor: i64, plus: i64) -> Vec<Weighted> {
    let digits = tens.times(10 * factor).chain(units.times(factor));
    [(ONE, plus)].into_iter().chain(digits).collect()
}

/// The 34 rows behind the rows of the record: "fixed rows holding the high half
/// of both digit bytes, tens first, at 3, then for each of the four numbers its
/// bit rows and a sum row of value minus bits".
fn append(table: &mut RowTable, bounds: Bounds) {
    let digits = [DIGITS.start, DIGITS.start + 1].map(Digit::at);
    for digit in &digits {
        for (&wire, bit) in digit.high.iter().zip([false, false, true, true]) {
            table.fixed(wire, bit);
        }
    }
    let (lower, upper) = (i64::from(bounds.lower()), i64::from(bounds.upper()));
    let values = [
        digits[0].nine_minus(),
        digits[1].nine_minus(),
        axles(&digits, 1, -lower),
        axles(&digits, -1, upper),
    ];
    let mut next = length().wires();
    for (value, bits) in values.iter().zip(NUMBER_BITS) {
        table.number(value, &run(next, bits));
        next += bits;
    }
}

/// The 34 appended rows alone, in order. Only they depend on the bounds.
pub fn appended(bounds: Bounds) -> RowTable {
    let mut table = RowTable::default();
    append(&mut table, bounds);
    table
}

/// All rows of the circuit, in order.
pub fn all(bounds: Bounds) -> RowTable {
    let mut table = rows::rows(length());
    append(&mut table, bounds);
    table
}

/// The same circuit under other bounds: its last 34 rows are put anew.
pub fn rebind(table: &mut RowTable, bounds: Bounds) {
    table.truncate(length().rows());
    append(table, bounds);
}

/// The forms of the appended rows, by their names in docs/STEPS.md.
pub(crate) fn forms() -> Vec<Form> {
    let mut forms = vec![Form::Fixed; 8];
    for bits in NUMBER_BITS {
        forms.extend(vec![Form::Bit; bits]);
        forms.push(Form::Sum);
    }
    forms
}
