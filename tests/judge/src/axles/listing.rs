//! The programs `axle_rows` and `axle_steps`: they "do for the circuit of axles
//! between two bounds what `rows` and `steps` do for a record's". The papers do
//! not have them; their format is docs/STEPS.md.

use std::ops::Range;

use super::rows::{all, forms};
use super::{length, row_count, Bounds};
use crate::listing::{asked, parse, print_rows, refused};
use crate::refusal::Refusal;
use crate::steps::print_steps;

/// The line `lower,upper,first,how many`: refusals 1, 18, 3.
fn accept(input: &[u8]) -> Result<(Bounds, Range<usize>), Refusal> {
    let [lower, upper, first, how_many] = parse(input)?;
    let bounds = Bounds::new(lower, upper)?;
    Ok((bounds, asked(first, how_many, row_count())?))
}

/// All that the program `axle_rows` prints for what stood on standard input.
pub fn axle_rows(input: &[u8]) -> String {
    match accept(input) {
        Ok((bounds, asked)) => print_rows(asked, || all(bounds)),
        Err(refusal) => refused(refusal),
    }
}

/// All that the program `axle_steps` prints for what stood on standard input.
pub fn axle_steps(input: &[u8]) -> String {
    match accept(input) {
        Ok((_, asked)) => print_steps(length(), &forms(), asked),
        Err(refusal) => refused(refusal),
    }
}
