//! "Each call that takes a record or a record's length names its caller's limit in
//! blocks." A limit says which lengths are in range and nothing else: no wire, row
//! or digest asks for it.

use crate::length::Length;
use crate::record::Record;
use crate::refusal::Refusal;

/// "A partner road accepts two blocks at most": the passage and axle calls use it.
pub const TWO: u64 = 2;

/// "Our own sixteen stand": `rows`, `steps` and `packed` use it. It is the greatest
/// limit, and every length in range fits.
pub const SIXTEEN: u64 = 16;

/// What every operation asks of a limit and a length, in this order: 21, "a limit
/// outside 1 to 16, before 2"; 2; what is asked of the record that is handed over,
/// if one is, 13 and 14; and 22, "a length that needs more blocks than the limit,
/// directly after 14". Both numbers are compared as they come, 64 bits wide.
fn allowed<T>(
    limit: u64,
    bits: u64,
    handed_over: impl FnOnce(Length) -> Result<T, Refusal>,
) -> Result<T, Refusal> {
    if !(1..=SIXTEEN).contains(&limit) {
        return Err(Refusal::Limit);
    }
    let length = Length::new(bits)?;
    let handed_over = handed_over(length)?;
    if length.blocks() as u64 > limit {
        return Err(Refusal::TooManyBlocks);
    }
    Ok(handed_over)
}

/// A length that the limit allows: refusals 21, 2, 22.
pub fn length(limit: u64, bits: u64) -> Result<Length, Refusal> {
    allowed(limit, bits, Ok)
}

/// A record that the limit allows: refusals 21, 2, 13, 14, 22.
pub fn record(limit: u64, bits: u64, bytes: &[u8]) -> Result<Record, Refusal> {
    allowed(limit, bits, |length| Record::of(length, bytes))
}
