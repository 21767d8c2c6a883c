//! Sealing: a line's digest and assignment; and the check "of an assignment of a
//! line's length against a digest by document 01's check".

use super::line::LINE_BYTES;
use super::read;
use crate::check;
use crate::limit::{self, TWO};
use crate::operations::{self, long_enough, DIGEST_BYTES};
use crate::refusal::Refusal;

/// The bits of a line. Its two blocks are what the limit of these calls allows.
const LINE_BITS: u64 = 8 * LINE_BYTES as u64;

/// The digest of a line into 32 bytes and its assignment into 364,552:
/// refusals 15, 16, 17, 4. 4 is for either buffer, before either is written.
pub fn seal(line: &[u8], digest: &mut [u8], assignment: &mut [u8]) -> Result<(), Refusal> {
    read(line)?;
    let record = limit::record(TWO, LINE_BITS, line)?;
    long_enough(digest, DIGEST_BYTES)?;
    long_enough(assignment, record.length().assignment_bytes())?;
    operations::digest(TWO, LINE_BITS, line, digest)?;
    operations::produce(TWO, LINE_BITS, line, assignment)
}

/// `Ok` when the assignment is accepted against the digest: refusals 5, 6, 20,
/// 7, 8, 9.
pub fn check(digest: &[u8], assignment: &[u8]) -> Result<(), Refusal> {
    check::check(TWO, LINE_BITS, assignment, digest)
}
