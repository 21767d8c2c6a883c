//! Sealed lines: what seal writes and where, and the check of it, beside that
//! of the row library at 504 bits.

use judge::check::check_with;
use judge::refusal::Refusal;

use super::calls::{ASSIGNMENT_BYTES, EXACT, LINE_BITS};
use super::fields::Fields;
use crate::calls::Calls;
use crate::claim::{Claim, Ground};
use crate::damage::WAYS;
use crate::kinds;
use crate::prime;
use crate::refusals::{choices, faulty, first};
use crate::sections::enough;

/// The rows of a line's length.
pub fn ground() -> Ground {
    Ground::new(LINE_BITS)
}

/// A claim checked by both libraries and by the judge.
fn check(calls: &mut Calls, ground: &Ground, claim: &Claim) -> Result<(), Refusal> {
    let Claim {
        digest,
        assignment,
        note,
    } = claim;
    let judged = check_with(&ground.table, ground.length, assignment, digest);
    calls.passage_check(judged, digest, assignment, note);
    judged
}

/// What the library sealed of a random right line.
fn sealed(calls: &mut Calls) -> Claim {
    let line = Fields::random(&mut calls.random).line();
    let sizes = EXACT.map(|exact| enough(calls, exact));
    let (judged, [digest, mut assignment]) = calls.passage_seal(&line, sizes, "a right line");
    calls.must_answer(0, judged, "a right line");
    assignment.truncate(ASSIGNMENT_BYTES);
    let mut claim = Claim {
        digest: [0; 32],
        assignment,
        note: String::from("what seal wrote"),
    };
    claim.digest.copy_from_slice(&digest[..32]);
    claim
}

/// So many lines sealed; what was written is accepted as it is, and is 20 with
/// multiples of p added.
pub fn right(calls: &mut Calls, ground: &Ground, count: usize) {
    for _ in 0..count {
        let claim = sealed(calls);
        let judged = check(calls, ground, &claim);
        calls.must_be(0, judged, "what seal wrote");
        prime::shifted(calls, claim, &|calls, claim| check(calls, ground, claim));
        calls.tally.count("lines sealed and accepted", 1);
    }
}

/// Entries of p or more in a sealed line's assignment: so many wires of every
/// kind with each of them, and forty times as many claims with several.
pub fn from_prime(calls: &mut Calls, ground: &Ground, count: usize) {
    let right = sealed(calls);
    let wires = kinds::wires(ground.length, count, &mut calls.random);
    prime::all(calls, &right, &wires, 40 * count, &|calls, claim| {
        check(calls, ground, claim)
    });
}

/// So many damages of a sealed line in every way.
pub fn damages(calls: &mut Calls, ground: &Ground, count: usize) {
    let right = sealed(calls);
    for (_, damage) in WAYS {
        for _ in 0..count {
            let mut claim = right.clone();
            damage(ground, &mut claim, &mut calls.random);
            let _ = check(calls, ground, &claim);
            calls.tally.count("sealed lines damaged", 1);
        }
    }
}

/// Each bit of the digest turned over, all else right: refusal 8.
pub fn digest_bits(calls: &mut Calls, ground: &Ground) {
    let right = sealed(calls);
    for bit in 0..256 {
        let mut claim = right.clone();
        claim.digest[bit / 8] ^= 0x80 >> (bit % 8);
        claim.note = format!("bit {bit} of the digest turned over");
        let judged = check(calls, ground, &claim);
        calls.must_be(8, judged, &claim.note);
    }
}

/// The buffers of seal on both sides of their right sizes, each with each: with
/// one of them too short nothing is written into the other either.
pub fn buffers(calls: &mut Calls) {
    let line = Fields::random(&mut calls.random).line();
    let [digest, assignment] = EXACT;
    for digest_len in [0, 1, digest - 1, digest, digest + 1, 2 * digest] {
        for assignment_len in [0, 8, assignment - 1, assignment, assignment + 1] {
            let sizes = [digest_len, assignment_len];
            let (judged, _) = calls.passage_seal(&line, sizes, "any buffers");
            let short = digest_len < digest || assignment_len < assignment;
            calls.must_answer(if short { 4 } else { 0 }, judged, "any buffers");
        }
    }
}

/// Check with digests and assignments of other sizes, each with each.
pub fn sizes(calls: &mut Calls, ground: &Ground) {
    let right = sealed(calls);
    let one_block = 8 * (513 + 22_528);
    let exact = ASSIGNMENT_BYTES;
    for digest_len in [0, 1, 31, 32, 33, 64, 256 + 32] {
        for size in [
            0,
            8,
            one_block,
            exact - 8,
            exact - 1,
            exact,
            exact + 1,
            exact + 8,
        ] {
            let (mut digest, mut assignment) = (right.digest.to_vec(), right.assignment.clone());
            digest.resize(digest_len, 0);
            assignment.resize(size, 0);
            let judged = check_with(&ground.table, ground.length, &assignment, &digest);
            let note = format!("a digest of {digest_len} bytes, an assignment of {size}");
            calls.passage_check(judged, &digest, &assignment, &note);
            let must = match (digest_len == 32, size == exact) {
                (false, _) => 5,
                (true, false) => 6,
                (true, true) => 0,
            };
            calls.must_be(must, judged, &note);
        }
    }
}

/// Check with every choice of the faults of 5, 6, 20, 7, 8, 9, so many times.
pub fn faults(calls: &mut Calls, ground: &Ground, times: usize) {
    let right = sealed(calls);
    for faults in choices(&[5, 6, 20, 7, 8, 9], times) {
        let has = |refusal| faults.contains(&refusal);
        let claim = faulty(calls, &right, LINE_BITS, has);
        let (digest, assignment) = (&claim.digest, &claim.assignment);
        let judged = check_with(&ground.table, ground.length, assignment, digest);
        let note = format!("the faults of refusals {faults:?}");
        calls.passage_check(judged, digest, assignment, &note);
        calls.must_be(first(&faults), judged, &note);
    }
}

/// Records of 504 bits that are no passages, which the check accepts, and those
/// of other lengths with two blocks, which it does not: every `step`-th one and
/// those near.
pub fn other_records(calls: &mut Calls, ground: &Ground, step: usize) {
    let near = [448, 496, 502, 503, 504, 505, 511, 512, 513, 959];
    for bits in near.into_iter().chain((448..960).step_by(step)) {
        let mut claim = Claim::of(&calls.random.record(bits));
        claim.note = format!("the claim of a record of {bits} bits");
        let judged = check(calls, ground, &claim);
        calls.must_be(if bits == LINE_BITS { 0 } else { 9 }, judged, &claim.note);
    }
}

/// So many claims whose digest is 32 bytes of the assignment itself. The digest
/// wires have its bits, so that the check comes to the rows.
pub fn overlapping(calls: &mut Calls, ground: &Ground, times: usize) {
    for _ in 0..times {
        let mut claim = sealed(calls);
        let at = calls.random.range(8 * 257, claim.assignment.len() - 31);
        claim.digest.copy_from_slice(&claim.assignment[at..at + 32]);
        claim.set_digest_wires();
        let (digest, assignment) = (&claim.digest, &claim.assignment);
        let judged = check_with(&ground.table, ground.length, assignment, digest);
        calls.passage_check_own_bytes(judged, assignment, at);
    }
}
