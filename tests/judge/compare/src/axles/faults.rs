//! All choices of the faults of 13, 18, 19 and 4 in produce, and of 18, 5, 6, 20,
//! 7, 8 and 9 in the check. The first fault in this order must be returned. Sizes
//! on both sides of the right ones.

use host::axles::Pair;
use judge::axles::{self, check_with, rows, RECORD_BYTES};
use judge::refusal::Refusal;

use super::calls::{Held, Room};
use super::claims::{bounds, digits, record, right, some_axles, some_pair, LINE_BITS};
use crate::calls::Calls;
use crate::random::Random;
use crate::refusals::{choices, faulty, first};

/// A record with the faults of 13 and 19 that are chosen. Those of 19 are faults
/// under any bounds: bytes that are no digits, or axles below all bounds.
fn some_record(faults: &[u8], pair: Pair, random: &mut Random) -> Vec<u8> {
    let bytes = match faults.contains(&19) {
        true => random.pick(&[
            *b"00", *b"01", *b":0", *b"0:", *b"/5", *b"5/", *b"  ", [0xb5; 2],
        ]),
        false => digits(some_axles(pair, random)),
    };
    let mut record = record(bytes, random);
    if faults.contains(&13) {
        let sizes = [0, 1, 17, 18, 19, 62, 64, 65, 126, 255, RECORD_BYTES + 256];
        record.resize(random.pick(&sizes), b'0');
    }
    record
}

/// Produce with every choice of faults, so many times.
pub fn produces(calls: &mut Calls, wrong: &[Pair], times: usize) {
    let exact = axles::assignment_bytes();
    for faults in choices(&[13, 18, 19, 4], times) {
        let right = some_pair(&mut calls.random);
        let record = some_record(&faults, right, &mut calls.random);
        let pair = match faults.contains(&18) {
            true => calls.random.pick(wrong),
            false => right,
        };
        let short = calls.random.pick(&[0, 1, 8, 364_552, exact - 8, exact - 1]);
        let long = calls.random.pick(&[exact, exact + 1, exact + 100]);
        let out_len = if faults.contains(&4) { short } else { long };
        let note = format!("the faults of refusals {faults:?}");
        let judged = calls.axles_produce(pair, &record, out_len, &note);
        calls.must_be(first(&faults), judged, &note);
        calls
            .tally
            .count("axle calls with every choice of faults", 1);
    }
}

/// The check with every choice of faults, so many times.
pub fn checks(calls: &mut Calls, wrong: &[Pair], times: usize) {
    let mut table = rows::all(bounds([2, 99]));
    for faults in choices(&[18, 5, 6, 20, 7, 8, 9], times) {
        let has = |refusal| faults.contains(&refusal);
        let pair = some_pair(&mut calls.random);
        let axles = some_axles(pair, &mut calls.random);
        let right = right(pair, axles, &mut calls.random);
        let claim = faulty(calls, &right, LINE_BITS, has);
        rows::rebind(&mut table, bounds(pair));
        let judged = match has(18) {
            true => Err(Refusal::Bounds),
            false => check_with(&table, &claim.digest, &claim.assignment),
        };
        let pair = if has(18) {
            calls.random.pick(wrong)
        } else {
            pair
        };
        let note = format!("the faults of refusals {faults:?}");
        let held = Held::new(&claim.digest, &claim.assignment, &mut calls.random);
        calls.axles_check_held(judged, pair, &held, &note);
        calls.must_be(first(&faults), judged, &note);
        calls
            .tally
            .count("axle calls with every choice of faults", 1);
    }
}

/// Records of 0 to 130 bytes and longer ones, without room and in a room.
pub fn record_sizes(calls: &mut Calls) {
    let mut room = Room::new(&mut calls.random);
    for size in (0..=130).chain([319, 65_599]) {
        let mut record = record(*b"05", &mut calls.random);
        record.resize(size, b'5');
        let judged = calls.axles_produce_nothing([2, 99], &record, &mut room, "any size");
        let must = if size == RECORD_BYTES { 4 } else { 13 };
        calls.must_be(must, judged, "a record of any size");
    }
}

/// Buffers of the producer short, exact and longer.
pub fn buffers(calls: &mut Calls) {
    let exact = axles::assignment_bytes();
    let record = record(*b"05", &mut calls.random);
    for size in [
        0,
        1,
        8,
        364_552,
        exact - 8,
        exact - 1,
        exact,
        exact + 1,
        exact + 64,
    ] {
        let judged = calls.axles_produce([2, 99], &record, size, "any buffer");
        calls.must_be(if size < exact { 4 } else { 0 }, judged, "any buffer");
    }
}

/// Digests and assignments of other sizes to the check, each with each.
pub fn check_sizes(calls: &mut Calls) {
    let pair = some_pair(&mut calls.random);
    let axles = some_axles(pair, &mut calls.random);
    let right = right(pair, axles, &mut calls.random);
    let exact = right.assignment.len();
    for digest_len in [0, 1, 31, 32, 33, 64, 256 + 32] {
        for size in [
            0,
            8,
            364_552,
            exact - 8,
            exact - 1,
            exact,
            exact + 1,
            exact + 8,
        ] {
            let (mut digest, mut assignment) = (right.digest.to_vec(), right.assignment.clone());
            digest.resize(digest_len, 0);
            assignment.resize(size, 0);
            let known = match (digest_len == 32, size == exact) {
                (false, _) => Err(Refusal::DigestBytes),
                (true, false) => Err(Refusal::AssignmentBytes),
                (true, true) => Ok(()),
            };
            let held = Held::new(&digest, &assignment, &mut calls.random);
            let note = format_args!("a digest of {digest_len} bytes, an assignment of {size}");
            calls.axles_check_held(known, pair, &held, note);
        }
    }
}
