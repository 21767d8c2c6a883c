//! Right claims with entries changed: the appended ones, those of the digits'
//! bytes, and any.

use std::ops::Range;

use host::axles::Pair;
use judge::axles::{check_with, rows};
use judge::field::P;
use judge::forms::{RowTable, Wire};
use judge::record::Record;
use judge::refusal::Refusal;

use super::calls::Held;
use super::claims::{
    bounds, claim_answer, digits, fill, record, right, right_entries, some_axles, some_pair,
    unsatisfied, Number, LINE_BITS, NUMBERS, WIRES,
};
use crate::answers;
use crate::calls::Calls;
use crate::claim::{Claim, Ground};
use crate::damage::{NO_BITS, WAYS};
use crate::forge::forge;
use crate::kinds;
use crate::limits::TWO;
use crate::prime::{self, FROM_PRIME};
use crate::random::Random;

/// The wires of the two digits' bytes.
const DIGIT_WIRES: Range<usize> = 649..665;

/// Bounds, a number of axles within them, and its claim.
fn some_claim(random: &mut Random) -> (Pair, u8, Claim) {
    let pair = some_pair(random);
    let axles = some_axles(pair, random);
    (pair, axles, right(pair, axles, random))
}

/// What a claim must be answered with that appended wire set to a value in the
/// place of the right bit: its bit row refuses what is no bit, the sum row the
/// other bit; and what is not below p is refused before any row.
fn answer(wire: usize, value: u64) -> Refusal {
    let has = |number: &&Number| wire < number.wire + number.bits;
    let number = NUMBERS.iter().find(has).expect("an appended wire");
    match value {
        P.. => Refusal::NotBelowPrime(Wire((WIRES + wire) as u32)),
        0 | 1 => unsatisfied(number.sum_row()),
        _ => unsatisfied(number.bit_row(wire - number.wire)),
    }
}

/// Each appended wire of a right claim set to other values.
pub fn each_appended(calls: &mut Calls, count: usize) {
    for _ in 0..count {
        let (pair, axles, mut claim) = some_claim(&mut calls.random);
        for (wire, right) in right_entries(pair, axles).into_iter().enumerate() {
            for value in [1 - right].into_iter().chain(NO_BITS).chain(FROM_PRIME) {
                claim.set(WIRES + wire, value);
                claim.note = format!("{axles} axles, appended wire {wire} set to {value}");
                let judged = claim_answer(pair, &claim);
                let known = answers::plain(Err(answer(wire, value)));
                calls.must_answer(known, answers::plain(judged), &claim.note);
                calls.axles_check(judged, pair, &claim);
                calls.tally.count("appended wires set to other values", 1);
            }
            claim.set(WIRES + wire, right);
        }
    }
}

/// The whole circuit under these bounds.
fn circuit(ground: &mut Ground, pair: Pair) -> &RowTable {
    rows::rebind(&mut ground.table, bounds(pair));
    &ground.table
}

/// A claim checked by the library and by all rows of the judge.
pub fn check(
    calls: &mut Calls,
    table: &RowTable,
    pair: Pair,
    claim: &Claim,
) -> Result<(), Refusal> {
    let judged = check_with(table, &claim.digest, &claim.assignment);
    calls.axles_check(judged, pair, claim);
    judged
}

/// Each wire of the digits' bytes changed: turned over, also with the appended
/// wires of the digits that are then read, and set to what is no bit.
pub fn each_digit_wire(calls: &mut Calls, ground: &mut Ground) {
    let pair = [2, 99];
    let table = circuit(ground, pair);
    let right = right(pair, 45, &mut calls.random);
    for wire in DIGIT_WIRES {
        let turned = 1 - right.entry(wire);
        for value in [turned + P, u64::MAX] {
            prime::refused(calls, &right.with(wire, value), &|calls, claim| {
                check(calls, table, pair, claim)
            });
        }
        for value in [turned, 2, 3, 1 << 60, P - 1] {
            let claim = right.with(wire, value);
            let judged = check(calls, table, pair, &claim);
            calls.must_be(9, judged, &claim.note);
            calls.tally.count("wires of digits changed", 1);
        }
        let mut claim = right.clone();
        claim.set(wire, turned);
        if let Some(other) = read_axles(&claim) {
            fill(&mut claim, &right_entries(pair, other));
            claim.note = format!("wire {wire} turned over, and {other} axles appended");
            let judged = check(calls, table, pair, &claim);
            calls.must_be(9, judged, &claim.note);
        }
    }
}

/// Entries of p or more: so many wires of every kind of the record's and each
/// appended one with each of them, and forty times as many claims with several.
pub fn from_prime(calls: &mut Calls, ground: &mut Ground, count: usize) {
    let (pair, _, right) = some_claim(&mut calls.random);
    let mut wires = kinds::wires(ground.length, count, &mut calls.random);
    wires.extend(WIRES..right.wires());
    let table = circuit(ground, pair);
    prime::all(calls, &right, &wires, 40 * count, &|calls, claim| {
        check(calls, table, pair, claim)
    });
}

/// The axles, 2 to 99, that stand on the wires of the digits, which are bits.
fn read_axles(claim: &Claim) -> Option<u8> {
    let digit = |first: usize| (0..4).fold(0, |digit, k| 2 * digit + claim.entry(first + k));
    let [tens, units] = [653, 661].map(digit);
    let axles = 10 * tens + units;
    (tens < 10 && units < 10 && axles >= 2).then_some(axles as u8)
}

/// A right claim damaged in every way that a record's is, so many times; and
/// with wires turned over on the way.
pub fn any_entries(calls: &mut Calls, ground: &mut Ground, count: usize) {
    for _ in 0..count {
        let (pair, axles, right) = some_claim(&mut calls.random);
        rows::rebind(&mut ground.table, bounds(pair));
        for (_, damage) in WAYS {
            let mut claim = right.clone();
            damage(ground, &mut claim, &mut calls.random);
            let _ = check(calls, &ground.table, pair, &claim);
            calls.tally.count("axle claims damaged", 1);
        }
        let bytes = record(digits(axles), &mut calls.random);
        let of = Record::whole(&bytes).expect("63 bytes");
        let turned = [calls.random.range(257, WIRES)];
        let mut claim = forge(&of, &turned);
        claim.assignment.resize(right.assignment.len(), 0);
        fill(&mut claim, &right_entries(pair, axles));
        let _ = check(calls, &ground.table, pair, &claim);
        calls.tally.count("axle claims damaged", 1);
    }
}

/// What a record of 504 bits has: too short, and with other entries behind it;
/// and the axle claim as that of a record, too long and cut off.
pub fn plain_records(calls: &mut Calls, ground: &Ground, count: usize) {
    for _ in 0..count {
        let (pair, _, right) = some_claim(&mut calls.random);
        let (mut claim, all) = (right.clone(), right.assignment.len());
        for size in [8 * WIRES, all - 8, all - 1, all + 1, all + 8, 0] {
            claim.assignment.resize(size, 0);
            claim.note = format!("{size} bytes");
            calls.axles_check(Err(Refusal::AssignmentBytes), pair, &claim);
        }
        claim.assignment = right.assignment[..8 * WIRES].to_vec();
        let table = &ground.table;
        let Claim {
            digest, assignment, ..
        } = &right;
        let judged = calls.check(table, TWO, LINE_BITS, digest, assignment, "an axle claim");
        calls.must_be(6, judged, "an axle claim to the record's check");
        let assignment = &claim.assignment;
        let judged = calls.check(table, TWO, LINE_BITS, digest, assignment, "cut off");
        calls.must_be(0, judged, "an axle claim cut off");
        let random = calls.random.bytes(all - 8 * WIRES);
        let field = (WIRES..right.wires()).flat_map(|_| calls.random.field().to_le_bytes());
        let field: Vec<u8> = field.collect();
        for more in [vec![0; all - 8 * WIRES], field, random] {
            claim.assignment.truncate(8 * WIRES);
            claim.assignment.extend(more);
            claim.note = String::from("a record's own with any entries behind it");
            let judged = claim_answer(pair, &claim);
            calls.axles_check(judged, pair, &claim);
        }
        calls.tally.count("records without appended wires", 1);
    }
}

/// One claim against each digest with one bit turned over: refusal 8.
pub fn digest_bits(calls: &mut Calls) {
    let (pair, _, claim) = some_claim(&mut calls.random);
    for bit in 0..256 {
        let mut digest = claim.digest;
        digest[bit / 8] ^= 0x80 >> (bit % 8);
        let held = Held::new(&digest, &claim.assignment, &mut calls.random);
        let note = format_args!("bit {bit} of the digest turned over");
        calls.axles_check_held(Err(Refusal::DigestWire), pair, &held, note);
    }
}

/// So many claims whose digest is 32 bytes of the assignment itself. The digest
/// wires have its bits, so that the check comes to the rows.
pub fn overlapping(calls: &mut Calls, ground: &mut Ground, count: usize) {
    for _ in 0..count {
        let (pair, _, mut claim) = some_claim(&mut calls.random);
        let at = calls.random.range(8 * 257, claim.assignment.len() - 31);
        claim.digest.copy_from_slice(&claim.assignment[at..at + 32]);
        claim.set_digest_wires();
        let table = circuit(ground, pair);
        let judged = check_with(table, &claim.digest, &claim.assignment);
        calls.axles_check_own_bytes(judged, pair, &claim.assignment, at);
    }
}
