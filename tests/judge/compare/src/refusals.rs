//! Every refusal with every later fault present as well, and numbers and
//! sizes on both sides of each right one.

use judge::field::P;
use judge::length::{Length, LONGEST};
use judge::operations::{DIGEST_BYTES, ROW_BYTES};
use judge::refusal::Refusal;

use crate::calls::Calls;
use crate::claim::{Claim, Ground};
use crate::limits::{self, SIXTEEN};
use crate::prime;
use crate::random::Random;
use crate::records;

/// Lengths out of range. Some would be in range after losing upper bits, some
/// after a sum that passes 2^64: so many more bits would round up to 0 bytes,
/// or make one block.
pub const LENGTHS_OUT: [u64; 17] = [
    8128,
    8129,
    8135,
    8136,
    8192,
    1 << 16,
    (1 << 16) + 8,
    1 << 32,
    (1 << 32) + 8,
    (1 << 35) + 3,
    1 << 61,
    (1 << 61) + 3,
    1 << 63,
    u64::MAX - 63,
    u64::MAX - 7,
    u64::MAX - 6,
    u64::MAX,
];

/// These, and lengths that would be the one given after losing upper bits.
pub fn lengths_out(bits: u64) -> Vec<u64> {
    let widened = [13, 16, 32, 61, 63].map(|place| (1 << place) + bits);
    [&LENGTHS_OUT[..], &widened].concat()
}

/// Rows under sixteen: refusal 2, then 3, then 4.
pub fn rows(calls: &mut Calls, ground: &Ground) {
    let all = ground.length.rows() as u64;
    let numbers = [
        0,
        all / 2,
        all - 1,
        all,
        all + 1,
        1 << 32,
        (1 << 32) + all / 2,
        1 << 61,
        P,
        u64::MAX,
    ];
    let sizes = [
        0,
        1,
        11,
        12,
        36,
        ROW_BYTES - 12,
        ROW_BYTES - 1,
        ROW_BYTES,
        ROW_BYTES + 1,
        ROW_BYTES + 12,
        5000,
    ];
    for length in [ground.bits()]
        .into_iter()
        .chain(lengths_out(ground.bits()))
    {
        for number in numbers {
            for size in sizes {
                let _ = calls.row(&ground.table, SIXTEEN, length, number, size);
            }
        }
    }
}

/// The refusals of a row and of a check, in their order.
const ROW_REFUSALS: [u8; 5] = [21, 2, 22, 3, 4];
const CHECK_REFUSALS: [u8; 9] = [21, 2, 22, 5, 6, 20, 7, 8, 9];

/// Those of them whose faults a length may have: a record of one block has not that
/// of 22.
pub fn possible(refusals: &[u8], length: Length) -> Vec<u8> {
    let mut possible = refusals.to_vec();
    possible.retain(|&refusal| refusal != 22 || length.blocks() > 1);
    possible
}

/// Every choice of faults of these refusals, so many times.
pub fn choices(refusals: &[u8], times: usize) -> impl Iterator<Item = Vec<u8>> + '_ {
    let all = 1usize << refusals.len();
    (0..all).cycle().take(all * times).map(move |choice| {
        let chosen = |place: &usize| choice >> place & 1 == 1;
        let places = (0..refusals.len()).filter(chosen);
        places.map(|place| refusals[place]).collect()
    })
}

/// What a call with these faults must answer: the first of them.
pub fn first(faults: &[u8]) -> u8 {
    faults.first().copied().unwrap_or(0)
}

/// A claim with the faults of these refusals, and what it is held against.
pub struct Faulty {
    length: u64,
    pub digest: Vec<u8>,
    pub assignment: Vec<u8>,
}

/// The faults of refusals 20, 7, 8 and 9, which are in the entries. Those of 20
/// may take the place of others.
pub fn spoil(claim: &mut Claim, has: impl Fn(u8) -> bool, random: &mut Random) {
    if has(9) {
        let wire = random.range(257, claim.wires());
        let turned = 1 - claim.entry(wire);
        claim.set(wire, random.pick(&[turned, 2, 1 << 60, P - 1]));
    }
    if has(8) {
        let wire = random.pick(&[1, 2, 128, 255, 256]);
        let turned = 1 - claim.entry(wire);
        claim.set(wire, random.pick(&[turned, 2, 1 << 60, P - 1]));
    }
    if has(7) {
        claim.set(0, random.pick(&[0, 2, 1 << 60, (1 << 60) + 1, P - 1]));
    }
    if has(20) {
        prime::put(claim, random);
    }
}

pub fn faulty(calls: &mut Calls, right: &Claim, length: u64, has: impl Fn(u8) -> bool) -> Faulty {
    let random = &mut calls.random;
    let mut claim = right.clone();
    spoil(&mut claim, &has, random);
    let mut assignment = claim.assignment;
    if has(6) {
        let exact = assignment.len();
        let block = 8 * 22_528;
        let sizes = [
            0,
            8,
            exact - 8,
            exact - 1,
            exact + 1,
            exact + 8,
            exact + block,
        ];
        assignment.resize(random.pick(&sizes), 0);
    }
    let mut digest = claim.digest.to_vec();
    if has(5) {
        digest.resize(random.pick(&[0, 1, 31, 33, 64, 256]), 0);
    }
    Faulty {
        length: if has(2) {
            random.pick(&lengths_out(length))
        } else {
            length
        },
        digest,
        assignment,
    }
}

/// The check with every choice of faults, so many times. The first fault in
/// the order of the refusals must be returned.
pub fn checks(calls: &mut Calls, ground: &Ground, times: usize) {
    let right = ground.claim(&mut calls.random);
    let (table, blocks) = (&ground.table, ground.length.blocks());
    for faults in choices(&possible(&CHECK_REFUSALS, ground.length), times) {
        let has = |refusal| faults.contains(&refusal);
        let limit = limits::with_faults(&faults, blocks, &mut calls.random);
        let Faulty {
            length,
            digest,
            assignment,
        } = faulty(calls, &right, ground.bits(), has);
        let note = format!("the faults of refusals {faults:?}");
        let judged = calls.check(table, limit, length, &digest, &assignment, &note);
        calls.must_be(first(&faults), judged, &note);
        calls.tally.count("checks with every choice of faults", 1);
    }
}

/// Rows with every choice of faults, so many times, in the same way.
pub fn row_faults(calls: &mut Calls, ground: &Ground, times: usize) {
    let all = ground.length.rows() as u64;
    for faults in choices(&possible(&ROW_REFUSALS, ground.length), times) {
        let (has, random) = (|refusal| faults.contains(&refusal), &mut calls.random);
        let limit = limits::with_faults(&faults, ground.length.blocks(), random);
        let length = match has(2) {
            true => random.pick(&lengths_out(ground.bits())),
            false => ground.bits(),
        };
        let number = match has(3) {
            true => random.pick(&[all, all + 1, 1 << 32, u64::MAX]),
            false => random.below(all as usize) as u64,
        };
        let size = match has(4) {
            true => random.pick(&[0, 1, 12, ROW_BYTES - 12, ROW_BYTES - 1]),
            false => ROW_BYTES + random.pick(&[0, 1, 100]),
        };
        let judged = calls.row(&ground.table, limit, length, number, size);
        let note = format!("the faults of refusals {faults:?}");
        calls.must_be(first(&faults), judged, &note);
        calls.tally.count("rows with every choice of faults", 1);
    }
}

/// Both sides of each right size at one length: the last row and the one after it
/// in a buffer of 1,955 and of 1,956 bytes; one byte less than a digest, its
/// buffer, an assignment and its buffer have.
pub fn edges(calls: &mut Calls, ground: &Ground) {
    let (bits, all) = (ground.bits(), ground.length.rows() as u64);
    for number in [all - 1, all] {
        for size in [ROW_BYTES - 1, ROW_BYTES] {
            let _ = calls.row(&ground.table, SIXTEEN, bits, number, size);
        }
    }
    let record = calls.random.record(bits);
    let Claim {
        digest, assignment, ..
    } = Claim::of(&record);
    let short = &assignment[..assignment.len() - 1];
    let sizes = [DIGEST_BYTES - 1, short.len()];
    let (table, note) = (&ground.table, "a byte less");
    records::both(calls, SIXTEEN, bits, record.bytes(), sizes, 4, note);
    for (digest, assignment, number) in [(&digest[..31], &assignment[..], 5), (&digest, short, 6)] {
        let judged = calls.check(table, SIXTEEN, bits, digest, assignment, note);
        calls.must_be(number, judged, note);
    }
    calls
        .tally
        .count("lengths with both sides of the right sizes", 1);
}

/// Refusal 2 at the thousand lengths above 8,127, and at those out of range
/// that the length might be taken for: all else is right for this length, and the
/// limit is any.
pub fn lengths_above(calls: &mut Calls, ground: &Ground) {
    let record = calls.random.record(ground.bits());
    let claim = Claim::of(&record);
    for length in (LONGEST + 1..=LONGEST + 1_000).chain(lengths_out(ground.bits())) {
        let limit = limits::any(&mut calls.random);
        length_above(calls, ground, limit, length, record.bytes(), &claim);
    }
    // At 8,128 once more with the sizes that it would have, with 17 blocks, so
    // that nothing but the length is wrong before the rows.
    let mut longer = claim;
    longer.assignment.resize(8 * (513 + 22_528 * 17), 0);
    length_above(calls, ground, SIXTEEN, LONGEST + 1, &[0; 1016], &longer);
}

fn length_above(
    calls: &mut Calls,
    ground: &Ground,
    limit: u64,
    length: u64,
    record: &[u8],
    claim: &Claim,
) {
    let (table, note) = (&ground.table, "a length above 8,127");
    let (digest, assignment) = (&claim.digest, &claim.assignment);
    let judged = calls.check(table, limit, length, digest, assignment, note);
    calls.must_be(Refusal::Length.number(), judged, note);
    let judged = calls.row(table, limit, length, 0, ROW_BYTES);
    calls.must_be(Refusal::Length.number(), judged, note);
    let sizes = [DIGEST_BYTES, claim.assignment.len()];
    records::both(calls, limit, length, record, sizes, 2, note);
    if length < 10_000 {
        let record = vec![0; length.div_ceil(8) as usize];
        records::both(calls, limit, length, &record, sizes, 2, note);
    }
}

/// "Slices that are only read may overlap" (docs/HOST.md): the digest is 32
/// bytes of the assignment itself. The digest wires have its bits, so that
/// the check comes to the rows.
pub fn overlapping(calls: &mut Calls, ground: &Ground, times: usize) {
    for _ in 0..times {
        let mut claim = ground.claim(&mut calls.random);
        let at = calls.random.range(8 * 257, claim.assignment.len() - 31);
        claim.digest.copy_from_slice(&claim.assignment[at..at + 32]);
        claim.set_digest_wires();
        calls.check_own_bytes(&ground.table, ground.length, &claim.assignment, at);
    }
}
