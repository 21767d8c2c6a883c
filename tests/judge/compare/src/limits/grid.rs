//! Every limit with every length at the edge of a number of blocks, in all six
//! operations, with the faults of other refusals before 22 and behind it.

use judge::length::Length;
use judge::operations::{DIGEST_BYTES, ROW_BYTES};
use judge::record::spare_bits;

use super::case::{Case, Stage};
use super::{longest, ABOVE, SIXTEEN, TWO};
use crate::calls::Calls;
use crate::claim::Claim;
use crate::damage::NO_BITS;
use crate::packing::packed;
use crate::prime;
use crate::random::Random;
use crate::records::some_record;
use crate::refusals::{choices, faulty, Faulty};
use crate::tally::Operation;

/// Lengths on both sides of where one block more is needed, and of whole blocks: of
/// many blocks two beside each such place, or all; and lengths out of range.
pub fn lengths(all: bool) -> Vec<u64> {
    let edges = |blocks: u64| {
        let (last, whole) = (longest(blocks), 512 * blocks);
        match all || blocks <= 2 {
            true => vec![last - 1, last, last + 1, last + 2, whole - 1, whole],
            false => vec![last, last + 1],
        }
    };
    let out = [(1 << 32) + 8, 1 << 63, u64::MAX - 63, u64::MAX];
    let mut lengths = vec![0, 1];
    lengths.extend((1..=SIXTEEN).flat_map(edges));
    lengths.extend(out);
    lengths
}

/// 0 to 17, and numbers that would be from 1 to 16 after losing upper bits.
fn limits() -> Vec<u64> {
    (0..=SIXTEEN).chain(ABOVE).collect()
}

/// No fault, each fault alone, and all of them.
fn alone_and_together(refusals: &[u8]) -> Vec<Vec<u8>> {
    let alone = refusals.iter().map(|&refusal| vec![refusal]);
    [vec![]]
        .into_iter()
        .chain(alone)
        .chain([refusals.to_vec()])
        .collect()
}

/// A buffer without the fault of refusal 4 or with it.
fn some_size(exact: usize, faults: &[u8], random: &mut Random) -> usize {
    match faults.contains(&4) {
        true => random.pick(&[0, 1, exact - 1]),
        false => exact + random.pick(&[0, 9]),
    }
}

/// A size other than the right one.
fn other_size(exact: usize, random: &mut Random) -> usize {
    random.pick(&[0, 1, exact - 1, exact + 1])
}

/// Digest and produce with every choice of the faults of 13, 14 and 4.
fn records(stage: &Stage, random: &mut Random) -> Vec<Case> {
    let length = stage.ground.length;
    let results = [
        (Operation::Digest, DIGEST_BYTES),
        (Operation::Produce, length.assignment_bytes()),
    ];
    let mut cases = Vec::new();
    for faults in choices(&[13, 14, 4], 1) {
        if faults.contains(&14) && spare_bits(stage.bits) == 0 {
            continue;
        }
        let record = some_record(stage.bits, length, &faults, random);
        for (operation, exact) in results {
            let out_len = some_size(exact, &faults, random);
            cases.push(Case::new(operation, &record, out_len, random).with(&faults));
        }
    }
    cases
}

/// Row with every choice of the faults of 3 and 4.
fn rows(stage: &Stage, random: &mut Random) -> Vec<Case> {
    let count = stage.ground.length.rows();
    let case = |faults: Vec<u8>| {
        let above = random.pick(&[count as u64, (1 << 32) + 1, u64::MAX]);
        let below = random.below(count) as u64;
        let row = if faults.contains(&3) { above } else { below };
        let out_len = some_size(ROW_BYTES, &faults, random);
        Case::row(row, out_len, random).with(&faults)
    };
    choices(&[3, 4], 1).map(case).collect()
}

/// The check with each of its faults.
fn checks(calls: &mut Calls, stage: &Stage, right: &Claim) -> Vec<Case> {
    let mut cases = Vec::new();
    for faults in alone_and_together(&[5, 6, 20, 7, 8, 9]) {
        let has = |refusal| faults.contains(&refusal);
        let Faulty {
            digest, assignment, ..
        } = faulty(calls, right, stage.bits, has);
        cases.push(Case::check(&digest, &assignment, &mut calls.random).with(&faults));
    }
    cases
}

/// Pack with each of its faults.
fn packs(length: Length, right: &Claim, random: &mut Random) -> Vec<Case> {
    let case = |faults: Vec<u8>| {
        let mut claim = right.clone();
        if faults.contains(&10) {
            let wire = random.below(claim.wires());
            claim.set(wire, random.pick(&NO_BITS));
        }
        if faults.contains(&20) {
            prime::put(&mut claim, random);
        }
        let mut read = claim.assignment;
        if faults.contains(&6) {
            read.resize(other_size(read.len(), random), 0);
        }
        let out_len = some_size(length.packed_bytes(), &faults, random);
        Case::new(Operation::Pack, &read, out_len, random).with(&faults)
    };
    let faults = alone_and_together(&[4, 6, 20, 10]);
    faults.into_iter().map(case).collect()
}

/// Unpack with each of its faults.
fn unpacks(length: Length, right: &Claim, random: &mut Random) -> Vec<Case> {
    let case = |faults: Vec<u8>| {
        let mut read = packed(length, &right.assignment);
        if faults.contains(&12) {
            read[length.packed_bytes() - 1] |= random.range(1, 0x80) as u8;
        }
        if faults.contains(&11) {
            read.resize(other_size(read.len(), random), 0xff);
        }
        let out_len = some_size(length.assignment_bytes(), &faults, random);
        Case::new(Operation::Unpack, &read, out_len, random).with(&faults)
    };
    let faults = alone_and_together(&[4, 11, 12]);
    faults.into_iter().map(case).collect()
}

/// Every limit at one length. Calls that take long are made under all limits that
/// allow the length, or under the least of them, two and sixteen.
pub fn every_limit(calls: &mut Calls, bits: u64, all: bool) {
    let stage = Stage::new(bits);
    let length = stage.ground.length;
    let right = stage.ground.claim(&mut calls.random);
    let few = [length.blocks() as u64, TWO, SIXTEEN];
    let mut cases = records(&stage, &mut calls.random);
    cases.extend(rows(&stage, &mut calls.random));
    cases.extend(checks(calls, &stage, &right));
    cases.extend(packs(length, &right, &mut calls.random));
    cases.extend(unpacks(length, &right, &mut calls.random));
    for mut case in cases {
        let mut limits = limits();
        limits.retain(|&limit| all || few.contains(&limit) || !case.takes_long(limit, bits));
        case.under(calls, &stage, &limits);
    }
    calls.tally.count("lengths under every limit", 1);
}

#[cfg(test)]
mod tests {
    use super::*;

    #[test]
    fn both_sides_of_every_number_of_blocks() {
        for all in [false, true] {
            let lengths = lengths(all);
            for blocks in 1..=16 {
                let (last, next) = (512 * blocks - 65, 512 * blocks - 64);
                assert!(lengths.contains(&last) && lengths.contains(&next));
                let in_range = Length::new(last).unwrap();
                assert_eq!(in_range.blocks() as u64, blocks);
                assert_eq!(longest(blocks), last);
            }
            assert!([0, 1, 446, 449, 511, 512, 958, 961, u64::MAX]
                .iter()
                .all(|length| lengths.contains(length)));
        }
    }

    #[test]
    fn limits_on_both_sides_of_1_and_16() {
        let limits = limits();
        assert!((0..=17).all(|limit| limits.contains(&limit)));
        for limit in [(1 << 32) + 2, 1 << 63, u64::MAX] {
            assert!(limits.contains(&limit));
        }
        assert!(ABOVE.iter().all(|&limit| super::super::outside(limit)));
    }
}
