//! "Under either limit the rows and assignments of a length that both allow are
//! equal": rows, results and answers of one and two blocks, under the limits that
//! allow them.

use judge::operations::{DIGEST_BYTES, ROW_BYTES};

use super::case::{Case, Stage};
use super::{SIXTEEN, TWO};
use crate::calls::Calls;
use crate::claim::Claim;
use crate::damage::WAYS;
use crate::packing::packed;
use crate::refusals::{faulty, Faulty};
use crate::sections::{enough, record, BLOCK_ROWS, START_ROWS};
use crate::tally::Operation;

/// The first row of every part of a block, counted from the block's first: its bits,
/// the words j from 16 to 67, W', the parts of round 0 and of round 16, and the
/// result.
const PARTS: [u64; 18] = [
    0, 512, 10_496, 12_544, 12_579, 12_611, 12_675, 12_739, 12_774, 12_809, 17_808, 17_843, 17_875,
    17_939, 17_971, 18_006, 18_041, 32_064,
];

/// The limits that allow the length: the least of them, two and sixteen, or all.
fn limits(stage: &Stage, all: bool) -> Vec<u64> {
    let least = stage.ground.length.blocks() as u64;
    let chosen = |&limit: &u64| all || [least, TWO, SIXTEEN].contains(&limit);
    (least..=SIXTEEN).filter(chosen).collect()
}

/// The first and the last row of every part, and so many at random.
fn row_numbers(calls: &mut Calls, stage: &Stage, count: usize) -> Vec<u64> {
    let (blocks, all) = (
        stage.ground.length.blocks() as u64,
        stage.ground.length.rows(),
    );
    let begin = |block: u64| START_ROWS + BLOCK_ROWS * block;
    let parts = (0..blocks).flat_map(|block| PARTS.map(|part| begin(block) + part));
    let mut firsts: Vec<u64> = parts.chain([begin(blocks)]).collect();
    let lasts: Vec<u64> = firsts.iter().map(|first| first - 1).collect();
    firsts.extend(lasts);
    firsts.extend([0, all as u64 - 1]);
    firsts.extend((0..count).map(|_| calls.random.below(all) as u64));
    firsts
}

/// Rows.
fn rows(calls: &mut Calls, stage: &Stage, limits: &[u64], count: usize) {
    for row in row_numbers(calls, stage, count) {
        let mut case = Case::row(row, ROW_BYTES, &mut calls.random).with(&[]);
        case.under(calls, stage, limits);
    }
}

/// So many records: digest, assignment, and that packed and unpacked.
fn results(calls: &mut Calls, stage: &Stage, limits: &[u64], count: usize) {
    let length = stage.ground.length;
    for _ in 0..count {
        let record = record(calls, stage.bits);
        let assignment = Claim::of(&record).assignment;
        let small = packed(length, &assignment);
        let of = [
            (Operation::Digest, record.bytes(), DIGEST_BYTES),
            (Operation::Produce, record.bytes(), assignment.len()),
            (Operation::Pack, &assignment, small.len()),
            (Operation::Unpack, &small, assignment.len()),
        ];
        for (operation, read, exact) in of {
            let out_len = enough(calls, exact);
            let case = Case::new(operation, read, out_len, &mut calls.random);
            case.with(&[]).under(calls, stage, limits);
        }
    }
}

/// So many claims that are accepted, as many with the fault of each of 20, 7, 8 and
/// 9, and as many damaged in every way, of which the judge tells.
fn claims(calls: &mut Calls, stage: &Stage, limits: &[u64], count: usize) {
    for _ in 0..count {
        let right = stage.ground.claim(&mut calls.random);
        for faults in [&[][..], &[20], &[7], &[8], &[9]] {
            let has = |refusal| faults.contains(&refusal);
            let Faulty {
                digest, assignment, ..
            } = faulty(calls, &right, stage.bits, has);
            let case = Case::check(&digest, &assignment, &mut calls.random);
            case.with(faults).under(calls, stage, limits);
        }
        for (_, damage) in WAYS {
            let mut claim = right.clone();
            damage(&stage.ground, &mut claim, &mut calls.random);
            let case = Case::check(&claim.digest, &claim.assignment, &mut calls.random);
            case.noted(claim.note).under(calls, stage, limits);
        }
    }
}

/// All of these at one length: so many records and claims.
pub fn under_limits(calls: &mut Calls, bits: u64, count: usize, all: bool) {
    let stage = Stage::new(bits);
    let limits = limits(&stage, all);
    rows(calls, &stage, &limits, 20 * count);
    results(calls, &stage, &limits, count);
    claims(calls, &stage, &limits, count);
    let name = "lengths with rows, results and claims under limits";
    calls.tally.count(name, 1);
}
