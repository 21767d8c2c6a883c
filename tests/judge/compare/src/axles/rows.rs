//! Rows of the circuit: those appended under all bounds, some or all of the
//! others, and numbers and buffers on both sides of their limits.

use std::ops::Range;

use host::axles::Pair;
use judge::axles::{self, row_count, row_with, rows};
use judge::operations::{row_at_hand, ROW_BYTES};

use super::bounds::all_pairs;
use super::claims::{bounds, some_pair, ROWS};
use crate::calls::Calls;
use crate::refusals::{choices, first};
use crate::sections::enough;

/// The 34 appended rows under all bounds with these lower ones.
pub fn appended(calls: &mut Calls, lowers: Range<u64>) {
    for pair in all_pairs().filter(|[lower, _]| lowers.contains(lower)) {
        for (number, row) in rows::appended(bounds(pair)).iter() {
            let out_len = enough(calls, ROW_BYTES);
            let number = u64::from(ROWS + number.0);
            calls.axles_row(pair, number, out_len, |buffer| row_at_hand(row, buffer));
        }
        calls.tally.count("bounds with all appended rows", 1);
    }
}

/// The first and last rows of every part: start words, the blocks with their
/// bits, the digest, what is appended.
const ENDS: [u64; 14] = [
    0, 255, 256, 759, 760, 767, 768, 32_575, 32_576, 33_087, 33_088, 64_895, 64_896, 65_151,
];

/// These rows and so many at random, each under random bounds.
pub fn sampled(calls: &mut Calls, count: usize) {
    let mut table = rows::all(bounds([2, 99]));
    let any = |calls: &mut Calls| calls.random.below(row_count()) as u64;
    for number in 0..ENDS.len() + count {
        let pair = some_pair(&mut calls.random);
        rows::rebind(&mut table, bounds(pair));
        let row = ENDS.get(number).copied().unwrap_or_else(|| any(calls));
        let out_len = enough(calls, ROW_BYTES);
        calls.axles_row(pair, row, out_len, |buffer| row_with(&table, row, buffer));
    }
}

/// Every row under two bounds.
pub fn whole_table(calls: &mut Calls, pair: Pair) {
    let table = rows::all(bounds(pair));
    for row in 0..row_count() as u64 {
        let out_len = enough(calls, ROW_BYTES);
        calls.axles_row(pair, row, out_len, |buffer| row_with(&table, row, buffer));
    }
    calls.tally.count("bounds with whole tables of rows", 1);
}

/// Row numbers on both sides of the count, and some that would be below it after
/// losing upper bits, with buffers on both sides of a row's.
pub fn limits(calls: &mut Calls) {
    let count = row_count() as u64;
    let table = rows::all(bounds([2, 5]));
    let below = [0, count - 34, count - 1];
    let above = [
        count,
        count + 1,
        1 << 17,
        1 << 32,
        (1 << 32) + count - 1,
        (1 << 63) + 5,
        u64::MAX,
    ];
    for row in below.into_iter().chain(above) {
        for size in [0, 1, 12, ROW_BYTES - 12, ROW_BYTES - 1, ROW_BYTES, 5_000] {
            let judged = calls.axles_row([2, 5], row, size, |buffer| row_with(&table, row, buffer));
            let must = match (row < count, size < ROW_BYTES) {
                (false, _) => 3,
                (true, true) => 4,
                (true, false) => 0,
            };
            calls.must_answer(must, judged & 0xff, "any row and buffer");
        }
    }
}

/// Row with every choice of the faults of 18, 3 and 4, so many times.
pub fn faults(calls: &mut Calls, wrong: &[Pair], times: usize) {
    let (count, some) = (row_count() as u64, [0, 300, 65_152, 65_177]);
    for faults in choices(&[18, 3, 4], times) {
        let has = |refusal| faults.contains(&refusal);
        let right = some_pair(&mut calls.random);
        let pair = if has(18) {
            calls.random.pick(wrong)
        } else {
            right
        };
        let above = [count, count + 1, 1 << 32, u64::MAX];
        let row = calls.random.pick(if has(3) { &above } else { &some });
        let sizes = [0, 1, 12, ROW_BYTES - 1];
        let size = if has(4) {
            calls.random.pick(&sizes)
        } else {
            ROW_BYTES
        };
        let [lower, upper] = pair;
        let judged = calls.axles_row(pair, row, size, |buffer| {
            axles::row(lower, upper, row, buffer)
        });
        let note = format!("the faults of refusals {faults:?}");
        calls.must_answer(u64::from(first(&faults)), judged & 0xff, note);
        calls
            .tally
            .count("axle calls with every choice of faults", 1);
    }
}
