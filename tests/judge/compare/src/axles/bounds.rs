//! Pairs of bounds: all that are right, and those that are refused.

use host::axles::Pair;
use judge::axles;
use judge::operations::ROW_BYTES;
use judge::refusal::Refusal;

use super::calls::{Held, Room};
use super::claims::{digits, fill, record, right_entries, unfilled};
use crate::calls::Calls;

/// Bounds on both sides of each limit, and the greatest numbers there are.
const ENDS: [u64; 16] = [
    0,
    1,
    2,
    5,
    50,
    99,
    100,
    101,
    102,
    127,
    255,
    1 << 32,
    (1 << 32) + 2,
    1 << 63,
    u64::MAX - 97,
    u64::MAX,
];

/// Places of a bit by which a bound is made too great: it would be right after
/// losing upper bits.
const PLACES: [u32; 14] = [7, 8, 10, 16, 24, 31, 32, 33, 40, 48, 56, 61, 62, 63];

/// "Bounds from 2 to 99", the lower not above the upper.
fn is_right([lower, upper]: Pair) -> bool {
    2 <= lower && lower <= upper && upper <= 99
}

/// All pairs of numbers from 2 to 99.
fn numbers() -> impl Iterator<Item = Pair> {
    (2..=99).flat_map(|lower| (2..=99).map(move |upper| [lower, upper]))
}

/// All pairs of right bounds.
pub fn all_pairs() -> impl Iterator<Item = Pair> {
    numbers().filter(|&pair| is_right(pair))
}

/// Right bounds with one of them or both made too great.
fn widened(place: u32) -> [Pair; 6] {
    let wider = |bound: u64| bound + (1 << place);
    [
        [wider(2), 5],
        [2, wider(5)],
        [wider(2), wider(5)],
        [wider(4), 4],
        [4, wider(4)],
        [wider(99), wider(99)],
    ]
}

/// Pairs that are refused: the lower above the upper, all choices of two ends,
/// and widened ones.
pub fn refused_pairs() -> Vec<Pair> {
    let ends = ENDS
        .iter()
        .flat_map(|&lower| ENDS.map(|upper| [lower, upper]));
    let wide = PLACES.into_iter().flat_map(widened);
    let pairs = numbers().chain(ends).chain(wide);
    pairs.filter(|&pair| !is_right(pair)).collect()
}

/// Each of them to all three functions, all else right for the bounds that most
/// of them might be taken for.
pub fn refused(calls: &mut Calls) {
    let (axles, mut room) = (4, Room::new(&mut calls.random));
    let record = record(digits(axles), &mut calls.random);
    let mut claim = unfilled(&record);
    fill(&mut claim, &right_entries([2, 5], axles));
    let held = Held::new(&claim.digest, &claim.assignment, &mut calls.random);
    let note = "wrong bounds";
    for pair in refused_pairs() {
        let [lower, upper] = pair;
        let judged = calls.axles_produce_nothing(pair, &record, &mut room, note);
        calls.must_be(18, judged, note);
        let row = calls.random.pick(&[0, 392, 65_152, 65_177, 65_185]);
        let judged = calls.axles_row(pair, row, ROW_BYTES, |buffer| {
            axles::row(lower, upper, row, buffer)
        });
        calls.must_answer(18, judged, note);
        calls.axles_check_held(Err(Refusal::Bounds), pair, &held, note);
        calls.tally.count("bounds that are refused", 1);
    }
}
