//! All choices of the faults of 15, 16, 17 and 4 at once, for read, write and
//! seal. The first fault in this order must be returned.

use judge::passage::line::LINE_BYTES;

use super::calls::{Sizes, EXACT};
use super::fields::{Fields, BLIND_BYTES, MOST, PLATE_BYTES};
use super::lines::NOWHERE;
use crate::calls::Calls;
use crate::random::Random;
use crate::refusals::{choices, first};

/// Places of the two fields that 17 is about, and some of all others.
const LANE: [usize; 3] = [0, 1, 2];
const AXLES: [usize; 2] = [17, 18];
const OTHERS: [usize; 12] = [3, 4, 13, 14, 15, 16, 19, 20, 29, 30, 31, 62];

/// A line with the faults of refusals 15, 16 and 17 that are chosen. A wrong
/// byte leaves the field that is too low as it is.
fn some_line(faults: &[u8], random: &mut Random) -> Vec<u8> {
    let mut line = Fields::random(random).line();
    let (at, digits, elsewhere) = random.pick(&[
        (0, &b"000"[..], &AXLES[..]),
        (17, b"00", &LANE),
        (17, b"01", &LANE),
    ]);
    if faults.contains(&17) {
        line[at..at + digits.len()].copy_from_slice(digits);
    }
    if faults.contains(&16) {
        let place = random.pick(&[elsewhere, &OTHERS].concat());
        line[place] = random.pick(NOWHERE);
    }
    if faults.contains(&15) {
        let sizes = [0, 1, 20, 31, 62, 64, 65, 95, 126, 127];
        let more = random.pick(b"0a,\n");
        line.resize(random.pick(&sizes), more);
    }
    line
}

/// Read with every choice of faults, so many times.
pub fn reads(calls: &mut Calls, times: usize) {
    for faults in choices(&[15, 16, 17], times) {
        let line = some_line(&faults, &mut calls.random);
        let judged = calls.passage_read(&line, format_args!("the faults of {faults:?}"));
        must_be_first(calls, &faults, judged);
    }
}

/// The judge's refusal must be the first fault.
fn must_be_first(calls: &mut Calls, faults: &[u8], judged: u64) {
    let refusal = judged & 0xff;
    let note = format_args!("the faults of {faults:?}");
    calls.must_answer(u64::from(first(faults)), refusal, note);
    let name = "passages with every choice of faults";
    calls.tally.count(name, 1);
}

/// Fields with the faults of refusals 15, 16 and 17 that are chosen.
fn some_fields(faults: &[u8], random: &mut Random) -> Fields {
    let mut fields = Fields::random(random);
    let lane_low = random.one_in(2);
    if faults.contains(&17) {
        match lane_low {
            true => fields.numbers.lane = 0,
            false => fields.numbers.axles = random.pick(&[0, 1]),
        }
    }
    if faults.contains(&16) {
        wrong_field(&mut fields, lane_low, random);
    }
    if faults.contains(&15) {
        let sizes = [(9, 33), (11, 31), (42, 0), (0, 42), (10, 33), (11, 32)];
        let (plate, blind) = random.pick(&sizes);
        fields.plate.resize(plate, b'A');
        fields.blind.resize(blind, b'0');
    }
    fields
}

/// A field that its place does not allow. The lane may be too low, and is left
/// as it is, or the axles.
fn wrong_field(fields: &mut Fields, lane_low: bool, random: &mut Random) {
    let (plate, blind) = (random.below(PLATE_BYTES), random.below(BLIND_BYTES));
    let numbers = &mut fields.numbers;
    match random.below(6) {
        0 => numbers.time = random.pick(&[MOST.time + 1, 1 << 34, u64::MAX]),
        1 => numbers.class = random.pick(&[0, 10, 257, (1 << 32) + 1]),
        2 if lane_low => numbers.axles = random.pick(&[100, 256, u64::MAX]),
        2 => numbers.lane = random.pick(&[1_000, 1_024, u64::MAX]),
        3 => fields.plate[0] = b'-',
        4 => fields.plate[plate] = random.pick(NOWHERE),
        _ => fields.blind[blind] = random.pick(NOWHERE),
    }
}

/// Write with every choice of faults, so many times.
pub fn writes(calls: &mut Calls, times: usize) {
    for faults in choices(&[15, 16, 17, 4], times) {
        let fields = some_fields(&faults, &mut calls.random);
        let out_len = match faults.contains(&4) {
            true => calls.random.below(LINE_BYTES),
            false => calls.random.range(LINE_BYTES, LINE_BYTES + 9),
        };
        let note = format_args!("the faults of {faults:?}");
        let (judged, _) = calls.passage_write(&fields, out_len, note);
        must_be_first(calls, &faults, judged);
    }
}

/// Buffers of seal: long enough, or one or both too short.
fn some_sizes(faults: &[u8], random: &mut Random) -> Sizes {
    let long = EXACT.map(|exact| exact + random.pick(&[0, 1, 100]));
    if !faults.contains(&4) {
        return long;
    }
    let short = EXACT.map(|exact| random.pick(&[0, 1, 8, exact - 8, exact - 1]));
    let one_short = [[short[0], long[1]], [long[0], short[1]]];
    random.pick(&[one_short[0], one_short[1], short])
}

/// Seal with every choice of faults, so many times.
pub fn seals(calls: &mut Calls, times: usize) {
    for faults in choices(&[15, 16, 17, 4], times) {
        let line = some_line(&faults, &mut calls.random);
        let sizes = some_sizes(&faults, &mut calls.random);
        let note = format_args!("the faults of {faults:?}");
        let (judged, _) = calls.passage_seal(&line, sizes, note);
        must_be_first(calls, &faults, judged);
    }
}
