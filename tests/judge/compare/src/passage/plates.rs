//! Plates: all patterns of `-` and of letters and digits, read and written.

use judge::passage::line::LINE_BYTES;

use super::calls::Room;
use super::fields::{some_of, Fields, DIGITS, LETTERS, PLATE, PLATE_BYTES};
use crate::answers::wrong_byte;
use crate::calls::Calls;

/// The first place of a plate that is wrong by its `-` alone: the first one, or
/// the first letter or digit after a `-`.
fn lowest_wrong(plate: &[u8]) -> Option<usize> {
    if plate[0] == b'-' {
        return Some(0);
    }
    let dash = plate.iter().position(|&byte| byte == b'-')?;
    let rest = plate[dash..].iter().position(|&byte| byte != b'-')?;
    Some(dash + rest)
}

/// All 1,024 patterns, with letters, with digits and with both, so many times.
pub fn patterns(calls: &mut Calls, times: usize) {
    let both = [DIGITS, LETTERS].concat();
    let mut room = Room::new(&mut calls.random);
    for _ in 0..times {
        for bytes in [DIGITS, LETTERS, &both] {
            for pattern in 0..1u32 << PLATE_BYTES {
                let mut plate = some_of(bytes, PLATE_BYTES, &mut calls.random);
                let dashes = (0..PLATE_BYTES).filter(|place| pattern >> place & 1 == 1);
                dashes.for_each(|place| plate[place] = b'-');
                with_plate(calls, &plate, &mut room);
            }
        }
    }
}

/// The plate in a right line and among right fields.
fn with_plate(calls: &mut Calls, plate: &[u8], room: &mut Room) {
    let note = "a pattern of a plate";
    let mut fields = Fields::random(&mut calls.random);
    let mut line = fields.line();
    line[PLATE..PLATE + PLATE_BYTES].copy_from_slice(plate);
    fields.plate = plate.to_vec();
    let (read, written) = match lowest_wrong(plate) {
        Some(place) => (wrong_byte(PLATE + place), wrong_byte(PLATE + place)),
        None => (fields.answer(), 0),
    };
    let judged = calls.passage_read(&line, note);
    calls.must_answer(read, judged, note);
    let (judged, left) = calls.passage_write(&fields, LINE_BYTES, note);
    calls.must_answer(written, judged, note);
    if written == 0 && left != line {
        let plate = plate.escape_ascii();
        calls
            .tally
            .difference(format!("plate '{plate}': another line is written"));
    }
    calls.seal_nothing(&line, room, note);
    calls.tally.count("patterns of plates, read and written", 1);
}
