//! The two bytes that must be digits, in all their values: by the producer, and
//! by the check of records that a producer would have refused.

use host::axles::Pair;

use super::calls::Room;
use super::claims::{
    bits_modulo, claim_answer, fill, numbers, record, some_pair, unfilled, unsatisfied, NUMBERS,
    ROWS,
};
use crate::answers;
use crate::calls::Calls;

/// Whether a byte is a digit, by the paper's list of them.
fn is_digit(byte: u8) -> bool {
    b"0123456789".contains(&byte)
}

/// What the producer must answer without room.
fn producer_s([lower, upper]: Pair, [tens, units]: [u8; 2]) -> u8 {
    let digits = is_digit(tens) && is_digit(units);
    let number = 10 * u64::from(tens & 15) + u64::from(units & 15);
    match digits && lower <= number && number <= upper {
        true => 4,
        false => 19,
    }
}

/// Every pair of bytes to the producer without room: 4, or 19 before it.
pub fn every_pair(calls: &mut Calls, pair: Pair) {
    let mut bytes = record([0, 0], &mut calls.random);
    for tens in 0..=u8::MAX {
        for units in 0..=u8::MAX {
            bytes[17] = tens;
            bytes[18] = units;
            let note = format_args!("{tens:#04x} and {units:#04x}");
            let judged = calls.axles_produce(pair, &bytes, 0, note);
            calls.must_be(producer_s(pair, [tens, units]), judged, "two bytes");
        }
    }
    calls
        .tally
        .count("bounds with every pair of digit bytes", 1);
}

/// Every value of one byte beside a digit: in a room that must stay as it is,
/// or whole where the producer takes the record; and the check of it.
pub fn every_byte(calls: &mut Calls, tens_too: bool) {
    let mut room = Room::new(&mut calls.random);
    for byte in 0..=u8::MAX {
        let pair = some_pair(&mut calls.random);
        let digit = b'0' + calls.random.below(10) as u8;
        let bytes = if tens_too {
            [byte, digit]
        } else {
            [digit, byte]
        };
        let record = record(bytes, &mut calls.random);
        let note = format_args!("{bytes:?}");
        let judged = calls.axles_produce_nothing(pair, &record, &mut room, note);
        calls.must_be(producer_s(pair, bytes), judged, "a byte and a digit");
        if producer_s(pair, bytes) == 4 {
            let exact = judge::axles::assignment_bytes();
            let judged = calls.axles_produce(pair, &record, exact, "two digits");
            calls.must_be(0, judged, "two digits");
        }
        forged(calls, pair, &record);
    }
}

/// The lowest row that a record with these bytes must fail, where the appended
/// bits write the four numbers modulo 2^4 and 2^7.
fn failing_row(bytes: [u8; 2], numbers: [i64; 4]) -> Option<u32> {
    for (place, wire) in (0..8).map(|place| (place, 7 - place % 4)) {
        let bit = bytes[place / 4] >> wire & 1;
        if bit != [0, 0, 1, 1][place % 4] {
            return Some(ROWS + place as u32);
        }
    }
    let mut all = NUMBERS.iter().zip(numbers);
    let (number, _) = all.find(|(number, value)| !(0..1 << number.bits).contains(value))?;
    Some(number.sum_row())
}

/// The check of a record with any two bytes, all its wires right.
fn forged(calls: &mut Calls, pair: Pair, record: &[u8]) {
    let bytes = [record[17], record[18]];
    let numbers = numbers(pair, bytes.map(|byte| byte & 15));
    let mut claim = unfilled(record);
    fill(&mut claim, &bits_modulo(numbers));
    claim.note = format!("the bytes {bytes:?} with their digits' bits");
    let judged = claim_answer(pair, &claim);
    let known = failing_row(bytes, numbers).map_or(Ok(()), |row| Err(unsatisfied(row)));
    let (known, answer) = (answers::plain(known), answers::plain(judged));
    calls.must_answer(known, answer, &claim.note);
    calls.axles_check(judged, pair, &claim);
    calls.tally.count("claims of any two digit bytes", 1);
}
