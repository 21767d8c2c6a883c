//! Lines to be read, and sealed where they are wrong.

use judge::passage::line::LINE_BYTES;
use judge::passage::Numbers;

use super::calls::{Room, NO_ROOM};
use super::fields::{some_of, Fields, DIGITS, HEXADECIMAL, LETTERS, MOST};
use crate::answers::wrong_byte;
use crate::calls::Calls;
use crate::random::Random;

/// Bytes that no place allows.
pub const NOWHERE: &[u8] = b"\0\n !+./:;@[`gz~\x7f\x80\xb0\xff";

/// A line read and, without room, sealed; what is wrong is sealed in a room too.
/// Returns the judge's answer.
fn read_and_seal(calls: &mut Calls, line: &[u8], room: &mut Room, note: &str) -> u64 {
    calls.seal_nothing(line, room, note);
    calls.passage_read(line, note)
}

/// Every byte value at every place of a right line whose plate has so many
/// places without `-`.
pub fn every_byte(calls: &mut Calls, filled: usize) {
    let right = Fields::right(filled, &mut calls.random).line();
    let mut room = Room::new(&mut calls.random);
    for place in 0..LINE_BYTES {
        for byte in 0..=u8::MAX {
            let mut line = right.clone();
            line[place] = byte;
            read_and_seal(calls, &line, &mut room, "one byte changed");
        }
    }
    let name = "lines with every byte at every place";
    calls.tally.count(name, 1);
}

/// Two bytes that no place allows, at every pair of places: the lower one must
/// be returned. So many times.
pub fn two_wrong_bytes(calls: &mut Calls, times: usize) {
    let mut room = Room::new(&mut calls.random);
    for _ in 0..times {
        let right = Fields::random(&mut calls.random).line();
        for low in 0..LINE_BYTES {
            for high in low + 1..LINE_BYTES {
                let mut line = right.clone();
                line[low] = calls.random.pick(NOWHERE);
                line[high] = calls.random.pick(NOWHERE);
                let judged = read_and_seal(calls, &line, &mut room, "two wrong bytes");
                calls.must_answer(wrong_byte(low), judged, "two wrong bytes");
            }
        }
    }
}

/// Lines of 0 to 130 bytes and of some more, of which one would be right after
/// losing upper bits: the front of a right line, and more after it.
pub fn lengths(calls: &mut Calls) {
    let mut room = Room::new(&mut calls.random);
    let wide = [256, 1 << 16].map(|more| LINE_BYTES + more);
    for size in (0..=130).chain(wide) {
        let right = Fields::random(&mut calls.random).line();
        let again: Vec<u8> = right.iter().cycle().take(size).copied().collect();
        let mut feeds = right;
        feeds.resize(size, b'\n');
        let wrong = vec![b'0'; size];
        for line in [again, feeds, wrong] {
            if size == LINE_BYTES {
                read_and_seal(calls, &line, &mut room, "63 bytes");
            } else {
                let judged = read_and_seal(calls, &line, &mut room, "another size");
                calls.must_answer(15, judged, "another size");
            }
        }
    }
}

/// The answer that these numbers, all of which fit their digits, must have.
fn answer(fields: &Fields) -> u64 {
    match fields.numbers {
        Numbers { class: 0, .. } => wrong_byte(15),
        Numbers { lane: 0, .. } | Numbers { axles: 0 | 1, .. } => 17,
        _ => fields.answer(),
    }
}

/// The line of numbers that fit their digits.
fn line(fields: &Fields) -> Vec<u8> {
    let Numbers {
        lane,
        time,
        class,
        axles,
    } = fields.numbers;
    let front = format!("{lane:03},{time:010},{class},{axles:02},");
    [front.as_bytes(), &fields.plate, b",", &fields.blind].concat()
}

/// Times with digits of every weight, and beside powers of two.
pub fn times() -> Vec<u64> {
    let weights = (0..10).map(|power| 10u64.pow(power));
    let digits = weights.flat_map(|weight| (1..10).map(move |digit| digit * weight));
    let powers = (0..34).flat_map(|power| [(1 << power) - 1, 1 << power]);
    let mut times: Vec<u64> = digits.chain(powers).chain([0, MOST.time]).collect();
    times.retain(|&time| time <= MOST.time);
    times
}

/// Every lane, class and number of axles that digits can write, and many times,
/// each with all else right; then all choices of the ends.
pub fn numbers(calls: &mut Calls) {
    let right = Fields::random(&mut calls.random);
    let old = right.numbers;
    let lanes = (0..=MOST.lane).map(|lane| Numbers { lane, ..old });
    let classes = (0..=MOST.class).map(|class| Numbers { class, ..old });
    let axles = (0..=MOST.axles).map(|axles| Numbers { axles, ..old });
    let times = times().into_iter().map(|time| Numbers { time, ..old });
    let all = lanes.chain(classes).chain(axles).chain(times);
    for numbers in all.chain(ends()) {
        let fields = Fields {
            numbers,
            ..right.clone()
        };
        let (line, must) = (line(&fields), answer(&fields));
        let judged = calls.passage_read(&line, "numbers that fit");
        calls.must_answer(must, judged, "numbers that fit");
        calls.passage_seal(&line, NO_ROOM, "numbers that fit");
        calls.passage_write(&fields, LINE_BYTES, "numbers that fit");
    }
}

/// All choices of the lowest and the highest numbers that fit, and those beside.
fn ends() -> Vec<Numbers> {
    let mut ends = Vec::new();
    for lane in [0, 1, 2, 998, 999] {
        for time in [0, 1, MOST.time] {
            for class in [0, 1, 2, 8, 9] {
                let axles = [0, 1, 2, 3, 98, 99].into_iter();
                ends.extend(axles.map(|axles| Numbers {
                    lane,
                    time,
                    class,
                    axles,
                }));
            }
        }
    }
    ends
}

/// A line with something done to it: bytes changed, two swapped, one taken out
/// with the others moved up, or all bytes drawn.
pub fn damaged(mut line: Vec<u8>, random: &mut Random) -> Vec<u8> {
    let alphabet = [DIGITS, LETTERS, HEXADECIMAL, NOWHERE, b"-,-,-,"].concat();
    let (one, other) = (random.below(LINE_BYTES), random.below(LINE_BYTES));
    match random.below(6) {
        0 => line[one] = random.next() as u8,
        1 => line[one] = random.pick(&alphabet),
        2 => {
            for place in [one, other] {
                line[place] = random.pick(&alphabet);
            }
        }
        3 => line.swap(one, other),
        4 => {
            let taken = line.remove(one);
            line.insert(other, taken);
        }
        _ => line = random_bytes(&alphabet, random),
    }
    line
}

/// Bytes without any order, or as many of the alphabet's.
fn random_bytes(alphabet: &[u8], random: &mut Random) -> Vec<u8> {
    if random.one_in(2) {
        random.bytes(LINE_BYTES)
    } else {
        some_of(alphabet, LINE_BYTES, random)
    }
}

/// So many lines with something done to them.
pub fn damages(calls: &mut Calls, count: usize) {
    let mut room = Room::new(&mut calls.random);
    for _ in 0..count {
        let right = Fields::random(&mut calls.random).line();
        let line = damaged(right, &mut calls.random);
        read_and_seal(calls, &line, &mut room, "a damaged line");
        calls.tally.count("damaged lines", 1);
    }
}
