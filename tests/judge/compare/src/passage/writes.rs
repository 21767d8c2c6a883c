//! Fields to be written: numbers and bytes on both sides of what is allowed,
//! sizes of plate, blind and buffer, and lines there and back.

use judge::passage::line::LINE_BYTES;
use judge::passage::Numbers;

use super::fields::{some_of, Fields, BLIND, BLIND_BYTES, DIGITS, MOST, PLATE, PLATE_BYTES};
use super::lines::times;
use crate::answers::wrong_byte;
use crate::calls::Calls;
use crate::sections::enough;

/// Numbers that would be the one given after losing upper bits, or digits.
fn widened(number: u64) -> Vec<u64> {
    let places = [4, 7, 8, 10, 16, 24, 31, 32, 34, 40, 48, 56, 63];
    let bits = places.map(|place| number.wrapping_add(1 << place));
    let multiples = [
        3 << 8,
        0xff_ff00,
        5 << 16,
        7 << 32,
        !0xff,
        !0xffff,
        !0xffff_ffff,
    ];
    let multiples = multiples.map(|more: u64| number.wrapping_add(more));
    let digits = [10, 100, 1_000, 10_000_000_000].map(|more| number.wrapping_add(more));
    [&bits[..], &multiples, &digits].concat()
}

/// A field's ends with those beside them, all of these widened, and the
/// greatest numbers there are.
fn around(lowest: u64, highest: u64) -> Vec<u64> {
    let mut ends = vec![0, 1, 2, lowest, highest - 1, highest, highest + 1];
    let wide: Vec<u64> = ends.iter().flat_map(|&end| widened(end)).collect();
    ends.extend(wide);
    ends.extend([1 << 63, u64::MAX - 1, u64::MAX, u64::MAX - highest]);
    ends
}

/// Fields with these numbers into a buffer that is long enough, without room,
/// and beside a plate and a blind that are wrong.
fn with_numbers(calls: &mut Calls, right: &Fields, numbers: Numbers) {
    let (must, mut fields) = (answer(numbers), right.clone());
    fields.numbers = numbers;
    let (judged, _) = calls.passage_write(&fields, LINE_BYTES, "numbers");
    calls.must_answer(must, judged, "numbers");
    let (judged, _) = calls.passage_write(&fields, 0, "numbers without room");
    calls.must_answer(if must == 0 { 4 } else { must }, judged, "without room");
    fields.plate[0] = b'-';
    fields.blind[31] = b'F';
    let (judged, _) = calls.passage_write(&fields, LINE_BYTES, "numbers and a wrong plate");
    let must = match must {
        0 | 17 => wrong_byte(PLATE),
        lower => lower,
    };
    calls.must_answer(must, judged, "numbers and a wrong plate");
    calls.tally.count("numbers written, wrong and right", 1);
}

/// What these numbers must answer with all else right.
fn answer(numbers: Numbers) -> u64 {
    let Numbers {
        lane,
        time,
        class,
        axles,
    } = numbers;
    let fits = [
        (0, (0..=MOST.lane).contains(&lane)),
        (4, (0..=MOST.time).contains(&time)),
        (15, (1..=MOST.class).contains(&class)),
        (17, (0..=MOST.axles).contains(&axles)),
    ];
    match fits.iter().find(|(_, fits)| !fits) {
        Some(&(byte, _)) => wrong_byte(byte),
        None if lane < 1 || axles < 2 => 17,
        None => 0,
    }
}

/// Each number at its ends and past them, all else right.
pub fn numbers(calls: &mut Calls) {
    let right = Fields::random(&mut calls.random);
    let old = right.numbers;
    let lanes = around(1, MOST.lane).into_iter();
    let classes = around(1, MOST.class).into_iter();
    let axles = around(2, MOST.axles).into_iter();
    let times = times().into_iter().chain(around(0, MOST.time));
    let lanes = lanes.map(|lane| Numbers { lane, ..old });
    let classes = classes.map(|class| Numbers { class, ..old });
    let axles = axles.map(|axles| Numbers { axles, ..old });
    let times = times.map(|time| Numbers { time, ..old });
    for numbers in lanes.chain(classes).chain(axles).chain(times) {
        with_numbers(calls, &right, numbers);
    }
}

/// All choices of numbers that fit, are too low and too great, so that the
/// lowest byte of several is returned.
pub fn choices_of_numbers(calls: &mut Calls) {
    let right = Fields::random(&mut calls.random);
    for lane in [0, 1, 999, 1_000, (1 << 32) + 1, u64::MAX] {
        for time in [0, MOST.time, MOST.time + 1, 1 << 34, u64::MAX] {
            for class in [0, 1, 9, 10, 257, u64::MAX] {
                for axles in [0, 1, 2, 99, 100, 258, (1 << 32) + 2, u64::MAX] {
                    let numbers = Numbers {
                        lane,
                        time,
                        class,
                        axles,
                    };
                    with_numbers(calls, &right, numbers);
                }
            }
        }
    }
}

/// Every byte value at every place of plate and blind; the plate has so many
/// places without `-`.
pub fn every_byte(calls: &mut Calls, filled: usize) {
    let right = Fields::right(filled, &mut calls.random);
    for place in 0..PLATE_BYTES + BLIND_BYTES {
        for byte in 0..=u8::MAX {
            let mut fields = right.clone();
            match place.checked_sub(PLATE_BYTES) {
                None => fields.plate[place] = byte,
                Some(place) => fields.blind[place] = byte,
            }
            calls.passage_write(&fields, LINE_BYTES, "one byte changed");
        }
    }
    let name = "plates and blinds with every byte at every place";
    calls.tally.count(name, 1);
}

/// A fault of refusal 16 by its byte in the line.
fn spoil(fields: &mut Fields, byte: usize) {
    match byte {
        0 => fields.numbers.lane = 1_000,
        4 => fields.numbers.time = MOST.time + 1,
        15 => fields.numbers.class = 0,
        17 => fields.numbers.axles = 100,
        PLATE..BLIND => fields.plate[byte - PLATE] = b'_',
        _ => fields.blind[byte - BLIND] = b'G',
    }
}

/// Two such faults in every pair of places: the lower one must be returned.
pub fn two_wrong_fields(calls: &mut Calls) {
    let plate = PLATE..PLATE + PLATE_BYTES;
    let blind = BLIND..BLIND + BLIND_BYTES;
    let bytes: Vec<usize> = [0, 4, 15, 17]
        .into_iter()
        .chain(plate)
        .chain(blind)
        .collect();
    for (index, &low) in bytes.iter().enumerate() {
        for &high in &bytes[index..] {
            let mut fields = Fields::random(&mut calls.random);
            spoil(&mut fields, low);
            spoil(&mut fields, high);
            let (judged, _) = calls.passage_write(&fields, LINE_BYTES, "two wrong fields");
            calls.must_answer(wrong_byte(low), judged, "two wrong fields");
        }
    }
}

/// Numbers that are right, and some of which one is refused.
fn right_and_wrong(right: Numbers) -> [Numbers; 7] {
    [
        right,
        Numbers { lane: 0, ..right },
        Numbers {
            lane: 1_000,
            ..right
        },
        Numbers {
            time: MOST.time + 1,
            ..right
        },
        Numbers { class: 0, ..right },
        Numbers { axles: 1, ..right },
        Numbers {
            axles: 100,
            ..right
        },
    ]
}

/// Plates and blinds of 0 to 43 bytes each, among them all pairs that fill the
/// line together, and longer ones that would be right after losing upper bits;
/// with bytes that are right and wrong, and numbers that are.
pub fn sizes(calls: &mut Calls) {
    let wide = [(266, 32), (10, 288), (266, 288), (65_546, 32), (10, 65_568)];
    let small = (0..=43).flat_map(|plate| (0..=43).map(move |blind| (plate, blind)));
    let other = |&sizes: &(usize, usize)| sizes != (PLATE_BYTES, BLIND_BYTES);
    for (plate, blind) in small.chain(wide).filter(other) {
        for byte in [b'0', b'-'] {
            let mut fields = Fields::random(&mut calls.random);
            fields.plate = vec![byte; plate];
            fields.blind = vec![byte; blind];
            for numbers in right_and_wrong(fields.numbers) {
                fields.numbers = numbers;
                let (judged, _) = calls.passage_write(&fields, LINE_BYTES, "other sizes");
                calls.must_answer(15, judged, "other sizes");
            }
        }
    }
}

/// Buffers of 0 to 70 bytes and a longer one, for right fields, for lane 0 and
/// for a wrong blind.
pub fn buffers(calls: &mut Calls) {
    for out_len in (0..=70).chain([LINE_BYTES + 256]) {
        let mut fields = Fields::random(&mut calls.random);
        let (judged, _) = calls.passage_write(&fields, out_len, "any buffer");
        let must = if out_len < LINE_BYTES { 4 } else { 0 };
        calls.must_answer(must, judged, "any buffer");
        fields.numbers.lane = 0;
        let (judged, _) = calls.passage_write(&fields, out_len, "lane 0");
        calls.must_answer(17, judged, "lane 0");
        fields.blind[31] = b'A';
        let (judged, _) = calls.passage_write(&fields, out_len, "a wrong blind");
        calls.must_answer(wrong_byte(62), judged, "a wrong blind");
    }
}

/// "Slices that are only read may overlap" (docs/HOST.md): plate and blind are
/// those of a line, and parts of the same digits at any distance.
pub fn parts_of_one_slice(calls: &mut Calls) {
    let fields = Fields::random(&mut calls.random);
    calls.passage_write_parts(&fields, &fields.line(), [PLATE, BLIND]);
    let digits = some_of(DIGITS, PLATE_BYTES + BLIND_BYTES, &mut calls.random);
    for plate in 0..=BLIND_BYTES {
        for blind in 0..=PLATE_BYTES {
            calls.passage_write_parts(&fields, &digits, [plate, blind]);
        }
    }
}

/// So many fields written, read from what the library wrote, and written again
/// from what was read.
pub fn there_and_back(calls: &mut Calls, count: usize) {
    for _ in 0..count {
        let fields = Fields::random(&mut calls.random);
        let out_len = enough(calls, LINE_BYTES);
        let (judged, left) = calls.passage_write(&fields, out_len, "right fields");
        calls.must_answer(0, judged, "right fields");
        let line = &left[..LINE_BYTES];
        let judged = calls.passage_read(line, "a written line");
        calls.must_answer(fields.answer(), judged, "a written line");
        let again = Fields {
            numbers: numbers_of(judged),
            plate: line[PLATE..PLATE + PLATE_BYTES].to_vec(),
            blind: line[BLIND..].to_vec(),
        };
        let (_, back) = calls.passage_write(&again, LINE_BYTES, "fields that were read");
        if back != line {
            let line = line.escape_ascii();
            calls
                .tally
                .difference(format!("'{line}' is not what it was, read and written"));
        }
        calls
            .tally
            .count("lines written, read and written again", 1);
    }
}

/// The numbers that an answer without a refusal holds.
fn numbers_of(answer: u64) -> Numbers {
    let part = |from: u32, bits: u32| answer >> from & ((1 << bits) - 1);
    Numbers {
        lane: part(8, 10),
        time: part(18, 34),
        class: part(52, 4),
        axles: part(56, 7),
    }
}
