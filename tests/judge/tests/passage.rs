//! Passages: read, write, seal and check, by facts worked out by hand.

mod support;

use judge::forms::RowNumber;
use judge::limit::TWO;
use judge::operations;
use judge::passage::line::Place;
use judge::passage::{check, read, seal, write, Numbers, Passage};
use judge::refusal::Refusal;
use support::{bytes, entry, not_below_prime, set_entry, untouched, FROM_PRIME, OLD};

/// A right line, its fields and its digest, which is OpenSSL's.
const LINE: &[u8; 63] = b"042,1700000000,3,05,AB12345---,0123456789abcdef0123456789abcdef";
const NUMBERS: Numbers = Numbers {
    lane: 42,
    time: 1_700_000_000,
    class: 3,
    axles: 5,
};
const PLATE: &[u8; 10] = b"AB12345---";
const BLIND: &[u8; 32] = b"0123456789abcdef0123456789abcdef";
const DIGEST: &str = "9ccef91adb2e267494b34d847e30998be320b717bcf43f6992c2e4aa7e67539c";

/// The bytes of a line's assignment.
const ASSIGNMENT: usize = 364_552;

/// The right line with some bytes replaced.
fn with(parts: &[(usize, &[u8])]) -> Vec<u8> {
    let mut line = LINE.to_vec();
    for (at, part) in parts {
        line[*at..at + part.len()].copy_from_slice(part);
    }
    line
}

fn wrong(place: u8) -> Refusal {
    Refusal::WrongByte(Place(place))
}

fn numbers(lane: u64, time: u64, class: u64, axles: u64) -> Numbers {
    Numbers {
        lane,
        time,
        class,
        axles,
    }
}

fn unsatisfied(row: u32) -> Result<(), Refusal> {
    Err(Refusal::Unsatisfied(RowNumber(row)))
}

/// Read and seal must refuse this line, seal without room too, as 4 comes last.
fn refused(line: &[u8], refusal: Refusal) {
    let shown = line.escape_ascii().to_string();
    assert_eq!(read(line), Err(refusal), "{shown}");
    assert_eq!(seal(line, &mut [], &mut []), Err(refusal), "{shown}");
}

/// The line that is written.
fn written(numbers: Numbers, plate: &[u8], blind: &[u8]) -> Result<Vec<u8>, Refusal> {
    let mut buffer = vec![OLD; 63];
    write(numbers, plate, blind, &mut buffer).map(|()| buffer)
}

/// Write must refuse this, with room and without.
fn write_refused(numbers: Numbers, plate: &[u8], blind: &[u8], refusal: Refusal) {
    for size in [0, 62, 63, 64] {
        let mut buffer = vec![OLD; size];
        let answer = write(numbers, plate, blind, &mut buffer);
        assert_eq!(answer, Err(refusal), "{numbers:?}, {plate:?}, {blind:?}");
        assert!(untouched(&buffer));
    }
}

#[test]
fn a_line_and_its_fields() {
    let passage = Passage {
        numbers: NUMBERS,
        plate: PLATE,
        blind: BLIND,
    };
    assert_eq!(read(LINE), Ok(passage));
    assert_eq!(written(NUMBERS, PLATE, BLIND), Ok(LINE.to_vec()));
}

#[test]
fn numbers_at_their_ends() {
    let lowest = numbers(1, 0, 1, 2);
    let highest = numbers(999, 9_999_999_999, 9, 99);
    let fronts: [(Numbers, &[u8; 20]); 2] = [
        (lowest, b"001,0000000000,1,02,"),
        (highest, b"999,9999999999,9,99,"),
    ];
    for (numbers, front) in fronts {
        let line = with(&[(0, front)]);
        assert_eq!(read(&line).map(|passage| passage.numbers), Ok(numbers));
        assert_eq!(written(numbers, PLATE, BLIND), Ok(line));
    }
}

#[test]
fn lines_of_other_than_63_bytes_are_refusal_15() {
    for size in (0..63).chain(64..=130) {
        let line: Vec<u8> = LINE.iter().cycle().take(size).copied().collect();
        refused(&line, Refusal::LineBytes);
        // With wrong bytes and lane 000 besides.
        refused(&vec![b'0'; size], Refusal::LineBytes);
    }
    refused(&[LINE, &b"\n"[..]].concat(), Refusal::LineBytes);
}

/// The bytes that a place of the right line allows, by the paper's list.
fn allowed(place: usize) -> Vec<u8> {
    let digits = b"0123456789".to_vec();
    let plate = b"ABCDEFGHIJKLMNOPQRSTUVWXYZ0123456789".to_vec();
    match place {
        3 | 14 | 16 | 19 | 30 => vec![b','],
        15 => b"123456789".to_vec(),
        0..=13 | 17 | 18 => digits,
        20 => plate,
        // A letter in the last place before `---`, and `-` itself.
        26 => [&plate[..], b"-"].concat(),
        // Before other letters: a `-` makes the next place wrong.
        21..=25 => plate,
        // The first place of `---` may have a letter; the others not.
        27 => [&plate[..], b"-"].concat(),
        28 | 29 => vec![b'-'],
        _ => b"0123456789abcdef".to_vec(),
    }
}

#[test]
fn every_byte_at_every_place() {
    for place in 0..63 {
        let allowed = allowed(place);
        for byte in 0..=255 {
            let line = with(&[(place, &[byte])]);
            if allowed.contains(&byte) {
                // Neither lane 000 nor axles 00 or 01.
                if !(place == 18 && byte < b'2') {
                    assert!(read(&line).is_ok(), "byte {byte} at {place}");
                }
            } else {
                // A `-` before a letter is right; then the letter is wrong.
                let after = (21..=25).contains(&place) && byte == b'-';
                refused(&line, wrong(place as u8 + u8::from(after)));
            }
        }
    }
}

#[test]
fn the_lowest_wrong_byte_is_returned() {
    for low in 0..63 {
        for high in low + 1..63 {
            let line = with(&[(low, b"!"), (high, b"!")]);
            refused(&line, wrong(low as u8));
        }
    }
    refused(&[b'-'; 63], wrong(0));
    refused(&with(&[(15, b"0"), (16, b"0")]), wrong(15));
}

#[test]
fn plates() {
    let right: [&[u8; 10]; 6] = [
        b"A---------",
        b"0---------",
        b"Z9--------",
        b"ABCDEFGHI-",
        b"ABCDEFGHIJ",
        b"0123456789",
    ];
    for plate in right {
        let line = with(&[(20, plate)]);
        assert_eq!(read(&line).map(|passage| passage.plate), Ok(&plate[..]));
        assert_eq!(written(NUMBERS, plate, BLIND), Ok(line));
    }
    let wrong_plates: [(&[u8; 10], u8); 9] = [
        (b"----------", 20),
        (b"-A--------", 20),
        (b"-BCDEFGHIJ", 20),
        (b"A-B-------", 22),
        (b"A--------B", 29),
        (b"A-0-------", 22),
        (b"AB--C-D---", 24),
        (b"a---------", 20),
        (b"A         ", 21),
    ];
    for (plate, place) in wrong_plates {
        refused(&with(&[(20, plate)]), wrong(place));
        write_refused(NUMBERS, plate, BLIND, wrong(place));
    }
}

#[test]
fn lane_000_and_axles_below_02_are_refusal_17() {
    let lane = |lane| Numbers { lane, ..NUMBERS };
    let axles = |axles| Numbers { axles, ..NUMBERS };
    let below: [(usize, &[u8], Numbers); 3] = [
        (0, b"000", lane(0)),
        (17, b"00", axles(0)),
        (17, b"01", axles(1)),
    ];
    for (at, digits, numbers) in below {
        refused(&with(&[(at, digits)]), Refusal::LaneOrAxles);
        write_refused(numbers, PLATE, BLIND, Refusal::LaneOrAxles);
        // A wrong byte comes before, wherever it stands.
        refused(&with(&[(at, digits), (62, b"g")]), wrong(62));
        let mut blind = *BLIND;
        blind[31] = b'g';
        write_refused(numbers, PLATE, &blind, wrong(62));
    }
    refused(&with(&[(0, b"000"), (17, b"00")]), Refusal::LaneOrAxles);
    // Class 0 is a wrong byte.
    refused(&with(&[(0, b"000"), (15, b"0")]), wrong(15));
}

#[test]
fn numbers_too_great_give_their_fields_first_byte() {
    let wide = [8, 10, 16, 32, 34, 48, 63].map(|place| 1u64 << place);
    for add in wide.into_iter().chain([u64::MAX - 9_999_999_999]) {
        let lane = 999 + add.max(1 << 10);
        let time = 9_999_999_999 + add;
        let (class, axles) = (1 + add, 2 + add);
        write_refused(Numbers { lane, ..NUMBERS }, PLATE, BLIND, wrong(0));
        write_refused(Numbers { time, ..NUMBERS }, PLATE, BLIND, wrong(4));
        write_refused(Numbers { class, ..NUMBERS }, PLATE, BLIND, wrong(15));
        write_refused(Numbers { axles, ..NUMBERS }, PLATE, BLIND, wrong(17));
    }
}

#[test]
fn one_more_than_digits_can_write_and_class_0() {
    let wrong_by_one = [
        (numbers(1_000, 0, 3, 5), 0),
        (numbers(42, 10_000_000_000, 3, 5), 4),
        (numbers(42, 0, 10, 5), 15),
        (numbers(42, 0, 0, 5), 15),
        (numbers(42, 0, 3, 100), 17),
    ];
    for (numbers, place) in wrong_by_one {
        write_refused(numbers, PLATE, BLIND, wrong(place));
    }
}

#[test]
fn of_wrong_fields_the_lowest_byte_is_returned() {
    let mut numbers = numbers(1_000, u64::MAX, 0, 100);
    let (plate, blind) = (&[b'-'; 10], &[b'A'; 32]);
    write_refused(numbers, plate, blind, wrong(0));
    // Lane 0 is 17, which comes after all of these.
    numbers.lane = 0;
    write_refused(numbers, plate, blind, wrong(4));
    numbers.time = 0;
    write_refused(numbers, plate, blind, wrong(15));
    numbers.class = 1;
    write_refused(numbers, plate, blind, wrong(17));
    numbers.axles = 1;
    write_refused(numbers, plate, blind, wrong(20));
    write_refused(numbers, PLATE, blind, wrong(31));
    write_refused(numbers, PLATE, BLIND, Refusal::LaneOrAxles);
}

#[test]
fn plates_and_blinds_of_other_sizes_are_refusal_15() {
    let numbers = Numbers {
        lane: 1_000,
        ..NUMBERS
    };
    let sizes = [(11, 31), (9, 33), (42, 0), (0, 42), (10, 31), (10, 33)];
    let more = [(9, 32), (11, 32), (0, 0), (32, 10), (266, 32), (10, 288)];
    for (plate, blind) in sizes.into_iter().chain(more) {
        let (plate, blind) = (vec![b'A'; plate], vec![b'0'; blind]);
        write_refused(NUMBERS, &plate, &blind, Refusal::LineBytes);
        write_refused(numbers, &plate, &blind, Refusal::LineBytes);
    }
}

#[test]
fn write_fills_63_bytes() {
    for size in 0..=70 {
        let mut buffer = vec![OLD; size];
        let answer = write(NUMBERS, PLATE, BLIND, &mut buffer);
        if size < 63 {
            assert_eq!(answer, Err(Refusal::Buffer));
            assert!(untouched(&buffer));
        } else {
            assert_eq!(answer, Ok(()));
            assert!(buffer[..63] == *LINE && untouched(&buffer[63..]));
        }
    }
}

/// Repeatable right fields.
fn fields(seed: u64) -> (Numbers, Vec<u8>, Vec<u8>) {
    let drawn = bytes(64, seed);
    let wide = u64::from_le_bytes(drawn[..8].try_into().unwrap());
    let time = wide % 10_000_000_000;
    let numbers = numbers(1 + wide % 999, time, 1 + wide % 9, 2 + wide % 98);
    let pick = |from: &[u8], byte: &u8| from[usize::from(*byte) % from.len()];
    let places = drawn[8..18].iter();
    let mut plate: Vec<u8> = places.map(|byte| pick(b"ABYZ0189", byte)).collect();
    plate[1 + usize::from(drawn[18]) % 9..].fill(b'-');
    let places = drawn[19..51].iter();
    let blind = places.map(|byte| pick(b"0123456789abcdef", byte)).collect();
    (numbers, plate, blind)
}

#[test]
fn reading_and_writing_undo_each_other() {
    for seed in 0..10_000 {
        let (numbers, plate, blind) = fields(seed);
        let line = written(numbers, &plate, &blind).unwrap();
        let passage = Passage {
            numbers,
            plate: &plate,
            blind: &blind,
        };
        assert_eq!(read(&line), Ok(passage));
        let again = read(&line).unwrap();
        let back = written(again.numbers, again.plate, again.blind);
        assert_eq!(back.as_ref(), Ok(&line));
    }
}

#[test]
fn a_sealed_line_is_accepted() {
    let (mut digest, mut assignment) = ([OLD; 35], vec![OLD; ASSIGNMENT + 5]);
    assert_eq!(seal(LINE, &mut digest, &mut assignment), Ok(()));
    assert!(untouched(&digest[32..]) && untouched(&assignment[ASSIGNMENT..]));
    let (digest, assignment) = (&digest[..32], &mut assignment[..ASSIGNMENT]);
    let hex: String = digest.iter().map(|byte| format!("{byte:02x}")).collect();
    assert_eq!(hex, DIGEST);
    // Block bits: the line's own bits from wire 513 on, then the padding's 1.
    for bit in 0..504 {
        let value = u64::from(LINE[bit / 8] >> (7 - bit % 8) & 1);
        assert_eq!(entry(assignment, 513 + bit), value, "bit {bit}");
    }
    assert_eq!(entry(assignment, 513 + 504), 1);
    let mut produced = vec![OLD; ASSIGNMENT];
    assert_eq!(operations::produce(TWO, 504, LINE, &mut produced), Ok(()));
    assert!(produced == assignment);
    assert_eq!(check(digest, assignment), Ok(()));
    // The padding's 1 turned over: row 256 + m is that of block bit m.
    set_entry(assignment, 513 + 504, 0);
    assert_eq!(check(digest, assignment), unsatisfied(256 + 504));
}

#[test]
fn seal_measures_both_buffers_before_it_writes() {
    for (digest_bytes, assignment_bytes) in [
        (31, ASSIGNMENT),
        (32, ASSIGNMENT - 1),
        (31, ASSIGNMENT - 1),
        (0, ASSIGNMENT),
        (32, 0),
        (0, 0),
    ] {
        let (mut digest, mut assignment) = (vec![OLD; digest_bytes], vec![OLD; assignment_bytes]);
        let answer = seal(LINE, &mut digest, &mut assignment);
        assert_eq!(answer, Err(Refusal::Buffer));
        assert!(untouched(&digest) && untouched(&assignment));
    }
}

#[test]
fn a_refused_seal_changes_nothing() {
    let lines = [
        (LINE[1..].to_vec(), Refusal::LineBytes),
        (with(&[(30, b";")]), wrong(30)),
        (with(&[(17, b"01")]), Refusal::LaneOrAxles),
    ];
    for (line, refusal) in lines {
        let (mut digest, mut assignment) = ([OLD; 32], vec![OLD; ASSIGNMENT]);
        let answer = seal(&line, &mut digest, &mut assignment);
        assert_eq!(answer, Err(refusal));
        assert!(untouched(&digest) && untouched(&assignment));
    }
}

#[test]
fn check_refuses_in_the_order_5_6_20_7_8_9() {
    let (mut digest, mut assignment) = ([0; 32], vec![0; ASSIGNMENT]);
    assert_eq!(seal(LINE, &mut digest, &mut assignment), Ok(()));
    let short = &[0xff; ASSIGNMENT - 1];
    for size in [0, 31, 33] {
        assert_eq!(check(&vec![0; size], short), Err(Refusal::DigestBytes));
    }
    for size in [0, 184_328, ASSIGNMENT - 8, ASSIGNMENT - 1, ASSIGNMENT + 1] {
        let other = vec![0xff; size];
        assert_eq!(check(&digest, &other), Err(Refusal::AssignmentBytes));
    }
    // Wire 513 is the line's first bit; its row is the first of block 0.
    let mut damaged = assignment;
    set_entry(&mut damaged, 513, 2);
    assert_eq!(check(&digest, &damaged), unsatisfied(256));
    set_entry(&mut damaged, 256, 2);
    assert_eq!(check(&digest, &damaged), Err(Refusal::DigestWire));
    set_entry(&mut damaged, 0, 0);
    assert_eq!(check(&digest, &damaged), Err(Refusal::WireZero));
    // The last wire, then one before it, and a digest wire.
    for wire in [45_568, 513, 256] {
        for value in FROM_PRIME {
            set_entry(&mut damaged, wire, value);
            assert_eq!(check(&digest, &damaged), not_below_prime(wire));
        }
    }
}

#[test]
fn check_takes_any_record_of_504_bits_and_no_other() {
    for (bits, must) in [(504, Ok(())), (503, Err(9)), (505, Err(9)), (496, Err(9))] {
        let record = support::record(bits, 3);
        let (mut digest, mut assignment) = ([0; 32], vec![0; ASSIGNMENT]);
        operations::digest(TWO, bits, record.bytes(), &mut digest).unwrap();
        operations::produce(TWO, bits, record.bytes(), &mut assignment).unwrap();
        let answer = check(&digest, &assignment).map_err(Refusal::number);
        assert_eq!(answer, must, "{bits} bits");
    }
}
