//! Pack and unpack under a limit of sixteen blocks, and the program `packed`, by
//! facts worked out by hand.

mod support;

use std::ops::Range;

use judge::field::P;
use judge::forms::Wire;
use judge::limit::SIXTEEN;
use judge::packed::answer;
use judge::packing;
use judge::refusal::Refusal;
use judge::{layout, sm3};
use support::{
    bytes, length, not_below_prime, record, run, set_entry, untouched, FROM_PRIME, LENGTHS, OLD,
};

/// At length 0 there are 23,041 wires: 184,328 bytes of entries, and 2,881
/// packed bytes, of which the last has one wire.
const ENTRIES: usize = 184_328;
const PACKED: usize = 2_881;

/// An assignment of length 0 in which these wires have these numbers and all
/// others 0.
fn with(entries: &[(usize, u64)]) -> Vec<u8> {
    let mut assignment = vec![0; ENTRIES];
    for &(wire, value) in entries {
        set_entry(&mut assignment, wire, value);
    }
    assignment
}

fn pack(bits: u64, assignment: &[u8], buffer: &mut [u8]) -> Result<(), Refusal> {
    packing::pack(SIXTEEN, bits, assignment, buffer)
}

fn unpack(bits: u64, packed: &[u8], buffer: &mut [u8]) -> Result<(), Refusal> {
    packing::unpack(SIXTEEN, bits, packed, buffer)
}

fn packed(bits: u64, assignment: &[u8]) -> Result<Vec<u8>, Refusal> {
    let mut buffer = vec![OLD; length(bits).packed_bytes()];
    pack(bits, assignment, &mut buffer).map(|()| buffer)
}

fn no_bit<T>(wire: usize) -> Result<T, Refusal> {
    Err(Refusal::NoBit(Wire(wire as u32)))
}

fn unpacked(bits: u64, packed: &[u8]) -> Result<Vec<u8>, Refusal> {
    let mut buffer = vec![OLD; length(bits).assignment_bytes()];
    unpack(bits, packed, &mut buffer).map(|()| buffer)
}

#[test]
fn packed_bytes_are_65_and_2816_a_block() {
    assert_eq!(length(0).packed_bytes(), PACKED);
    assert_eq!(length(448).packed_bytes(), 5_697);
    assert_eq!(length(8127).packed_bytes(), 45_121);
    for bits in LENGTHS {
        let length = length(bits);
        assert_eq!(length.packed_bytes(), 65 + 2_816 * length.blocks());
        assert_eq!(8 * length.packed_bytes() - length.wires(), 7, "spare bits");
    }
}

#[test]
fn a_wire_goes_to_its_byte_and_bit() {
    let places = [
        (0, 0, 0x80),
        (1, 0, 0x40),
        (7, 0, 0x01),
        (8, 1, 0x80),
        (31, 3, 0x01),
        (32, 4, 0x80),
        (513, 64, 0x40),
        (23_039, 2_879, 0x01),
        (23_040, 2_880, 0x80),
    ];
    for (wire, byte, value) in places {
        let mut expected = vec![0; PACKED];
        expected[byte] = value;
        let assignment = with(&[(wire, 1)]);
        assert_eq!(packed(0, &assignment), Ok(expected.clone()), "wire {wire}");
        assert_eq!(unpacked(0, &expected), Ok(assignment), "wire {wire}");
    }
}

#[test]
fn entries_are_not_read_modulo_p() {
    let shifted = [(1, P + 1), (8, 7 * P + 1), (9, P), (10, 8 * P)];
    for lowest in 0..shifted.len() {
        let entries = with(&shifted[lowest..]);
        assert_eq!(packed(0, &entries), not_below_prime(shifted[lowest].0));
    }
    for value in FROM_PRIME {
        for wire in [0, 31, 32, 33, 64, 23_040] {
            assert_eq!(packed(0, &with(&[(wire, value)])), not_below_prime(wire));
        }
    }
}

#[test]
fn an_entry_of_p_or_more_comes_before_one_that_is_no_bit() {
    // The lowest of p or more over all entries, whatever stands below it.
    let entries = [(0, 2), (3, P - 1), (4_000, u64::MAX), (5_000, P)];
    assert_eq!(packed(0, &with(&entries)), not_below_prime(4_000));
    assert_eq!(packed(0, &with(&entries[..2])), no_bit(0));
    assert_eq!(packed(0, &with(&entries[1..2])), no_bit(3));
}

#[test]
fn the_lowest_entry_that_is_no_bit_is_returned() {
    for value in [2, 0x100, 1 << 32, 1 << 60, P - 2, P - 1] {
        for wire in [0, 31, 32, 33, 64, 23_040] {
            assert_eq!(packed(0, &with(&[(wire, value)])), no_bit(wire));
        }
    }
    let three = with(&[(23_040, 2), (4_000, 3), (70, 1), (5_000, P - 2)]);
    assert_eq!(packed(0, &three), no_bit(4_000));
}

#[test]
fn a_record_packs_and_unpacks() {
    for bits in LENGTHS {
        let assignment = layout::assignment(&record(bits, 7));
        let small = packed(bits, &assignment).unwrap();
        // Wire 0, then the digest's 256 bits, so that they are moved down by
        // one; then the start words.
        let digest = sm3::hash(&record(bits, 7));
        assert_eq!(small[0], 0x80 | digest[0] >> 1);
        assert_eq!(small[32], digest[31] << 7 | 0x39, "and 73 >> 1");
        assert!(unpacked(bits, &small) == Ok(assignment), "{bits} bits");
    }
}

#[test]
fn any_bytes_without_spare_bits_unpack() {
    for bits in LENGTHS {
        let size = length(bits).packed_bytes();
        let mut small = bytes(size, 8);
        small[size - 1] &= 0x80;
        let assignment = unpacked(bits, &small).unwrap();
        assert!(packed(bits, &assignment) == Ok(small), "{bits} bits");
    }
}

#[test]
fn bytes_past_the_result_stay() {
    let (ones, mut small) = (with(&[(0, 1)]), [OLD; PACKED + 3]);
    assert_eq!(pack(0, &ones, &mut small), Ok(()));
    assert!(untouched(&small[PACKED..]));
    let mut entries = vec![OLD; ENTRIES + 9];
    assert_eq!(unpack(0, &small[..PACKED], &mut entries), Ok(()));
    assert!(entries[..ENTRIES] == ones[..] && untouched(&entries[ENTRIES..]));
}

#[test]
fn pack_refuses_in_the_order_2_4_6_20_10() {
    let (mut short, mut exact) = (vec![OLD; PACKED - 1], vec![OLD; PACKED]);
    let (wrong, two) = (vec![0xff; ENTRIES - 1], with(&[(9, 2)]));
    let both = with(&[(9, 2), (23_040, P)]);
    for length in [8128, 1 << 32, (1 << 61) + 3, 1 << 63, u64::MAX] {
        assert_eq!(pack(length, &wrong, &mut short), Err(Refusal::Length));
    }
    assert_eq!(pack(0, &wrong, &mut short), Err(Refusal::Buffer));
    assert_eq!(pack(0, &both, &mut short), Err(Refusal::Buffer));
    assert_eq!(pack(448, &two, &mut exact), Err(Refusal::Buffer));
    for size in [0, ENTRIES - 8, ENTRIES - 1, ENTRIES + 1, ENTRIES + 8] {
        for byte in [0x02, 0xff] {
            let wrong = vec![byte; size];
            assert_eq!(pack(0, &wrong, &mut exact), Err(Refusal::AssignmentBytes));
        }
    }
    assert_eq!(pack(0, &both, &mut exact), not_below_prime(23_040));
    assert_eq!(pack(0, &two, &mut exact), no_bit(9));
    assert!(untouched(&short) && untouched(&exact));
}

#[test]
fn unpack_refuses_in_the_order_2_4_11_12() {
    let (mut short, mut exact) = (vec![OLD; ENTRIES - 1], vec![OLD; ENTRIES]);
    let (wrong, mut spare) = ([0xff; PACKED - 1], [0; PACKED]);
    for length in [8128, 1 << 32, (1 << 61) + 3, 1 << 63, u64::MAX] {
        assert_eq!(unpack(length, &wrong, &mut short), Err(Refusal::Length));
    }
    assert_eq!(unpack(0, &wrong, &mut short), Err(Refusal::Buffer));
    assert_eq!(unpack(448, &wrong, &mut exact), Err(Refusal::Buffer));
    for size in [0, PACKED - 1, PACKED + 1, 5_697] {
        let wrong = vec![0xff; size];
        assert_eq!(unpack(0, &wrong, &mut exact), Err(Refusal::PackedBytes));
    }
    for bits in [0x01, 0x02, 0x04, 0x08, 0x10, 0x20, 0x40, 0x7f, 0xff] {
        spare[PACKED - 1] = bits;
        assert_eq!(unpack(0, &spare, &mut short), Err(Refusal::Buffer));
        assert_eq!(unpack(0, &spare, &mut exact), Err(Refusal::SpareBit));
    }
    assert!(untouched(&short) && untouched(&exact));
}

/// A record's length, digest and packed bytes as the program reads them.
fn claim(bits: u64) -> Vec<u8> {
    let record = record(bits, 9);
    let digest = sm3::hash(&record);
    let hex: String = digest.iter().map(|byte| format!("{byte:02x}")).collect();
    let mut input = format!("{bits},{hex}\n").into_bytes();
    input.extend(packed(bits, &layout::assignment(&record)).unwrap());
    input
}

/// The line of length 0, which is 67 bytes long, with a part of it replaced:
/// nothing behind it, and the packed bytes behind it.
fn assert_bad_line(part: Range<usize>, by: &[u8]) {
    let mut line = claim(0)[..67].to_vec();
    line.splice(part, by.iter().copied());
    let shown = line.escape_ascii().to_string();
    assert_eq!(answer(&line), "refused,1\n", "{shown}");
    line.extend(&claim(0)[67..]);
    assert_eq!(answer(&line), "refused,1\n", "{shown}");
}

#[test]
fn claims_that_are_accepted() {
    for bits in [0, 1, 440, 447, 448, 453, 8120, 8127] {
        assert_eq!(answer(&claim(bits)), "accepted\n", "{bits} bits");
    }
}

#[test]
fn a_claim_of_another_length_in_the_same_byte_is_refused() {
    let right = claim(27);
    for other in ["25", "26", "28", "32"] {
        let mut input = right.clone();
        input.splice(..2, other.bytes());
        assert_eq!(answer(&input), "refused,9\n", "{other} bits");
    }
}

#[test]
fn lines_that_are_refusal_1() {
    assert_eq!(answer(b""), "refused,1\n");
    assert_eq!(answer(b"\n"), "refused,1\n");
    let length: [&[u8]; 9] = [
        b"",
        b"A",
        b"-0",
        b"+0",
        b" 0",
        b"00",
        b"01",
        b"\n0",
        b"1234567890",
    ];
    for by in length {
        assert_bad_line(0..1, by);
    }
    let comma: [&[u8]; 5] = [b"", b";", b",,", b", ", b",0,"];
    for by in comma {
        assert_bad_line(1..2, by);
    }
    // A digit of the digest: none, two, and bytes that are no digit.
    let digit: [&[u8]; 8] = [b"", b"00", b"A", b"F", b"g", b"/", b"`", b"\n"];
    for by in digit {
        assert_bad_line(2..3, by);
        assert_bad_line(65..66, by);
    }
    let feed: [&[u8]; 5] = [b"\r\n", b",\n", b"\0\n", b" \n", b"\r"];
    for by in feed {
        assert_bad_line(66..67, by);
    }
    // The length 8,128 would be refusal 2.
    assert_bad_line(0..3, b"8128,A");
}

#[test]
fn a_line_without_its_feed_is_refusal_1() {
    let input = claim(0);
    for end in 0..67 {
        assert_eq!(answer(&input[..end]), "refused,1\n", "{end} bytes");
    }
    assert_eq!(answer(&[b'1'; 100_000]), "refused,1\n");
}

#[test]
fn a_length_out_of_range_is_refused_before_the_bytes_are_looked_at() {
    for length in ["8128", "999999999"] {
        let mut input = claim(0);
        input.splice(..1, length.bytes());
        assert_eq!(answer(&input), "refused,2\n", "{length}");
        assert_eq!(answer(&input[..66 + length.len()]), "refused,2\n");
        input.extend([0xff; 10_000]);
        assert_eq!(answer(&input), "refused,2\n", "{length}");
    }
}

#[test]
fn packed_lengths_and_spare_bits() {
    let mut input = claim(0);
    let exact = input.len();
    assert_eq!(exact, 67 + PACKED);
    input[exact - 1] |= 0x01;
    assert_eq!(answer(&input), "refused,12\n");
    // Wire 0 besides, which comes later.
    input[67] ^= 0x80;
    assert_eq!(answer(&input), "refused,12\n");
    for size in [67, 68, exact - 1, exact + 1, exact + 100_000] {
        input.resize(size, 0xff);
        assert_eq!(answer(&input), "refused,11\n", "{size} bytes");
    }
}

#[test]
fn claims_that_the_check_refuses() {
    let right = claim(0);
    let (line, bytes) = (2, 67);
    let mut row = right.clone();
    row[bytes + 100] ^= 0x10;
    assert_eq!(answer(&row), "refused,9\n");
    // Another digit of the digest, with and without the row's fault.
    for mut digest in [right, row] {
        digest[line] = if digest[line] == b'0' { b'1' } else { b'0' };
        assert_eq!(answer(&digest), "refused,8\n");
        digest[bytes] ^= 0x80;
        assert_eq!(answer(&digest), "refused,7\n");
    }
}

#[test]
fn the_binary() {
    assert_eq!(run(&["packed"], &claim(27)), "accepted\n");
    assert_eq!(run(&["packed"], &claim(27)[2..]), "refused,1\n");
}
