//! Digest, row and produce under a limit of sixteen blocks: refusals in order and
//! the bytes they write.

mod support;

use judge::limit::SIXTEEN;
use judge::operations::{self, row_with, Counts, ROW_BYTES};
use judge::refusal::Refusal;
use judge::{layout, rows, sm3};
use support::{entry, length, record, untouched, LENGTHS, OLD};

fn digest(bits: u64, record: &[u8], buffer: &mut [u8]) -> Result<(), Refusal> {
    operations::digest(SIXTEEN, bits, record, buffer)
}

fn produce(bits: u64, record: &[u8], buffer: &mut [u8]) -> Result<(), Refusal> {
    operations::produce(SIXTEEN, bits, record, buffer)
}

fn row(bits: u64, number: u64, buffer: &mut [u8]) -> Result<Counts, Refusal> {
    operations::row(SIXTEEN, bits, number, buffer)
}

#[test]
fn digest_writes_32_bytes() {
    for bits in LENGTHS {
        let record = record(bits, 5);
        let mut buffer = [OLD; 40];
        assert_eq!(digest(bits, record.bytes(), &mut buffer), Ok(()));
        assert_eq!(buffer[..32], sm3::hash(&record));
        assert!(untouched(&buffer[32..]));
        assert_eq!(digest(bits, record.bytes(), &mut buffer[..32]), Ok(()));
    }
}

#[test]
fn produce_writes_the_layout() {
    for bits in LENGTHS {
        let record = record(bits, 6);
        let size = 8 * length(bits).wires();
        let mut buffer = vec![OLD; size + 9];
        assert_eq!(produce(bits, record.bytes(), &mut buffer), Ok(()));
        assert!(buffer[..size] == layout::assignment(&record)[..]);
        for (wire, value) in layout::wires(&record).into_iter().enumerate() {
            assert_eq!(entry(&buffer, wire), u64::from(value), "wire {wire}");
        }
        assert!(untouched(&buffer[size..]));
    }
}

/// Digest and produce must both refuse this, a byte short of their buffer at
/// one block or with room for sixteen.
fn both_refuse(bits: u64, record: &[u8], refusal: Refusal) {
    let short = [31, 8 * length(0).wires() - 1];
    let long = [32, 8 * length(8127).wires()];
    for [digest_bytes, assignment_bytes] in [short, long] {
        if refusal == Refusal::Buffer && digest_bytes == 32 {
            continue;
        }
        let mut buffer = vec![OLD; digest_bytes];
        assert_eq!(digest(bits, record, &mut buffer), Err(refusal), "{bits}");
        assert!(untouched(&buffer));
        let mut buffer = vec![OLD; assignment_bytes];
        assert_eq!(produce(bits, record, &mut buffer), Err(refusal), "{bits}");
        assert!(untouched(&buffer));
    }
}

#[test]
fn a_short_buffer_is_refusal_4() {
    both_refuse(0, &[], Refusal::Buffer);
    both_refuse(3, &[0xe0], Refusal::Buffer);
    both_refuse(8127, &[0; 1016], Refusal::Buffer);
}

#[test]
fn a_length_out_of_range_is_refusal_2() {
    let wide = [1 << 32, (1 << 32) + 8, (1 << 61) + 3, 1 << 63];
    let high = [u64::MAX - 63, u64::MAX - 6, u64::MAX];
    for bits in [8128, 8129].into_iter().chain(wide).chain(high) {
        for record in [&[][..], &[0x00], &[0xff], &[0; 1016], &[0xff; 1017]] {
            both_refuse(bits, record, Refusal::Length);
        }
    }
}

#[test]
fn bytes_that_are_not_the_bits_over_8_rounded_up_are_refusal_13() {
    for bits in LENGTHS {
        let exact = (bits as usize).div_ceil(8);
        let less = exact.checked_sub(1);
        for size in less.into_iter().chain([exact + 1, 2 * exact + 1]) {
            both_refuse(bits, &vec![0; size], Refusal::RecordBytes);
            both_refuse(bits, &vec![0xff; size], Refusal::RecordBytes);
        }
    }
}

#[test]
fn a_bit_after_the_last_record_bit_is_refusal_14() {
    // Seven bits: one spare bit. One bit: seven.
    both_refuse(7, &[0x01], Refusal::BitAfterRecord);
    for spare in [0x40, 0x20, 0x10, 0x08, 0x04, 0x02, 0x01, 0x7f] {
        both_refuse(1, &[spare], Refusal::BitAfterRecord);
        both_refuse(1, &[0x80 | spare], Refusal::BitAfterRecord);
        both_refuse(
            449,
            &[vec![0; 56], vec![spare]].concat(),
            Refusal::BitAfterRecord,
        );
    }
    both_refuse(8127, &[0xff; 1016], Refusal::BitAfterRecord);
    // Whole bytes have no spare bits, and a record bit is none.
    let mut buffer = [OLD; 32];
    assert_eq!(digest(8, &[0xff], &mut buffer), Ok(()));
    assert_eq!(digest(7, &[0xfe], &mut buffer), Ok(()));
    assert_eq!(digest(1, &[0x80], &mut buffer), Ok(()));
}

#[test]
fn row_bytes_of_the_example() {
    // Row 1 at L 0: A 258,1; B 0,1; C 0,1.
    let mut buffer = [OLD; ROW_BYTES + 5];
    assert_eq!(row(0, 1, &mut buffer), Ok(Counts { a: 1, b: 1, c: 1 }));
    let a = [2, 1, 0, 0, 1, 0, 0, 0, 0, 0, 0, 0];
    let constant = [0, 0, 0, 0, 1, 0, 0, 0, 0, 0, 0, 0];
    assert_eq!(buffer[..12], a);
    assert_eq!(buffer[12..24], constant);
    assert_eq!(buffer[24..36], constant);
    assert!(untouched(&buffer[36..]));
}

#[test]
fn a_negative_coefficient_is_8_bytes_two_s_complement() {
    // Row 256 at 1 bit: A 513,1; B 0,-1 and 513,1.
    let mut buffer = [OLD; ROW_BYTES];
    assert_eq!(row(1, 256, &mut buffer), Ok(Counts { a: 1, b: 2, c: 0 }));
    let minus_one = [0, 0, 0, 0, 255, 255, 255, 255, 255, 255, 255, 255];
    assert_eq!(buffer[12..24], minus_one);
    // The row of u in round 0 has -2^33 on its higher carry, wire 8,097, as
    // the last term of A but one.
    let counts = row(0, 12_834, &mut buffer).unwrap();
    let at = 12 * (counts.a - 2);
    let carry = [161, 31, 0, 0, 0, 0, 0, 0, 254, 255, 255, 255];
    assert_eq!(buffer[at..at + 12], carry);
}

#[test]
fn row_bytes_read_back() {
    let length = length(449);
    let table = rows::rows(length);
    for (number, expected) in table.iter() {
        let mut buffer = [OLD; ROW_BYTES];
        let counts = row_with(&table, length, u64::from(number.0), &mut buffer).unwrap();
        let (a, b, c) = (expected.a.len(), expected.b.len(), expected.c.len());
        assert_eq!(counts, Counts { a, b, c });
        let terms = expected.a.iter().chain(expected.b).chain(expected.c);
        for (twelve, term) in buffer.chunks(12).zip(terms) {
            let wire = u32::from_le_bytes(twelve[..4].try_into().unwrap());
            let coefficient = i64::from_le_bytes(twelve[4..].try_into().unwrap());
            assert_eq!((wire, coefficient), (term.wire.0, term.coefficient));
        }
        assert!(untouched(&buffer[12 * expected.terms()..]));
    }
}

#[test]
fn row_refusals() {
    let mut buffer = [OLD; ROW_BYTES - 1];
    assert_eq!(row(8128, u64::MAX, &mut buffer), Err(Refusal::Length));
    assert_eq!(row(8127, 517_632, &mut buffer), Err(Refusal::Row));
    assert_eq!(row(0, u64::MAX, &mut buffer), Err(Refusal::Row));
    // A number that would fit the count after losing its upper half.
    assert_eq!(row(0, 1 << 32, &mut buffer), Err(Refusal::Row));
    assert_eq!(row(8120, 517_631, &mut buffer), Err(Refusal::Buffer));
    assert!(untouched(&buffer));
}
