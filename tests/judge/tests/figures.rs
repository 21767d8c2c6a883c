//! "Worked figures", all of them, and the counts that the text states. Their
//! coefficient p - 1 is given as -1 by "Signed coefficients".

mod support;

use judge::check::check;
use judge::field::{multiply, P};
use judge::forms::RowNumber;
use judge::length::Length;
use judge::limit::SIXTEEN;
use judge::packing::pack;
use judge::refusal::Refusal;
use judge::{entries, operations, rows, sm3};
use support::{length, not_below_prime, plain, set_entry};

#[test]
fn blocks_of_lengths() {
    // The paper's lengths in bytes, and the last and the first bit counts of
    // a number of blocks.
    let bytes = [(0, 1), (55, 1), (56, 2), (119, 2), (120, 3), (1015, 16)];
    for (bytes, blocks) in bytes {
        assert_eq!(length(8 * bytes).blocks(), blocks, "{bytes} bytes");
    }
    let bits = [(447, 1), (448, 2), (959, 2), (960, 3), (8127, 16)];
    for (bits, blocks) in bits {
        assert_eq!(length(bits).blocks(), blocks, "{bits} bits");
    }
    for bits in [8128, 1 << 32, (1 << 61) + 3, u64::MAX - 6, u64::MAX] {
        assert_eq!(Length::new(bits), Err(Refusal::Length), "{bits} bits");
    }
}

#[test]
fn lengths_in_whole_bytes_keep_their_counts() {
    for bytes in 0..=1015 {
        let blocks = (bytes + 8) / 64 + 1;
        let length = length(8 * bytes as u64);
        assert_eq!(length.blocks(), blocks, "{bytes} bytes");
        assert_eq!(length.record_bytes(), bytes);
        assert_eq!(length.wires(), 513 + 22_528 * blocks);
        assert_eq!(length.rows(), 512 + 32_320 * blocks);
    }
}

#[test]
fn wires_and_rows_of_lengths() {
    assert_eq!((length(0).wires(), length(0).rows()), (23_041, 32_832));
    for bits in [8120, 8127] {
        let length = length(bits);
        assert_eq!((length.wires(), length.rows()), (360_961, 517_632));
    }
}

#[test]
fn numbers_modulo_p() {
    assert_eq!(P, (1 << 61) - 1);
    assert_eq!(multiply(1 << 60, 2), 1);
}

#[test]
fn entries_p_and_2_64_minus_1_stop_reading_as_0_and_7() {
    for value in [P, u64::MAX] {
        assert_eq!(entries::read(&value.to_le_bytes()), not_below_prime(0));
        let mut assignment = vec![0; length(0).assignment_bytes()];
        set_entry(&mut assignment, 513, value);
        let packed = &mut [0; 2_881];
        assert_eq!(
            check(SIXTEEN, 0, &assignment, &[0; 32]),
            not_below_prime(513)
        );
        assert_eq!(pack(SIXTEEN, 0, &assignment, packed), not_below_prime(513));
    }
    let bytes = [[1, 2, 0, 0, 0, 0, 0, 0], (P - 1).to_le_bytes()];
    assert_eq!(entries::read(&bytes.concat()), Ok(vec![513, P - 1]));
}

#[test]
fn permutations_and_turned_constants() {
    assert_eq!((sm3::p0(1), sm3::p1(1)), (0x00020201, 0x00808001));
    assert_eq!(sm3::turned_t(1), 0xf3988a32);
    assert_eq!(sm3::turned_t(16), 0x9d8a7a87);
    assert_eq!(sm3::turned_t(32), 0x7a879d8a);
}

#[test]
fn row_256_at_lengths_0_and_1() {
    // The paper's L 1 is 8 bits; at 1 bit the wire is the record's too.
    let fixed = rows::rows(length(0));
    let expected = [vec![(513, 1)], vec![(0, 1)], vec![(0, 1)]];
    assert_eq!(plain(fixed.row(RowNumber(256))), expected);
    let expected = [vec![(513, 1)], vec![(0, -1), (513, 1)], vec![]];
    for bits in [1, 8] {
        let bit = rows::rows(length(bits));
        assert_eq!(plain(bit.row(RowNumber(256))), expected);
    }
}

#[test]
fn row_32576_at_length_0() {
    let table = rows::rows(length(0));
    let expected = [vec![(1, 1), (22_785, -1)], vec![(0, 1)], vec![]];
    assert_eq!(plain(table.row(RowNumber(32_576))), expected);
}

#[test]
fn row_32832_at_length_0_is_refusal_3() {
    let mut buffer = [0; operations::ROW_BYTES];
    assert_eq!(
        operations::row(SIXTEEN, 0, 32_832, &mut buffer),
        Err(Refusal::Row)
    );
    assert!(operations::row(SIXTEEN, 0, 32_831, &mut buffer).is_ok());
}
