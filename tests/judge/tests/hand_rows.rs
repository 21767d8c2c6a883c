//! Rows worked out by hand from "Wires" and "Rows", by closed sums, at 0, 448
//! and 450 bits. They hold the walk's numbering down from another side.

mod support;

use judge::forms::RowNumber;
use judge::rows;
use support::{length, plain, Plain};

fn row(bits: u64, number: u32) -> Plain {
    plain(rows::rows(length(bits)).row(RowNumber(number)))
}

// Of block 0, by the list in "Wires": where each kind of wire begins.
const BLOCK: u32 = 513;
const EXPANSION: u32 = BLOCK + 512;
const W_PRIME: u32 = EXPANSION + 52 * 96;
const ROUNDS: u32 = W_PRIME + 64 * 32;
const RESULT: u32 = ROUNDS + 64 * 230;
// Within a round: u 34, SS2 32, FF 32, GG 32, TT1 34, TT2 34, P0 32.
const SS2: u32 = 34;
const FF: u32 = 66;
const GG: u32 = 98;
const TT1: u32 = 130;
const TT2: u32 = 164;
const P0: u32 = 198;

// Where the rows of each kind begin in block 0.
const EXPANSION_ROWS: u32 = 256 + 512;
const W_PRIME_ROWS: u32 = EXPANSION_ROWS + 52 * 192;
const ROUND_ROWS: u32 = W_PRIME_ROWS + 64 * 32;
const LATE_ROUND_ROWS: u32 = ROUND_ROWS + 16 * 329;
const RESULT_ROWS: u32 = LATE_ROUND_ROWS + 48 * 297;

fn round(j: u32) -> u32 {
    ROUNDS + 230 * j
}

/// The wire of a word's position after turning left.
fn turned(word: u32, position: u32, by: u32) -> u32 {
    word + (position + by) % 32
}

#[test]
fn the_parts_end_where_the_paper_says() {
    assert_eq!(RESULT + 256, 513 + 22_528);
    assert_eq!(RESULT_ROWS + 256, 256 + 32_320);
}

#[test]
fn first_rows_of_the_expansion() {
    // q for j = 16: W0 xor W7 xor W13<<<15, highest position.
    let (x, y, z, r) = (BLOCK, BLOCK + 7 * 32, BLOCK + 13 * 32 + 15, EXPANSION);
    let bit = [vec![(r, 1)], vec![(0, -1), (r, 1)], vec![]];
    assert_eq!(row(0, EXPANSION_ROWS), bit);
    let a = vec![(x, 1), (y, 1), (z, 1), (r, -1)];
    let b = vec![(0, -2), (x, 1), (y, 1), (z, 1), (r, -1)];
    assert_eq!(row(0, EXPANSION_ROWS + 1), [a, b, vec![]]);
    // The second position follows at once.
    let bit = [vec![(r + 1, 1)], vec![(0, -1), (r + 1, 1)], vec![]];
    assert_eq!(row(0, EXPANSION_ROWS + 2), bit);
}

#[test]
fn last_row_of_p1_of_q() {
    // P1(q) for j = 16, lowest position: q, q<<<15, q<<<23.
    let (q, r) = (EXPANSION, EXPANSION + 32 + 31);
    let (x, y, z) = (q + 31, turned(q, 31, 15), turned(q, 31, 23));
    assert_eq!((y, z), (q + 14, q + 22));
    let a = vec![(y, 1), (z, 1), (x, 1), (r, -1)];
    let b = vec![(0, -2), (y, 1), (z, 1), (x, 1), (r, -1)];
    assert_eq!(row(0, EXPANSION_ROWS + 127), [a, b, vec![]]);
}

#[test]
fn last_row_of_w67() {
    // W67 = P1(q) xor W54<<<7 xor W61; Wj lies third in its group of 96.
    let w = |j: u32| EXPANSION + 96 * (j - 16) + 64;
    let (p1, y, z, r) = (
        w(67) - 32 + 31,
        turned(w(54), 31, 7),
        w(61) + 31,
        w(67) + 31,
    );
    let a = vec![(y, 1), (z, 1), (p1, 1), (r, -1)];
    let b = vec![(0, -2), (y, 1), (z, 1), (p1, 1), (r, -1)];
    assert_eq!(row(0, W_PRIME_ROWS - 1), [a, b, vec![]]);
}

#[test]
fn first_row_of_w_prime() {
    let (x, y, r) = (BLOCK, BLOCK + 4 * 32, W_PRIME);
    let c = vec![(x, 1), (y, 1), (r, -1)];
    assert_eq!(row(0, W_PRIME_ROWS), [vec![(x, 2)], vec![(y, 1)], c]);
}

#[test]
fn the_sum_row_of_u_in_round_0() {
    let (a, e, u) = (257, 257 + 4 * 32, ROUNDS);
    let mut terms = vec![(0, 0x79cc4519)];
    terms.extend((0..32).map(|i| (turned(a, i, 12), 1 << (31 - i))));
    terms.extend((0..32).map(|i| (e + i, 1 << (31 - i))));
    terms.extend((0..32).map(|i| (u + i, -(1 << (31 - i)))));
    terms.extend([(u + 32, -(1 << 33)), (u + 33, -(1 << 32))]);
    terms.sort();
    assert_eq!(row(0, ROUND_ROWS + 34), [terms, vec![(0, 1)], vec![]]);
    // Before it the bit rows: 32 of the result, then the higher carry first.
    for i in 0..34 {
        let bit = [vec![(u + i, 1)], vec![(0, -1), (u + i, 1)], vec![]];
        assert_eq!(row(0, ROUND_ROWS + i), bit);
    }
}

#[test]
fn first_row_of_ss2_in_round_0() {
    // SS2 = SS1 xor A<<<12, where SS1 is u<<<7: x is of SS1, y of A.
    let (x, y, r) = (ROUNDS + 7, 257 + 12, ROUNDS + SS2);
    let c = vec![(y, 1), (x, 1), (r, -1)];
    assert_eq!(row(0, ROUND_ROWS + 35), [vec![(x, 2)], vec![(y, 1)], c]);
}

#[test]
fn the_sum_rows_of_tt1_and_tt2_in_round_3() {
    let at = ROUND_ROWS + 3 * 329 + 35 + 32 + 64 + 64;
    let sum_row = |addends: [Vec<u32>; 4], result: u32| {
        let mut terms = Vec::new();
        for addend in addends {
            terms.extend((0..32).map(|i| (addend[i], 1 << (31 - i))));
        }
        terms.extend((0..32).map(|i| (result + i, -(1 << (31 - i)))));
        terms.extend([(result + 32, -(1 << 33)), (result + 33, -(1 << 32))]);
        terms.sort();
        [terms, vec![(0, 1)], vec![]]
    };
    let word = |begin: u32, by: u32| (0..32).map(|i| turned(begin, i, by)).collect::<Vec<_>>();
    // D in round 3 is C in round 2, B<<<9 in round 1, A of round 0 before.
    let (ff, d) = (word(round(3) + FF, 0), word(257, 9));
    let (ss2, w_prime) = (word(round(3) + SS2, 0), word(W_PRIME + 3 * 32, 0));
    assert_eq!(
        row(0, at + 34),
        sum_row([ff, d, ss2, w_prime], round(3) + TT1)
    );
    // H in round 3 is E of round 0, turned by 19 on the way.
    let (gg, h) = (word(round(3) + GG, 0), word(257 + 4 * 32, 19));
    let (ss1, w) = (word(round(3), 7), word(BLOCK + 3 * 32, 0));
    assert_eq!(row(0, at + 69), sum_row([gg, h, ss1, w], round(3) + TT2));
}

#[test]
fn majority_and_choice_in_round_16() {
    let at = LATE_ROUND_ROWS + 35 + 32;
    let (x, y, z) = (round(15) + TT1, round(14) + TT1, round(13) + TT1 + 9);
    let r = round(16) + FF;
    let a = vec![(z, 1), (y, 1), (x, 1), (r, -2)];
    let b = vec![(0, 1), (z, -1), (y, -1), (x, -1), (r, 2)];
    assert_eq!(row(0, at), [vec![(r, 1)], vec![(0, -1), (r, 1)], vec![]]);
    assert_eq!(row(0, at + 1), [a, b, vec![]]);
    // Choice by E of F or G, one row a position.
    let (e, f, g) = (round(15) + P0, round(14) + P0, round(13) + P0 + 19);
    let r = round(16) + GG;
    let b = vec![(g, -1), (f, 1)];
    let c = vec![(g, -1), (r, 1)];
    assert_eq!(row(0, at + 64), [vec![(e, 1)], b, c]);
}

#[test]
fn result_rows_of_both_blocks_and_the_digest_rows() {
    // C of the state is TT1 of round 61 turned by 9; the block began with the
    // start words. The first position of the third result word:
    let (x, y, r) = (round(61) + TT1 + 9, 257 + 64, RESULT + 64);
    let c = vec![(y, 1), (x, 1), (r, -1)];
    assert_eq!(row(448, RESULT_ROWS + 64), [vec![(x, 2)], vec![(y, 1)], c]);
    // Block 1 began with the result of block 0.
    let (x, y, r) = (x + 22_528, RESULT + 64, r + 22_528);
    let c = vec![(y, 1), (x, 1), (r, -1)];
    assert_eq!(
        row(448, 32_320 + RESULT_ROWS + 64),
        [vec![(x, 2)], vec![(y, 1)], c]
    );
    // The digest is the last result.
    let last = 256 + 2 * 32_320 + 255;
    let a = vec![(256, 1), (RESULT + 22_528 + 255, -1)];
    assert_eq!(row(448, last), [a, vec![(0, 1)], vec![]]);
}

#[test]
fn block_bits_where_a_record_ends_inside_a_byte() {
    // 450 bits, two blocks: bit 449 is the record's, bit 450 the padding's 1,
    // the rest of block 0 zeros; block 1 ends with 450, binary 111000010.
    let table = rows::rows(length(450));
    let row = |number| plain(table.row(RowNumber(number)));
    let bit = |wire| [vec![(wire, 1)], vec![(0, -1), (wire, 1)], vec![]];
    let fixed = |wire, value: u8| {
        let c = if value == 1 { vec![(0, 1)] } else { vec![] };
        [vec![(wire, 1)], vec![(0, 1)], c]
    };
    assert_eq!(row(256 + 449), bit(BLOCK + 449));
    assert_eq!(row(256 + 450), fixed(BLOCK + 450, 1));
    for k in 451..512 {
        assert_eq!(row(256 + k), fixed(BLOCK + k, 0));
    }
    let (rows, wires) = (256 + 32_320, BLOCK + 22_528);
    for k in 0..503 {
        assert_eq!(row(rows + k), fixed(wires + k, 0));
    }
    for (k, value) in (503..512).zip([1, 1, 1, 0, 0, 0, 0, 1, 0]) {
        assert_eq!(row(rows + k), fixed(wires + k, value));
    }
}
