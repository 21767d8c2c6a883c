//! Signed coefficients are the former ones, those from 1 to p - 1, modulo p:
//! "which assignments pass is unaltered".

mod support;

use judge::axles::{self, listing::axle_rows};
use judge::field::{add, multiply, P};
use judge::forms::{RowTable, Term};
use judge::listing::listing;
use judge::rows;
use support::{bytes, entry, length, whole_sum};

/// The former coefficient.
fn former(coefficient: i64) -> u64 {
    match coefficient {
        0.. => coefficient as u64,
        _ => P - coefficient.unsigned_abs(),
    }
}

/// The rows of some record lengths and of axles between two bounds.
fn tables() -> [RowTable; 5] {
    let record = |bits| rows::rows(length(bits));
    let axles = axles::rows::all(support::axles::bounds(2, 99));
    [record(0), record(1), record(447), record(448), axles]
}

#[test]
fn sums_are_those_of_the_former_coefficients() {
    // Numbers below p without a pattern, for the wires of two blocks and more.
    let random = bytes(8 * axles::wires(), 61);
    let entries: Vec<u64> = (0..axles::wires())
        .map(|wire| entry(&random, wire) % P)
        .collect();
    let former_sum = |sum: &[Term]| {
        let value = |t: &Term| multiply(former(t.coefficient), entries[t.wire.0 as usize]);
        sum.iter().map(value).fold(0, add)
    };
    for table in tables() {
        for (number, row) in table.iter() {
            for sum in [row.a, row.b, row.c] {
                let signed_sum = whole_sum(sum, |wire| entries[wire]);
                assert_eq!(signed_sum, i128::from(former_sum(sum)), "{number:?}");
            }
        }
    }
}

#[test]
fn a_term_s_residue_is_the_former_coefficient() {
    for (_, row) in tables().iter().flat_map(RowTable::iter) {
        for term in row.a.iter().chain(row.b).chain(row.c) {
            assert_eq!(term.residue(), former(term.coefficient));
        }
    }
}

/// A listing with the former coefficients.
fn former_listing(text: &str) -> String {
    let former_line = |line: &str| {
        let (before, coefficient) = line.rsplit_once(',').unwrap();
        format!("{before},{}\n", former(coefficient.parse().unwrap()))
    };
    let (header, lines) = text.split_once('\n').unwrap();
    let lines: String = lines.lines().map(former_line).collect();
    format!("{header}\n{lines}")
}

/// The 64-bit FNV-1a hash of a text.
fn fnv(text: &str) -> u64 {
    text.bytes().fold(0xcbf2_9ce4_8422_2325, |hash, byte| {
        (hash ^ u64::from(byte)).wrapping_mul(0x100_0000_01b3)
    })
}

#[test]
fn listings_are_the_former_ones_but_for_the_signs() {
    // The hashes of what the judge printed before coefficients were signed.
    for (line, hash) in [
        ("0,0,32832\n", 0x50c2_ec9a_67b7_ec8a),
        ("1,0,32832\n", 0xa23c_0e75_298b_cbcb),
        ("447,0,32832\n", 0x077c_4bac_cf64_25dc),
        ("448,0,65152\n", 0xb5ff_b41a_c107_2be3),
    ] {
        let text = listing(line.as_bytes());
        assert_eq!(fnv(&former_listing(&text)), hash, "{line}");
    }
    let text = axle_rows(b"2,99,0,65186\n");
    assert_eq!(fnv(&former_listing(&text)), 0x9c73_f19d_ba5b_3573);
}
