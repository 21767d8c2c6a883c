//! What is measured of axles between two bounds, each time beside the same
//! function of a record of 504 bits, which has 22 wires and 34 rows less.
//! Before a time is taken, both must give what is right.

use std::cell::RefCell;

use host::Empty;
use judge::field::P;
use judge::record::Record;
use judge::{layout, sm3};

use crate::measures::{as_bytes, figures, produce_ours, put_entry, record, LIMIT, OURS};
use crate::timing::{best, side, Figure};

/// Our side where a function for axles is called.
const AXLES: &str = "axles";

/// The length in bits of a record with axles.
const BITS: u64 = 504;

/// Rows of such a record, and rows of axles between two bounds.
const RECORD_ROWS: u64 = 65_152;
const ROWS: u64 = 65_186;

const ROW_BYTES: usize = 1956;

/// The bounds and the axles that lie between them.
const BOUNDS: [u64; 2] = [2, 5];
const COUNT: u64 = 3;

// ---- The calls of the C library ----

extern "C" {
    fn sm3rows_axles_row(lower: u64, upper: u64, row: u64, out: *mut u8, out_len: usize) -> u64;
    fn sm3rows_axles_produce(
        lower: u64,
        upper: u64,
        record: *const u8,
        record_len: usize,
        out: *mut u8,
        out_len: usize,
    ) -> u64;
    fn sm3rows_axles_check(
        lower: u64,
        upper: u64,
        digest: *const u8,
        digest_len: usize,
        assignment: *const u8,
        assignment_len: usize,
    ) -> u64;
}

fn row_ours(row: u64, out: &mut [u8]) -> u64 {
    let [lower, upper] = BOUNDS;
    unsafe { sm3rows_axles_row(lower, upper, row, out.as_mut_ptr(), out.len()) }
}

fn produce_between([lower, upper]: [u64; 2], record: &Record, out: &mut [u8]) -> u64 {
    let bytes = record.bytes();
    unsafe {
        sm3rows_axles_produce(
            lower,
            upper,
            bytes.as_ptr(),
            bytes.len(),
            out.as_mut_ptr(),
            out.len(),
        )
    }
}

fn check_ours(digest: &[u8; 32], assignment: &[u8]) -> u64 {
    let [lower, upper] = BOUNDS;
    unsafe {
        sm3rows_axles_check(
            lower,
            upper,
            digest.as_ptr(),
            digest.len(),
            assignment.as_ptr(),
            assignment.len(),
        )
    }
}

// ---- The record and its claim ----

/// A record whose bytes 17 and 18 are the two digits of its axles.
fn with_axles() -> Record {
    let mut bytes = record(BITS).bytes().to_vec();
    bytes[17..19].copy_from_slice(format!("{COUNT:02}").as_bytes());
    Record::new(BITS, &bytes).expect("a record of 504 bits")
}

/// The low bits of a number, so many, from the highest on.
fn bits(number: u64, count: u32) -> impl Iterator<Item = u64> {
    (0..count).rev().map(move |place| number >> place & 1)
}

/// The record's assignment by the judge, and the four numbers behind it.
fn right(record: &Record) -> Vec<u8> {
    let [lower, upper] = BOUNDS;
    let digits = bits(9 - COUNT / 10, 4).chain(bits(9 - COUNT % 10, 4));
    let band = bits(COUNT - lower, 7).chain(bits(upper - COUNT, 7));
    let appended: Vec<u64> = digits.chain(band).collect();
    [layout::assignment(record), as_bytes(&appended)].concat()
}

// ---- The measures ----

/// All rows, one after the other: the time of one.
pub fn row(runs: u32) -> Vec<Figure> {
    let theirs = |row: u64, out: &mut [u8]| host::row(Empty::Null, LIMIT, BITS, row, out);
    let (mut ours, mut same) = ([0; ROW_BYTES], [0; ROW_BYTES]);
    for number in 0..RECORD_ROWS {
        assert_eq!(row_ours(number, &mut ours), theirs(number, &mut same));
        assert!(ours == same, "row {number} is not the record's");
    }
    assert_eq!(row_ours(ROWS, &mut ours), 3);
    let sides = vec![
        side(AXLES, || {
            (0..ROWS).fold(0, |sum, number| sum ^ row_ours(number, &mut ours))
        }),
        side(OURS, || {
            (0..RECORD_ROWS).fold(0, |sum, number| sum ^ theirs(number, &mut same))
        }),
    ];
    let times = best(sides, runs).into_iter().zip([ROWS, RECORD_ROWS]);
    let a_row = |((name, time), rows)| (name, time / rows as f64);
    figures("axles-row", BITS, &times.map(a_row).collect::<Vec<_>>())
}

/// The producer. Both sides write into the same memory, so that the caches
/// serve them alike.
pub fn produce(runs: u32) -> Vec<Figure> {
    let record = with_axles();
    let right = right(&record);
    let mut out = vec![0; right.len()];
    assert_eq!(produce_between([5, 2], &record, &mut out), 18);
    assert_eq!(produce_between([4, 9], &record, &mut out), 19);
    assert_eq!(produce_between(BOUNDS, &record, &mut out[1..]), 4);
    assert!(out.iter().all(|&byte| byte == 0), "a refused call wrote");
    assert_eq!(produce_between(BOUNDS, &record, &mut out), 0);
    assert!(out == right, "the producer and the judge differ");
    let memory = RefCell::new(out);
    let sides = vec![
        side(AXLES, || {
            produce_between(BOUNDS, &record, &mut memory.borrow_mut())
        }),
        side(OURS, || produce_ours(&record, &mut memory.borrow_mut())),
    ];
    figures("axles-produce", BITS, &best(sides, runs))
}

/// The check of a right claim. The record's check reads the part of it that is
/// the record's.
pub fn check(runs: u32) -> Vec<Figure> {
    let record = with_axles();
    let (digest, mut claim) = (sm3::hash(&record), right(&record));
    let (last, end) = (claim.len() - 8, layout::assignment(&record).len());
    let theirs = |claim: &[u8]| host::check(Empty::Null, LIMIT, BITS, &digest, &claim[..end]);
    claim[last] ^= 1;
    let failing = 9 | (ROWS - 1) << 8;
    assert_eq!([check_ours(&digest, &claim), theirs(&claim)], [failing, 0]);
    let (wire, own) = (last / 8, u64::from(claim[last] ^ 1));
    put_entry(&mut claim, wire, P);
    assert_eq!(check_ours(&digest, &claim), 20 | (wire as u64) << 8);
    put_entry(&mut claim, wire, own);
    assert_eq!([check_ours(&digest, &claim), theirs(&claim)], [0; 2]);
    let sides = vec![
        side(AXLES, || check_ours(&digest, &claim)),
        side(OURS, || theirs(&claim)),
    ];
    figures("axles-check", BITS, &best(sides, runs))
}
