//! The circuit of axles between two bounds: its three functions of
//! `include/sm3rows.h`, on slices.

use crate::Empty;

/// As `include/sm3rows.h` declares them.
mod c {
    extern "C" {
        pub fn sm3rows_axles_row(
            lower: u64,
            upper: u64,
            row: u64,
            out: *mut u8,
            out_len: usize,
        ) -> u64;
        pub fn sm3rows_axles_produce(
            lower: u64,
            upper: u64,
            record: *const u8,
            record_len: usize,
            out: *mut u8,
            out_len: usize,
        ) -> u64;
        pub fn sm3rows_axles_check(
            lower: u64,
            upper: u64,
            digest: *const u8,
            digest_len: usize,
            assignment: *const u8,
            assignment_len: usize,
        ) -> u64;
    }
}

/// Two bounds as the library takes them, right or wrong: the lower, the upper.
pub type Pair = [u64; 2];

pub fn row(empty: Empty, [lower, upper]: Pair, row: u64, out: &mut [u8]) -> u64 {
    unsafe { c::sm3rows_axles_row(lower, upper, row, empty.of_mut(out), out.len()) }
}

pub fn produce(empty: Empty, [lower, upper]: Pair, record: &[u8], out: &mut [u8]) -> u64 {
    let (from, to) = (empty.of(record), empty.of_mut(out));
    unsafe { c::sm3rows_axles_produce(lower, upper, from, record.len(), to, out.len()) }
}

pub fn check(empty: Empty, [lower, upper]: Pair, digest: &[u8], assignment: &[u8]) -> u64 {
    let (held, read) = (empty.of(digest), empty.of(assignment));
    let (held_len, read_len) = (digest.len(), assignment.len());
    unsafe { c::sm3rows_axles_check(lower, upper, held, held_len, read, read_len) }
}
