//! A host of the two C libraries: the functions of `include/sm3rows.h`, six of a
//! record and three of axles between two bounds, the four of `include/passage.h`
//! and OpenSSL's SM3, on slices. All unsafe code of the comparison is here.

pub mod axles;
pub mod openssl;
pub mod passage;

use std::ptr;

/// As `include/sm3rows.h` declares those of a record.
mod c {
    extern "C" {
        pub fn sm3rows_digest(
            limit: u64,
            bits: u64,
            record: *const u8,
            record_len: usize,
            out: *mut u8,
            out_len: usize,
        ) -> u64;
        pub fn sm3rows_row(limit: u64, bits: u64, row: u64, out: *mut u8, out_len: usize) -> u64;
        pub fn sm3rows_produce(
            limit: u64,
            bits: u64,
            record: *const u8,
            record_len: usize,
            out: *mut u8,
            out_len: usize,
        ) -> u64;
        pub fn sm3rows_check(
            limit: u64,
            bits: u64,
            digest: *const u8,
            digest_len: usize,
            assignment: *const u8,
            assignment_len: usize,
        ) -> u64;
        pub fn sm3rows_pack(
            limit: u64,
            bits: u64,
            assignment: *const u8,
            assignment_len: usize,
            out: *mut u8,
            out_len: usize,
        ) -> u64;
        pub fn sm3rows_unpack(
            limit: u64,
            bits: u64,
            packed: *const u8,
            packed_len: usize,
            out: *mut u8,
            out_len: usize,
        ) -> u64;
    }
}

/// What the host passes as the address of an empty slice: "empty may be
/// null", and need not be.
#[derive(Clone, Copy, Debug, PartialEq, Eq)]
pub enum Empty {
    Null,
    Address,
}

impl Empty {
    fn of(self, bytes: &[u8]) -> *const u8 {
        match self {
            Empty::Null if bytes.is_empty() => ptr::null(),
            _ => bytes.as_ptr(),
        }
    }

    fn of_mut(self, bytes: &mut [u8]) -> *mut u8 {
        match self {
            Empty::Null if bytes.is_empty() => ptr::null_mut(),
            _ => bytes.as_mut_ptr(),
        }
    }
}

// Each call, those of `axles` and `passage` too, lends slices that live through it, and none
// overlaps one that is written, which the borrows of the arguments see to.

pub fn digest(empty: Empty, limit: u64, bits: u64, record: &[u8], out: &mut [u8]) -> u64 {
    let (from, to) = (empty.of(record), empty.of_mut(out));
    unsafe { c::sm3rows_digest(limit, bits, from, record.len(), to, out.len()) }
}

pub fn row(empty: Empty, limit: u64, bits: u64, row: u64, out: &mut [u8]) -> u64 {
    unsafe { c::sm3rows_row(limit, bits, row, empty.of_mut(out), out.len()) }
}

pub fn produce(empty: Empty, limit: u64, bits: u64, record: &[u8], out: &mut [u8]) -> u64 {
    let (from, to) = (empty.of(record), empty.of_mut(out));
    unsafe { c::sm3rows_produce(limit, bits, from, record.len(), to, out.len()) }
}

pub fn check(empty: Empty, limit: u64, bits: u64, digest: &[u8], assignment: &[u8]) -> u64 {
    let (held, read) = (empty.of(digest), empty.of(assignment));
    unsafe { c::sm3rows_check(limit, bits, held, digest.len(), read, assignment.len()) }
}

pub fn pack(empty: Empty, limit: u64, bits: u64, assignment: &[u8], out: &mut [u8]) -> u64 {
    let (from, to) = (empty.of(assignment), empty.of_mut(out));
    unsafe { c::sm3rows_pack(limit, bits, from, assignment.len(), to, out.len()) }
}

pub fn unpack(empty: Empty, limit: u64, bits: u64, packed: &[u8], out: &mut [u8]) -> u64 {
    let (from, to) = (empty.of(packed), empty.of_mut(out));
    unsafe { c::sm3rows_unpack(limit, bits, from, packed.len(), to, out.len()) }
}

/// Gives memory that was freed back to the system, so that memory taken
/// later shows in the size of the process.
pub fn give_back_free_memory() {
    extern "C" {
        fn malloc_trim(pad: usize) -> i32;
    }
    unsafe { malloc_trim(0) };
}
