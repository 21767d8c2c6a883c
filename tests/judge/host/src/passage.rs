//! The passage product: the four functions of `include/passage.h`, on slices.

use crate::Empty;

/// As `include/passage.h` declares them.
mod c {
    extern "C" {
        pub fn passage_read(line: *const u8, line_len: usize) -> u64;
        pub fn passage_write(
            lane: u64,
            time: u64,
            vehicle_class: u64,
            axles: u64,
            plate: *const u8,
            plate_len: usize,
            blind: *const u8,
            blind_len: usize,
            out: *mut u8,
            out_len: usize,
        ) -> u64;
        pub fn passage_seal(
            line: *const u8,
            line_len: usize,
            digest: *mut u8,
            digest_len: usize,
            assignment: *mut u8,
            assignment_len: usize,
        ) -> u64;
        pub fn passage_check(
            digest: *const u8,
            digest_len: usize,
            assignment: *const u8,
            assignment_len: usize,
        ) -> u64;
    }
}

/// The fields that are numbers, as the library takes them.
#[derive(Clone, Copy)]
pub struct Numbers {
    pub lane: u64,
    pub time: u64,
    pub class: u64,
    pub axles: u64,
}

pub fn read(empty: Empty, line: &[u8]) -> u64 {
    unsafe { c::passage_read(empty.of(line), line.len()) }
}

pub fn write(empty: Empty, numbers: Numbers, plate: &[u8], blind: &[u8], out: &mut [u8]) -> u64 {
    unsafe {
        c::passage_write(
            numbers.lane,
            numbers.time,
            numbers.class,
            numbers.axles,
            empty.of(plate),
            plate.len(),
            empty.of(blind),
            blind.len(),
            empty.of_mut(out),
            out.len(),
        )
    }
}

pub fn seal(empty: Empty, line: &[u8], digest: &mut [u8], assignment: &mut [u8]) -> u64 {
    unsafe {
        c::passage_seal(
            empty.of(line),
            line.len(),
            empty.of_mut(digest),
            digest.len(),
            empty.of_mut(assignment),
            assignment.len(),
        )
    }
}

pub fn check(empty: Empty, digest: &[u8], assignment: &[u8]) -> u64 {
    let (held, read) = (empty.of(digest), empty.of(assignment));
    unsafe { c::passage_check(held, digest.len(), read, assignment.len()) }
}
