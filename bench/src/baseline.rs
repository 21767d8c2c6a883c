//! The C side, `baseline.h`, on slices.

use judge::forms::RowTable;
use judge::length::Length;
use judge::record::Record;

#[repr(C)]
struct RowsOfC {
    rows: usize,
    wires: usize,
    ends: *const u32,
    wire: *const u32,
    coefficient: *const u64,
}

extern "C" {
    fn baseline_produce(bits: usize, record: *const u8, out: *mut u64);
    fn baseline_pack(wires: usize, assignment: *const u8, out: *mut u8) -> u64;
    fn baseline_pack_copied(wires: usize, assignment: *const u8, out: *mut u8) -> u64;
    fn baseline_unpack(wires: usize, packed: *const u8, packed_len: usize, out: *mut u64) -> u64;
    fn baseline_read(line: *const u8, line_len: usize) -> u64;
    fn baseline_write(
        lane: u64,
        time: u64,
        vehicle_class: u64,
        axles: u64,
        plate: *const u8,
        plate_len: usize,
        blind: *const u8,
        blind_len: usize,
        out: *mut u8,
        out_len: usize,
    ) -> u64;
    fn baseline_check(
        matrix: *const RowsOfC,
        digest: *const [u8; 32],
        assignment: *const u8,
    ) -> u64;
}

/// The record's assignment; `out` must have room for all wires.
pub fn produce(record: &Record, out: &mut [u64]) {
    assert!(out.len() >= record.length().wires());
    unsafe { baseline_produce(record.bits(), record.bytes().as_ptr(), out.as_mut_ptr()) }
}

type PackingOfC = unsafe extern "C" fn(usize, *const u8, *mut u8) -> u64;

fn pack_by(packing: PackingOfC, length: Length, assignment: &[u8], out: &mut [u8]) -> u64 {
    assert_eq!(assignment.len(), length.assignment_bytes());
    assert!(out.len() >= length.packed_bytes());
    unsafe { packing(length.wires(), assignment.as_ptr(), out.as_mut_ptr()) }
}

/// The assignment packed, in two passes; `out` must have room.
pub fn pack(length: Length, assignment: &[u8], out: &mut [u8]) -> u64 {
    pack_by(baseline_pack, length, assignment, out)
}

/// The same in one pass, by way of an array on the stack.
pub fn pack_copied(length: Length, assignment: &[u8], out: &mut [u8]) -> u64 {
    pack_by(baseline_pack_copied, length, assignment, out)
}

/// The assignment of packed bytes; `out` must have room for all wires.
pub fn unpack(length: Length, packed: &[u8], out: &mut [u64]) -> u64 {
    let wires = length.wires();
    assert!(out.len() >= wires);
    unsafe { baseline_unpack(wires, packed.as_ptr(), packed.len(), out.as_mut_ptr()) }
}

// A passage line takes so little time that the call of a wrapper counts. That of
// the crate `host` is a call, so these are.

/// A passage line read.
#[inline(never)]
pub fn read(line: &[u8]) -> u64 {
    unsafe { baseline_read(line.as_ptr(), line.len()) }
}

/// A passage line written; the numbers are lane, time, class and axles.
#[inline(never)]
pub fn write(numbers: [u64; 4], plate: &[u8], blind: &[u8], out: &mut [u8]) -> u64 {
    let [lane, time, class, axles] = numbers;
    let (to, room) = (out.as_mut_ptr(), out.len());
    let (of_plate, plates) = (plate.as_ptr(), plate.len());
    let (of_blind, blinds) = (blind.as_ptr(), blind.len());
    unsafe {
        baseline_write(
            lane, time, class, axles, of_plate, plates, of_blind, blinds, to, room,
        )
    }
}

/// The rows as a stored sparse matrix, built once outside the timing. Its
/// coefficients are from 1 to p - 1.
pub struct Matrix {
    rows: usize,
    wires: usize,
    ends: Vec<u32>,
    wire: Vec<u32>,
    coefficient: Vec<u64>,
}

impl Matrix {
    pub fn new(length: Length, table: &RowTable) -> Matrix {
        let (mut ends, mut wire, mut coefficient) = (vec![0], Vec::new(), Vec::new());
        for (_, row) in table.iter() {
            for sum in [row.a, row.b, row.c] {
                wire.extend(sum.iter().map(|term| term.wire.0));
                coefficient.extend(sum.iter().map(|term| term.residue()));
                ends.push(wire.len() as u32);
            }
        }
        Matrix {
            rows: table.count(),
            wires: length.wires(),
            ends,
            wire,
            coefficient,
        }
    }

    pub fn check(&self, digest: &[u8; 32], assignment: &[u8]) -> u64 {
        assert_eq!(assignment.len(), 8 * self.wires);
        let matrix = RowsOfC {
            rows: self.rows,
            wires: self.wires,
            ends: self.ends.as_ptr(),
            wire: self.wire.as_ptr(),
            coefficient: self.coefficient.as_ptr(),
        };
        unsafe { baseline_check(&matrix, digest, assignment.as_ptr()) }
    }
}
