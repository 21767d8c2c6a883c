//! Helpers of the self checks: records, lent buffers, the program `judge`, and
//! an evaluation of rows that goes another way than the check's own.
#![allow(dead_code)]

pub mod axles;

use std::io::Write;
use std::process::{Command, Stdio};

use judge::field::P;
use judge::forms::{Row, RowNumber, RowTable, Term, Wire};
use judge::length::Length;
use judge::record::Record;
use judge::refusal::Refusal;

/// The lengths at which every row is evaluated: whole bytes, and records that
/// end inside a byte, on both sides of where the blocks end.
pub const LENGTHS: [u64; 15] = [
    0, 1, 8, 13, 440, 447, 448, 450, 511, 512, 513, 959, 960, 8120, 8127,
];

pub fn length(bits: u64) -> Length {
    Length::new(bits).expect("a length in range")
}

/// A record of so many bits, of repeatable bytes.
pub fn record(bits: u64, seed: u64) -> Record {
    let bytes = bytes(length(bits).record_bytes(), seed);
    Record::front(bits, &bytes).expect("a record in range")
}

/// Repeatable bytes without a pattern (a linear congruence's upper bits).
pub fn bytes(count: usize, seed: u64) -> Vec<u8> {
    let mut state = seed.wrapping_add(1 + count as u64);
    let mut next = || {
        state = state
            .wrapping_mul(6364136223846793005)
            .wrapping_add(1442695040888963407);
        (state >> 56) as u8
    };
    (0..count).map(|_| next()).collect()
}

/// Entries of p or more; p + 1 is 2^61.
pub const FROM_PRIME: [u64; 7] = [P, P + 1, P + 2, 2 * P, 8 * P + 1, 1 << 63, u64::MAX];

/// Refusal 20 at that wire.
pub fn not_below_prime<T>(wire: usize) -> Result<T, Refusal> {
    Err(Refusal::NotBelowPrime(Wire(wire as u32)))
}

/// Buffers are lent full of this byte, to see what stays.
pub const OLD: u8 = 0xa5;

pub fn untouched(buffer: &[u8]) -> bool {
    buffer.iter().all(|&byte| byte == OLD)
}

/// What the program `judge` prints.
pub fn run(arguments: &[&str], input: &[u8]) -> String {
    let mut child = Command::new(env!("CARGO_BIN_EXE_judge"))
        .args(arguments)
        .stdin(Stdio::piped())
        .stdout(Stdio::piped())
        .spawn()
        .unwrap();
    child.stdin.take().unwrap().write_all(input).unwrap();
    String::from_utf8(child.wait_with_output().unwrap().stdout).unwrap()
}

pub fn entry(assignment: &[u8], wire: usize) -> u64 {
    u64::from_le_bytes(assignment[8 * wire..8 * wire + 8].try_into().unwrap())
}

pub fn set_entry(assignment: &mut [u8], wire: usize, value: u64) {
    assignment[8 * wire..8 * wire + 8].copy_from_slice(&value.to_le_bytes());
}

/// A sum in whole numbers, with the coefficients' signs, and then modulo p.
pub fn whole_sum(sum: &[Term], entries: impl Fn(usize) -> u64) -> i128 {
    let value = |t: &Term| i128::from(t.coefficient) * i128::from(entries(t.wire.0 as usize));
    sum.iter()
        .map(value)
        .sum::<i128>()
        .rem_euclid(i128::from(P))
}

/// Whether A × B - C is a multiple of p.
pub fn holds(row: Row<'_>, entries: impl Fn(usize) -> u64 + Copy) -> bool {
    let [a, b, c] = [row.a, row.b, row.c].map(|sum| whole_sum(sum, entries));
    (a * b - c) % i128::from(P) == 0
}

/// A coefficient that may stand in a term: not 0, and of no more than (p - 1) / 2
/// without its sign.
pub fn in_range(term: &Term) -> bool {
    (1..=(P - 1) / 2).contains(&term.coefficient.unsigned_abs())
}

/// Whether a row has the wire in one of its sums.
fn has_wire(row: Row<'_>, wire: u32) -> bool {
    [row.a, row.b, row.c]
        .iter()
        .any(|sum| sum.iter().any(|term| term.wire.0 == wire))
}

/// The lowest row, among those with that wire, that does not hold. Where an
/// assignment was right before that wire changed, it is the lowest of all.
pub fn lowest_with_wire(table: &RowTable, assignment: &[u8], wire: u32) -> Option<RowNumber> {
    let entries = |wire: usize| entry(assignment, wire);
    let mut rows = table.iter().filter(|&(_, row)| has_wire(row, wire));
    rows.find(|&(_, row)| !holds(row, entries))
        .map(|(number, _)| number)
}

/// A row as three lists of (wire, coefficient).
pub type Plain = [Vec<(u32, i64)>; 3];

pub fn plain(row: Row<'_>) -> Plain {
    [row.a, row.b, row.c].map(|sum| sum.iter().map(|t| (t.wire.0, t.coefficient)).collect())
}
