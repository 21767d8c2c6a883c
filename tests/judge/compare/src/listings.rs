//! What the programs `rows` and `steps` are given: lines for the parser, which
//! is the same for both, and listings.

use judge::length::Length;

use crate::calls::Calls;
use crate::program::{damaged, Program};
use crate::random::Random;
use crate::sections::{BLOCK_ROWS, START_ROWS};

/// Lines that meet one clause each of the line's rule, its figures, lengths that
/// would be 0 and 447 after losing upper bits, and lines with the faults of
/// several refusals.
const LINES: [&str; 51] = [
    "0,0,2\n",
    "0,0,0\n",
    "0,32832,0\n",
    "0,32831,1\n",
    "0,32832,1\n",
    "0,32833,0\n",
    "0,0,32833\n",
    "447,32832,0\n",
    "447,32832,1\n",
    "448,65151,1\n",
    "448,65152,1\n",
    "8127,517631,1\n",
    "8120,517632,0\n",
    "8128,0,0\n",
    "8128,999999999,999999999\n",
    "8192,0,0\n",
    "8639,0,0\n",
    "65536,0,0\n",
    "65983,0,0\n",
    "999999999,0,0\n",
    "1000000000,0,0\n",
    "0,1000000000,0\n",
    "0,0,1000000000\n",
    "00,0,0\n",
    "0,00,0\n",
    "0,0,00\n",
    "01,0,0\n",
    "0,0\n",
    "0,0,0,0\n",
    ",0,0\n",
    "0,,0\n",
    "0,0,\n",
    "0,0,0",
    "0,0,0\n\n",
    "0,0,0\r\n",
    "0,0,0\n0",
    " 0,0,0\n",
    "0,0, 0\n",
    "-1,0,0\n",
    "+1,0,0\n",
    "",
    "\n",
    "0;0;0\n",
    "0x1,0,0\n",
    "8127,517631,2\n",
    "8127,517632,1\n",
    "8127,999999999,999999999\n",
    "8128,0,0",
    "8128,00,0\n",
    "0,32833,0\n\n",
    "8128,999999999,1000000000\n",
];

/// A right line of few rows.
fn right_line(random: &mut Random) -> Vec<u8> {
    let length = random.below(8128) as u64;
    let rows = Length::new(length).map_or(0, Length::rows);
    let first = random.below(rows);
    let how_many = random.below(40.min(rows - first + 1));
    format!("{length},{first},{how_many}\n").into_bytes()
}

/// A right line with one to three bytes changed, put in or taken out.
fn damaged_line(random: &mut Random) -> Vec<u8> {
    let line = right_line(random);
    damaged(line, b"0123456789,,,\n\r +-.x\0\xff", random)
}

/// The fixed lines and so many random ones.
pub fn lines(program: &Program, calls: &mut Calls, count: usize) {
    for line in LINES {
        program.compare(calls, line.as_bytes(), "a fixed line");
    }
    program.compare(calls, &[b'1'; 100_000], "a long line");
    for _ in 0..count {
        let right = right_line(&mut calls.random);
        program.compare(calls, &right, "a right line");
        let damaged = damaged_line(&mut calls.random);
        program.compare(calls, &damaged, "a damaged line");
    }
}

/// All rows of a length by one line.
pub fn all_rows(program: &Program, calls: &mut Calls, bits: u64) {
    let rows = Length::new(bits).map_or(0, Length::rows);
    let line = format!("{bits},0,{rows}\n");
    program.compare(calls, line.as_bytes(), "all rows");
}

/// The 512 block bits of the block in which the record ends: bits of the
/// record, then padding.
pub fn record_end(program: &Program, calls: &mut Calls, bits: u64) {
    let first = START_ROWS + BLOCK_ROWS * (bits / 512);
    let line = format!("{bits},{first},512\n");
    program.compare(calls, line.as_bytes(), "the record's end");
}
