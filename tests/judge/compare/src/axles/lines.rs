//! What the programs `axle_rows` and `axle_steps` are given: lines for the
//! parser, which is the same for both, and listings.

use host::axles::Pair;
use judge::axles::row_count;

use super::claims::{some_pair, ROWS};
use crate::calls::Calls;
use crate::program::{damaged, Program};
use crate::random::Random;

/// Lines with what is printed of them: 0 for rows, else the refusal. They meet
/// one clause each of the line's rule, both sides of every limit, bounds that
/// would be right after losing upper bits, and the faults of several refusals.
const LINES: [(&str, u8); 67] = [
    ("2,5,65176,2\n", 0),
    ("2,5,0,0\n", 0),
    ("2,99,65185,1\n", 0),
    ("2,99,65186,0\n", 0),
    ("99,99,65152,34\n", 0),
    ("2,2,0,1\n", 0),
    ("2,99,65186,1\n", 3),
    ("2,99,65187,0\n", 3),
    ("2,99,0,65187\n", 3),
    ("2,99,65151,36\n", 3),
    ("2,99,999999999,999999999\n", 3),
    ("2,99,130722,1\n", 3),
    ("1,99,0,0\n", 18),
    ("0,99,0,0\n", 18),
    ("0,0,0,0\n", 18),
    ("2,100,0,0\n", 18),
    ("2,1,0,0\n", 18),
    ("2,0,0,0\n", 18),
    ("3,2,0,0\n", 18),
    ("99,98,0,0\n", 18),
    ("100,100,0,0\n", 18),
    ("258,5,0,1\n", 18),
    ("2,261,0,1\n", 18),
    ("258,261,0,1\n", 18),
    ("130,133,0,1\n", 18),
    ("65538,65541,0,1\n", 18),
    ("999999999,999999999,0,0\n", 18),
    ("1,99,65187,0\n", 18),
    ("1,100,999999999,999999999\n", 18),
    ("5,4,999999999,999999999\n", 18),
    ("1000000002,5,0,0\n", 1),
    ("2,1000000005,0,0\n", 1),
    ("4294967298,4294967301,0,0\n", 1),
    ("2,18446744073709551621,0,0\n", 1),
    ("2,5,1000000000,0\n", 1),
    ("2,5,0,1000000000\n", 1),
    ("2,5,18446744073709551616,0\n", 1),
    ("02,5,0,0\n", 1),
    ("2,05,0,0\n", 1),
    ("2,5,00,0\n", 1),
    ("2,5,0,00\n", 1),
    ("2,5,0\n", 1),
    ("2,5\n", 1),
    ("504,0,2\n", 1),
    ("2,5,0,0,0\n", 1),
    (",5,0,0\n", 1),
    ("2,,0,0\n", 1),
    ("2,5,,0\n", 1),
    ("2,5,0,\n", 1),
    ("2,5,0,0,\n", 1),
    (",2,5,0,0\n", 1),
    ("2,5,0,0", 1),
    ("2,5,0,0\n\n", 1),
    ("2,5,0,0\r\n", 1),
    ("2,5,0,0\n0", 1),
    ("\n2,5,0,0\n", 1),
    (" 2,5,0,0\n", 1),
    ("2,5,0, 0\n", 1),
    ("-2,5,0,0\n", 1),
    ("+2,5,0,0\n", 1),
    ("2;5;0;0\n", 1),
    ("0x2,5,0,0\n", 1),
    ("2,5,0,0\0\n", 1),
    ("", 1),
    ("\n", 1),
    ("1,100,00,0\n", 1),
    ("5,4,65187,0\n\n", 1),
];

/// A right line of few rows, among them appended ones in half of the cases.
fn right_line(random: &mut Random) -> Vec<u8> {
    let [lower, upper] = some_pair(random);
    let begin = random.pick(&[0, ROWS as usize - 3]);
    let first = random.range(begin, row_count() + 1);
    let how_many = random.below(40.min(row_count() - first + 1));
    format!("{lower},{upper},{first},{how_many}\n").into_bytes()
}

/// One line for which the paper's answer is known: a slip of the judge in the
/// order of refusals would show here.
fn must_print(program: &Program, calls: &mut Calls, line: &str, refusal: u8) {
    let judged = program.compare(calls, line.as_bytes(), "a fixed line");
    let right = match refusal {
        0 => judged.starts_with("row,"),
        number => judged == format!("refused,{number}\n"),
    };
    if !right {
        let text = format!("{}, {line:?}: the judge has {judged:?}", program.name);
        calls.tally.difference(text);
    }
}

/// The fixed lines and so many random ones, right and damaged.
pub fn lines(program: &Program, calls: &mut Calls, count: usize) {
    for (line, refusal) in LINES {
        must_print(program, calls, line, refusal);
    }
    program.compare(calls, &[b'2'; 100_000], "a long line");
    let right = right_line(&mut calls.random);
    let cut = calls.random.below(right.len());
    program.compare_cut(calls, &right, cut, "a right line in two parts");
    for _ in 0..count {
        let right = right_line(&mut calls.random);
        program.compare(calls, &right, "a right line");
        let damaged = damaged(right, b"0123456789,,,\n\r +-.x\0\xff", &mut calls.random);
        program.compare(calls, &damaged, "a damaged line");
    }
}

/// All rows under two bounds by one line.
pub fn all_rows(program: &Program, calls: &mut Calls, [lower, upper]: Pair) {
    let line = format!("{lower},{upper},0,{}\n", row_count());
    program.compare(calls, line.as_bytes(), "all rows");
}
