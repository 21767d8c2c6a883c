//! The programs `axle_rows` and `axle_steps`: their line and what they print.

mod support;

use judge::axles::listing::{axle_rows, axle_steps};
use judge::axles::rows;
use support::axles::{bounds, APPENDED};
use support::run;

#[test]
fn the_example_of_axle_steps() {
    let expected = "row,block,step,index,bit,form\n\
                    65176,,appended,24,0,bit\n\
                    65177,,appended,25,0,sum\n";
    assert_eq!(axle_steps(b"2,5,65176,2\n"), expected);
    assert_eq!(run(&["axle_steps"], b"2,5,65176,2\n"), expected);
}

#[test]
fn a_fixed_row_and_a_bit_row_as_they_are_listed() {
    let expected = "row,part,wire,coefficient\n\
                    65159,A,660,1\n65159,B,0,1\n65159,C,0,1\n\
                    65160,A,45569,1\n\
                    65160,B,0,-1\n65160,B,45569,1\n";
    assert_eq!(axle_rows(b"2,5,65159,2\n"), expected);
    assert_eq!(run(&["axle_rows"], b"2,5,65159,2\n"), expected);
}

#[test]
fn the_record_s_rows_are_listed_as_a_record_s() {
    let (rows, steps) = (judge::listing::listing, judge::steps::listing);
    assert!(axle_rows(b"2,5,0,65152\n") == rows(b"504,0,65152\n"));
    assert!(axle_steps(b"2,5,0,65152\n") == steps(b"504,0,65152\n"));
}

#[test]
fn the_forms_of_the_appended_rows() {
    let text = axle_steps(b"3,4,65152,34\n");
    let lines: Vec<&str> = text.lines().skip(1).collect();
    let table = rows::appended(bounds(3, 4));
    assert_eq!(lines.len(), 34);
    for ((index, row), line) in table.iter().zip(lines) {
        let form = match (row.a.len(), row.b.len()) {
            (1, 1) => "fixed",
            (1, 2) => "bit",
            _ => "sum",
        };
        let (number, index) = (APPENDED + index.0, index.0);
        assert_eq!(line, format!("{number},,appended,{index},0,{form}"));
    }
}

#[test]
fn lines_that_are_refused() {
    for (line, refusal) in [
        ("", 1),
        ("2,5,0\n", 1),
        ("2,5,0,0,0\n", 1),
        ("2,5,0,0", 1),
        ("2,5,0,0\n\n", 1),
        ("02,5,0,0\n", 1),
        ("2,05,0,0\n", 1),
        ("2,5,,0\n", 1),
        ("2,5,0,1000000000\n", 1),
        ("1000000002,5,0,0\n", 1),
        ("4294967298,5,0,0\n", 1),
        ("1,5,0,00\n", 1),
        ("1,5,0,0\n", 18),
        ("2,100,0,0\n", 18),
        ("6,5,65187,0\n", 18),
        ("258,261,0,1\n", 18),
        ("999999999,999999999,999999999,999999999\n", 18),
        ("2,5,65186,1\n", 3),
        ("2,5,65187,0\n", 3),
        ("2,5,0,65187\n", 3),
        ("99,99,999999999,999999999\n", 3),
    ] {
        let expected = format!("refused,{refusal}\n");
        assert_eq!(axle_rows(line.as_bytes()), expected, "{line}");
        assert_eq!(axle_steps(line.as_bytes()), expected, "{line}");
    }
    assert_eq!(axle_rows(b"2,5,65186,0\n"), "row,part,wire,coefficient\n");
    assert_eq!(
        axle_steps(b"99,99,0,0\n"),
        "row,block,step,index,bit,form\n"
    );
}
