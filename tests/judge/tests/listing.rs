//! The program `rows`: its line, which the program `steps` reads too, and what
//! it prints.

mod support;

use judge::listing::listing;
use judge::{rows, steps};
use support::{length, run};

const HEADER: &str = "row,part,wire,coefficient\n";

#[test]
fn the_whole_example() {
    let expected = "row,part,wire,coefficient\n\
                    0,A,257,1\n0,B,0,1\n\
                    1,A,258,1\n1,B,0,1\n1,C,0,1\n";
    assert_eq!(listing(b"0,0,2\n"), expected);
}

/// `rows` and `steps` refuse "the same lines in the same way".
fn assert_refused(line: &[u8], refusal: &str) {
    assert_eq!(listing(line), refusal, "{}", line.escape_ascii());
    assert_eq!(steps::listing(line), refusal, "{}", line.escape_ascii());
}

#[test]
fn lines_that_are_refusal_1() {
    let lines: [&[u8]; 36] = [
        b"",
        b"\n",
        b"0,0,2",
        b"0,0,2\n\n",
        b"0,0,2\r\n",
        b"0,0,2\n0",
        b"0,0,2 \n",
        b" 0,0,2\n",
        b"0, 0,2\n",
        b"+0,0,2\n",
        b"-0,0,2\n",
        b"00,0,2\n",
        b"0,00,2\n",
        b"0,0,02\n",
        b"0,0\n",
        b"0,0,2,\n",
        b",0,0,2\n",
        b"0,0,2,0\n",
        b"0,,2\n",
        b",,\n",
        b"0;0;2\n",
        b"0,0,2\0\n",
        b"1234567890,0,0\n",
        b"0,1234567890,0\n",
        b"0,0,1234567890\n",
        b"0,0,1e1\n",
        b"0,0,0x1\n",
        b"0,0,2\0",
        b"\n0,0,2\n",
        b"0,0\n,2\n",
        b"0,0,\xb2\n",
        b"01,0,2\n",
        // The faults of refusals 2 and 3 besides.
        b"8128,0,0",
        b"8128,00,0\n",
        b"0,32833,0\n\n",
        b"8128,999999999,1000000000\n",
    ];
    for line in lines {
        assert_refused(line, "refused,1\n");
    }
}

#[test]
fn refusals_2_and_3() {
    for line in [
        "8128,0,0\n",
        "999999999,999999999,999999999\n",
        "8128,999999999,0\n",
    ] {
        assert_refused(line.as_bytes(), "refused,2\n");
    }
    for line in [
        "0,32832,1\n",
        "0,32831,2\n",
        "0,0,32833\n",
        "0,32833,0\n",
        "8127,517632,1\n",
        "8127,517631,2\n",
        "8127,999999999,999999999\n",
    ] {
        assert_refused(line.as_bytes(), "refused,3\n");
    }
}

#[test]
fn how_many_may_be_0() {
    for line in ["0,0,0\n", "0,32832,0\n", "8120,517632,0\n", "8127,5,0\n"] {
        assert_eq!(listing(line.as_bytes()), HEADER, "{line}");
    }
}

#[test]
fn the_last_row_of_length_0() {
    let expected = "32831,A,256,1\n32831,A,23040,-1\n32831,B,0,1\n";
    assert_eq!(listing(b"0,32831,1\n"), format!("{HEADER}{expected}"));
}

#[test]
fn a_whole_listing_reads_back_as_the_rows() {
    let table = rows::rows(length(13));
    let text = listing(b"13,0,32832\n");
    assert!(text.ends_with('\n'));
    let mut lines = text.lines();
    assert_eq!(lines.next(), Some(HEADER.trim_end()));
    for (number, row) in table.iter() {
        for (part, sum) in [("A", row.a), ("B", row.b), ("C", row.c)] {
            for term in sum {
                let fields: Vec<&str> = lines.next().unwrap().split(',').collect();
                let wire = term.wire.0.to_string();
                let coefficient = term.coefficient.to_string();
                assert_eq!(fields, [&number.0.to_string(), part, &wire, &coefficient]);
            }
        }
    }
    assert_eq!(lines.next(), None);
}

#[test]
fn the_binary() {
    assert_eq!(run(&["rows"], b"0,0,2\n"), listing(b"0,0,2\n"));
    assert_eq!(run(&["rows"], b"0,0,2"), "refused,1\n");
    assert_eq!(run(&["steps"], b"8,255,4\n"), steps::listing(b"8,255,4\n"));
    assert_eq!(run(&["steps"], b"8,255,4"), "refused,1\n");
    let abc = "66c7f0f462eeedd9d1f2d46bdc10e4e24167c4875cf2f7a2297da02b8f4ba8e0\n";
    assert_eq!(run(&["digest"], b"abc"), abc);
    assert_eq!(run(&["digest", "24"], b"abc"), abc);
    assert_eq!(run(&["digest"], &[0; 1016]), "refused,2\n");
    assert_eq!(
        run(&["counts", "0"], b""),
        "blocks,1\nwires,23041\nrows,32832\n"
    );
    assert_eq!(
        run(&["counts", "448"], b""),
        "blocks,2\nwires,45569\nrows,65152\n"
    );
    assert_eq!(run(&["counts", "8128"], b""), "refused,2\n");
}

#[test]
fn the_binary_takes_a_digest_of_bits() {
    assert_eq!(run(&["digest", "8128"], &[0; 1016]), "refused,2\n");
    for bits in ["0", "16", "25"] {
        assert_eq!(run(&["digest", bits], b"abc"), "refused,13\n", "{bits}");
    }
    // The last byte, 0x63, ends with two bits 1.
    for bits in ["22", "23"] {
        assert_eq!(run(&["digest", bits], b"abc"), "refused,14\n", "{bits}");
    }
    assert_eq!(run(&["digest", "23"], b"abb").len(), 65);
}
