//! The program `steps`: what it prints, held against rows that were placed by
//! hand and against the judge's own rows.

mod support;

use judge::forms::Row;
use judge::rows;
use judge::steps::listing;
use support::{length, LENGTHS};

const HEADER: &str = "row,block,step,index,bit,form";

#[test]
fn the_whole_example() {
    let expected = "row,block,step,index,bit,form\n\
                    255,,start,7,31,fixed\n\
                    256,0,message,0,0,bit\n\
                    257,0,message,0,1,bit\n\
                    258,0,message,0,2,bit\n";
    assert_eq!(listing(b"8,255,4\n"), expected);
}

#[test]
fn how_many_may_be_0() {
    for line in ["0,0,0\n", "0,32832,0\n", "8120,517632,0\n", "8127,5,0\n"] {
        assert_eq!(listing(line.as_bytes()), format!("{HEADER}\n"), "{line}");
    }
}

/// Rows of 448 bits, which are 2 blocks, by the tables of docs/LAYOUT.md:
/// block 0 has its rows from 256 on, block 1 from 32,576 on. Round 15 begins
/// at row 17,479 of a block, round 16 at 17,808, round 63 at 31,767.
const BY_HAND: [&str; 28] = [
    // 32 × 3 + 5.
    "101,,start,3,5,fixed",
    // The record has 448 bits, words 0 to 13.
    "703,0,message,13,31,bit",
    "704,0,message,14,0,fixed",
    "32576,1,message,0,0,fixed",
    // 512 + 192 × (20 - 16) + 2 × 9 is 1,298.
    "1554,0,q,20,9,bit",
    "1555,0,q,20,9,xor of three",
    // 512 + 192 × (67 - 16) + 64 is 10,368; the expansion ends at 10,496.
    "10624,0,p1,67,0,bit",
    "10751,0,w,67,31,xor of three",
    // 10,496 + 32 × 63 + 31 is 12,543.
    "45119,1,wprime,63,31,xor of two",
    // Round 0 begins at 12,544: 32 bits, 2 carries, the equation.
    "12831,0,u,0,31,bit",
    "12832,0,u,0,32,bit",
    "12833,0,u,0,33,bit",
    "12834,0,u,0,,sum",
    "12835,0,ss2,0,0,xor of two",
    // 17,479 + 35 + 4.
    "17774,0,ss2,15,4,xor of two",
    // 17,479 + 67 + 2 × 31 + 1, and 17,808 + 67.
    "17865,0,ff,15,31,xor of three",
    "18131,0,ff,16,0,bit",
    "18132,0,ff,16,0,majority",
    // 17,479 + 131 + 2, and the example of docs/LAYOUT.md.
    "17868,0,gg,15,1,bit",
    "20000,0,gg,22,23,choice",
    // 17,479 + 195, and 17,808 + 163 + 34.
    "17930,0,tt1,15,0,bit",
    "18261,0,tt1,16,,sum",
    // 31,767 + 198 + 33.
    "64574,1,tt2,63,33,bit",
    "64575,1,tt2,63,,sum",
    // 31,767 + 233 + 63.
    "32319,0,p0,63,31,xor of three",
    // 32,064 + 32 × 2 + 5.
    "64709,1,result,2,5,xor of two",
    // 256 + 2 × 32,320 is 64,896.
    "64896,,digest,0,0,equal",
    "65151,,digest,7,31,equal",
];

#[test]
fn rows_placed_by_hand() {
    for expected in BY_HAND {
        let row = expected.split(',').next().unwrap();
        let printed = listing(format!("448,{row},1\n").as_bytes());
        assert_eq!(printed, format!("{HEADER}\n{expected}\n"));
    }
}

#[test]
fn a_record_that_ends_inside_a_byte() {
    let expected = "row,block,step,index,bit,form\n\
                    703,0,message,13,31,bit\n\
                    704,0,message,14,0,bit\n\
                    705,0,message,14,1,bit\n\
                    706,0,message,14,2,fixed\n";
    assert_eq!(listing(b"450,703,4\n"), expected);
}

/// The form that a row has, by its terms alone.
fn form(row: Row<'_>) -> &'static str {
    let majority = row.a.iter().any(|term| term.coefficient == -2);
    match (row.a.len(), row.b.len(), row.c.len()) {
        (1, 1, 0 | 1) => "fixed",
        (1, 2, 0) => "bit",
        (1, 1, 3) => "xor of two",
        (4, 5, 0) if majority => "majority",
        (4, 5, 0) => "xor of three",
        (1, 2, 2) => "choice",
        (61.., 1, 0) => "sum",
        (2, 1, 0) => "equal",
        counts => panic!("no form has {counts:?} terms"),
    }
}

/// The wire that a row is for. A digest row is for its digest wire; any other
/// is for its highest one, since operands have their wires before results.
fn wire(row: Row<'_>) -> u32 {
    let terms = row.a.iter().chain(row.b).chain(row.c);
    match form(row) {
        "equal" => row.a[0].wire.0,
        _ => terms.map(|term| term.wire.0).max().unwrap(),
    }
}

/// The first wire of a word, by the list in "Wires". Block, step and index
/// are as `steps` prints them.
fn first_wire(block: &str, step: &str, index: u32) -> u32 {
    let block: u32 = block.parse().unwrap_or(0);
    let first = 513 + 22_528 * block;
    let expansion = |at: u32| first + 512 + 96 * (index - 16) + at;
    let round = |at: u32| first + 7_552 + 230 * index + at;
    match step {
        "digest" => 1 + 32 * index,
        "start" => 257 + 32 * index,
        "message" => first + 32 * index,
        "q" => expansion(0),
        "p1" => expansion(32),
        "w" => expansion(64),
        "wprime" => first + 5_504 + 32 * index,
        "u" => round(0),
        "ss2" => round(34),
        "ff" => round(66),
        "gg" => round(98),
        "tt1" => round(130),
        "tt2" => round(164),
        "p0" => round(198),
        "result" => first + 22_272 + 32 * index,
        _ => panic!("no step {step}"),
    }
}

/// Whether a printed line says the number, the form and the wire of this row.
/// A sum's equation has no bit; its highest wire is the second carry.
fn says(line: &str, number: u32, row: Row<'_>) -> bool {
    let fields: Vec<&str> = line.split(',').collect();
    let [printed, block, step, index, bit, form_name] = fields[..] else {
        return false;
    };
    let equation = form_name == "sum";
    let position = if equation { 33 } else { bit.parse().unwrap() };
    printed == number.to_string()
        && block.is_empty() == matches!(step, "start" | "digest")
        && bit.is_empty() == equation
        && form_name == form(row)
        && first_wire(block, step, index.parse().unwrap()) + position == wire(row)
}

#[test]
fn all_lines_agree_with_the_rows() {
    for bits in LENGTHS {
        let table = rows::rows(length(bits));
        let text = listing(format!("{bits},0,{}\n", table.count()).as_bytes());
        let mut lines = text.lines();
        assert_eq!(lines.next(), Some(HEADER));
        for (number, row) in table.iter() {
            let line = lines.next().unwrap();
            assert!(says(line, number.0, row), "{bits} bits: {line}");
        }
        assert_eq!(lines.next(), None);
    }
}
