//! What the program `trial` must print, worked out by the judge: the check of
//! a record's layout, of the same with one thing changed, and of wrong
//! lengths. The lines are held against the program's file `stdout`.

mod support;

use judge::check::{check, check_with};
use judge::field::P;
use judge::forms::RowTable;
use judge::length::{Length, LONGEST};
use judge::limit::SIXTEEN;
use judge::record::Record;
use judge::refusal::Refusal;
use judge::{layout, rows, sm3};
use support::{entry, length, set_entry};

/// A record's assignment and digest, with the rows of its length and the
/// lines so far.
struct Trial {
    bits: u64,
    length: Length,
    table: RowTable,
    assignment: Vec<u8>,
    digest: [u8; 32],
    lines: Vec<String>,
}

impl Trial {
    /// The record of so many bits whose byte k is k mod 251; the bits after
    /// its last one are zero.
    fn of(bits: u64) -> Trial {
        let bytes: Vec<u8> = (0..1016).map(|k| (k % 251) as u8).collect();
        let record = Record::front(bits, &bytes).expect("a record in range");
        Trial {
            bits,
            length: length(bits),
            table: rows::rows(length(bits)),
            assignment: layout::assignment(&record),
            digest: sm3::hash(&record),
            lines: Vec::new(),
        }
    }

    /// The line of a check: "9" with the row, "20" with the wire, another
    /// refusal alone, 0 for none.
    fn line(&mut self, what: &str, answer: Result<(), Refusal>) {
        let answer = match answer {
            Ok(()) => "0".to_string(),
            Err(Refusal::Unsatisfied(row)) => format!("9,{}", row.0),
            Err(Refusal::NotBelowPrime(wire)) => format!("20,{}", wire.0),
            Err(refusal) => refusal.number().to_string(),
        };
        self.lines.push(format!("{},{what},{answer}", self.bits));
    }

    fn check(&mut self, what: &str) {
        let answer = check_with(&self.table, self.length, &self.assignment, &self.digest);
        self.line(what, answer);
    }

    /// The check with an entry of another value; the change is taken back.
    fn with(&mut self, what: &str, wire: usize, value: u64) {
        let before = entry(&self.assignment, wire);
        set_entry(&mut self.assignment, wire, value);
        self.check(what);
        set_entry(&mut self.assignment, wire, before);
    }

    /// The check with an entry 0 as 1, or 1 as 0.
    fn changed(&mut self, what: &str, wire: usize) {
        let value = 1 - entry(&self.assignment, wire);
        self.with(what, wire, value);
    }

    fn wires(&mut self) {
        // The message's bit k stands in block k / 512.
        let message = |bit: usize| 513 + 22_528 * (bit / 512) + bit % 512;
        let bits = self.length.bits();
        // The last block ends with 256 result wires, and before them with
        // the 230 wires of round 63: P0(TT2) is its last word, and the lower
        // carry of TT2 stands before that.
        let end = self.length.wires();
        let carry = end - 256 - 32 - 1;
        self.changed("one", 0);
        self.changed("digest", 1);
        self.changed("start", 257);
        self.changed("padding", message(bits));
        if bits > 0 {
            self.changed("record", message(bits - 1));
        }
        self.changed("carry", carry);
        self.with("two", carry, 2);
        self.with("below", carry, P - 1);
        self.with("prime", carry, P);
        self.with("largest", carry, u64::MAX);
        self.changed("result", end - 1);
    }

    fn digests(&mut self) {
        self.digest[0] ^= 0x80;
        self.check("other");
        self.changed("both", 1);
        self.digest[0] ^= 0x80;
    }

    fn lengths(&mut self) {
        let long = check(SIXTEEN, LONGEST + 1, &self.assignment, &self.digest);
        self.line("length", long);
        let digest = check(SIXTEEN, self.bits, &self.assignment, &self.digest[..31]);
        self.line("digest31", digest);
        let short = &self.assignment[..self.assignment.len() - 1];
        let short = check(SIXTEEN, self.bits, short, &self.digest);
        self.line("short", short);
    }

    fn plus_p(&mut self) {
        for wire in 0..self.length.wires() {
            let value = entry(&self.assignment, wire) + P;
            set_entry(&mut self.assignment, wire, value);
        }
        self.check("plus_p");
    }

    fn run(mut self) -> Vec<String> {
        self.check("produced");
        self.wires();
        self.digests();
        self.lengths();
        self.plus_p();
        self.lines
    }
}

#[test]
fn the_program_trial_prints_these_lines() {
    let lines = [0, 440, 448, 512, 8120, 8127].map(|bits| Trial::of(bits).run());
    let path = concat!(env!("CARGO_MANIFEST_DIR"), "/../../crates/trial/stdout");
    let printed = std::fs::read_to_string(path).expect("the program's file");
    assert_eq!(printed, lines.concat().join("\n") + "\n");
}
