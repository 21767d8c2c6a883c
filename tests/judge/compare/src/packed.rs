//! What the program `packed` is given: a line of length and digest, and packed
//! bytes behind it.

use judge::length::Length;

use crate::calls::Calls;
use crate::claim::Claim;
use crate::packing::packed;
use crate::program::{damaged, Program};
use crate::random::Random;
use crate::refusals::{choices, first};

/// An input in its three parts.
#[derive(Clone)]
struct Input {
    length: u64,
    digest: [u8; 32],
    packed: Vec<u8>,
}

impl Input {
    /// The right one of a random record.
    fn right(length: u64, random: &mut Random) -> Input {
        let claim = Claim::of(&random.record(length));
        let in_range = Length::new(length).expect("a length in range");
        Input {
            length,
            digest: claim.digest,
            packed: packed(in_range, &claim.assignment),
        }
    }

    fn line(&self) -> Vec<u8> {
        let hex: String = self.digest.iter().map(|b| format!("{b:02x}")).collect();
        format!("{},{hex}\n", self.length).into_bytes()
    }

    fn bytes(&self) -> Vec<u8> {
        [self.line(), self.packed.clone()].concat()
    }

    /// Turns a wire's bit over.
    fn turn(&mut self, wire: usize) {
        self.packed[wire / 8] ^= 0x80 >> (wire % 8);
    }

    /// The faults of these refusals, but that of the line.
    fn spoil(&mut self, faults: &[u8], random: &mut Random) {
        let has = |refusal| faults.contains(&refusal);
        let exact = self.packed.len();
        if has(9) {
            self.turn(random.range(257, 8 * exact - 7));
        }
        if has(8) {
            self.digest[random.below(32)] ^= 1 << random.below(8);
        }
        if has(7) {
            self.turn(0);
        }
        if has(12) {
            self.packed[exact - 1] |= random.range(1, 0x80) as u8;
        }
        if has(11) {
            let sizes = [0, 1, exact - 1, exact + 1, exact + 2_816, exact + 100_000];
            self.packed.resize(random.pick(&sizes), 0);
        }
        if has(2) {
            // Two would be the length after losing upper bits.
            let wider = [8192, 65_536].map(|more| more + self.length);
            self.length = random.pick(&[8128, 8129, wider[0], wider[1], 999_999_999]);
        }
    }
}

/// A part of a right line, by its first byte and the one after its last, and
/// what takes its place: each makes the line a bad one. The line is that of a
/// length of one digit.
const BAD_PARTS: [(usize, usize, &str); 36] = [
    // The length.
    (0, 1, ""),
    (0, 1, "00"),
    (0, 1, "01"),
    (0, 1, "-0"),
    (0, 1, "+0"),
    (0, 1, " 0"),
    (0, 1, "0 "),
    (0, 1, "a"),
    (0, 1, "\n"),
    (0, 1, "\n0"),
    (0, 1, "1000000000"),
    (0, 1, "18446744073709551616"),
    // The comma.
    (1, 2, ""),
    (1, 2, ";"),
    (1, 2, ",,"),
    (1, 2, ", "),
    (1, 2, ",0,"),
    (1, 2, "\n"),
    // The first, a middle and the last digit of the digest.
    (2, 3, ""),
    (2, 3, "00"),
    (2, 3, "A"),
    (2, 3, "/"),
    (2, 3, ":"),
    (33, 34, "\n"),
    (33, 34, "@"),
    (33, 34, "`"),
    (65, 66, ""),
    (65, 66, "00"),
    (65, 66, "F"),
    (65, 66, "g"),
    (65, 66, "\0"),
    // The line feed.
    (66, 67, "\r\n"),
    (66, 67, ",\n"),
    (66, 67, " \n"),
    (66, 67, "\r"),
    // And the whole line.
    (0, 67, ""),
];

/// Bad lines with the packed bytes behind, and with nothing.
pub fn bad_lines(program: &Program, calls: &mut Calls) {
    let right = Input::right(0, &mut calls.random);
    for (begin, end, by) in BAD_PARTS {
        let mut line = right.line();
        line.splice(begin..end, by.bytes());
        must_print(program, calls, &line, "a bad line alone", 1);
        line.extend(&right.packed);
        must_print(program, calls, &line, "a bad line", 1);
    }
    let upper = [right.line().to_ascii_uppercase(), right.packed.clone()].concat();
    must_print(program, calls, &upper, "upper-case digits", 1);
    for bytes in [vec![], vec![b'1'; 100_000], right.line()[..66].to_vec()] {
        must_print(program, calls, &bytes, "no line feed", 1);
    }
}

/// One input for which the paper's answer is known, 0 for an acceptance: a slip
/// of the judge in the order of refusals would show here.
fn must_print(program: &Program, calls: &mut Calls, input: &[u8], note: &str, refusal: u8) {
    let known = match refusal {
        0 => String::from("accepted\n"),
        number => format!("refused,{number}\n"),
    };
    let judged = program.compare(calls, input, note);
    if judged != known {
        let text = format!("packed, {note}: the judge has {judged:?}, the paper {known:?}");
        calls.tally.difference(text);
    }
}

/// Every choice of faults, so many times. The first fault in the order of the
/// refusals must be printed.
pub fn faults(program: &Program, calls: &mut Calls, length: u64, times: usize) {
    let right = Input::right(length, &mut calls.random);
    for faults in choices(&[1, 2, 11, 12, 7, 8, 9], times) {
        let mut input = right.clone();
        input.spoil(&faults, &mut calls.random);
        let mut bytes = input.bytes();
        if faults.contains(&1) {
            bytes.insert(0, b'0');
        }
        let note = format!("the faults of refusals {faults:?}");
        must_print(program, calls, &bytes, &note, first(&faults));
    }
}

/// A right claim, also in two parts; a bit of the wires, of the digest and of
/// wire 0 changed; a spare bit; a byte too few and one too many.
pub fn claims(program: &Program, calls: &mut Calls, length: u64) {
    let right = Input::right(length, &mut calls.random);
    must_print(program, calls, &right.bytes(), "a right claim", 0);
    let any = calls.random.below(right.bytes().len());
    let cut = calls.random.pick(&[1, right.line().len(), any]);
    program.compare_cut(calls, &right.bytes(), cut, "a right claim in two parts");
    for refusal in [7, 8, 9, 11, 12] {
        let mut input = right.clone();
        input.spoil(&[refusal], &mut calls.random);
        let note = format!("the fault of refusal {refusal}");
        must_print(program, calls, &input.bytes(), &note, refusal);
    }
    for more in [0, 2] {
        let mut input = right.clone();
        input.packed.resize(right.packed.len() + more - 1, 0);
        must_print(program, calls, &input.bytes(), "a byte off", 11);
    }
}

/// So many lengths at random, and as many inputs of one block with damaged
/// lines.
pub fn random(program: &Program, calls: &mut Calls, count: usize) {
    for _ in 0..count {
        let length = calls.random.below(8128) as u64;
        claims(program, calls, length);
        let length = calls.random.pick(&[0, 7, 10, 443]);
        let right = Input::right(length, &mut calls.random);
        let mut input = damaged(
            right.line(),
            b"01789aAfFg,,\n\n\r \0\xff",
            &mut calls.random,
        );
        if !calls.random.one_in(4) {
            input.extend(right.packed);
        }
        program.compare(calls, &input, "a damaged line");
    }
}
