//! The axle circuit in the soak: rows, records and claims with the answers
//! worked out beforehand.

use host::axles::Pair;
use host::Empty;
use judge::axles::{self, check_with, row_with, rows};
use judge::operations::ROW_BYTES;

use super::claims::{bounds, digits, fill, record, right_entries, some_axles, some_pair, unfilled};
use super::claims::{LINE_BITS, WIRES};
use crate::answers;
use crate::claim::{Claim, Ground};
use crate::damage::WAYS;
use crate::random::Random;
use crate::soak::{steady, OLD};

const BANDS: usize = 10;
const ROWS_A_BAND: usize = 100;

/// A row with the bytes of its terms and its answer.
struct Listed {
    pair: Pair,
    row: u64,
    bytes: Vec<u8>,
    answer: u64,
}

/// A record with its right claim.
struct Produced {
    pair: Pair,
    record: Vec<u8>,
    claim: Claim,
}

/// A claim with what the check answers.
struct Checked {
    pair: Pair,
    claim: Claim,
    answer: u64,
}

/// All calls with their answers, and the buffer that they write.
pub struct Bands {
    rows: Vec<Listed>,
    records: Vec<Produced>,
    checks: Vec<Checked>,
    buffer: Vec<u8>,
}

fn produced(random: &mut Random) -> Produced {
    let pair = some_pair(random);
    let axles = some_axles(pair, random);
    let record = record(digits(axles), random);
    let mut claim = unfilled(&record);
    fill(&mut claim, &right_entries(pair, axles));
    Produced {
        pair,
        record,
        claim,
    }
}

fn listed(ground: &Ground, pair: Pair, row: u64) -> Listed {
    let mut bytes = vec![OLD; ROW_BYTES];
    let answer = answers::row(row_with(&ground.table, row, &mut bytes));
    Listed {
        pair,
        row,
        bytes,
        answer,
    }
}

fn checked(ground: &Ground, pair: Pair, claim: Claim) -> Checked {
    let answer = check_with(&ground.table, &claim.digest, &claim.assignment);
    Checked {
        pair,
        claim,
        answer: answers::plain(answer),
    }
}

impl Bands {
    pub fn new(random: &mut Random) -> Bands {
        let mut ground = Ground::new(LINE_BITS);
        let (mut listings, mut records, mut checks) = (Vec::new(), Vec::new(), Vec::new());
        for _ in 0..BANDS {
            let of = produced(random);
            rows::rebind(&mut ground.table, bounds(of.pair));
            for _ in 0..ROWS_A_BAND {
                let begin = random.pick(&[0, super::claims::ROWS as usize]);
                let row = random.range(begin, axles::row_count() + 1) as u64;
                listings.push(listed(&ground, of.pair, row));
            }
            let wire = random.range(WIRES, of.claim.wires());
            let mut turned = of.claim.clone();
            turned.set(wire, 1 - turned.entry(wire));
            let mut damaged = of.claim.clone();
            WAYS[random.below(WAYS.len())].1(&ground, &mut damaged, random);
            for claim in [of.claim.clone(), turned, damaged] {
                checks.push(checked(&ground, of.pair, claim));
            }
            records.push(of);
        }
        Bands {
            rows: listings,
            records,
            checks,
            buffer: vec![OLD; axles::assignment_bytes()],
        }
    }

    fn row(&mut self, random: &mut Random) -> Result<(), String> {
        let of = &self.rows[random.below(self.rows.len())];
        let out = &mut self.buffer[..ROW_BYTES];
        out.fill(OLD);
        let answer = host::axles::row(Empty::Null, of.pair, of.row, out);
        steady("axles row", of.answer, answer, &of.bytes, out)
    }

    fn produce(&mut self, random: &mut Random) -> Result<(), String> {
        let of = &self.records[random.below(self.records.len())];
        self.buffer.fill(OLD);
        let out = &mut self.buffer;
        let answer = host::axles::produce(Empty::Null, of.pair, &of.record, out);
        steady("axles produce", 0, answer, &of.claim.assignment, out)
    }

    fn check(&mut self, random: &mut Random) -> Result<(), String> {
        let of = &self.checks[random.below(self.checks.len())];
        let (digest, assignment) = (&of.claim.digest, &of.claim.assignment);
        let answer = host::axles::check(Empty::Null, of.pair, digest, assignment);
        steady("axles check", of.answer, answer, &[], &[])
    }

    /// A call that is refused: refusals 13, 18, 19, 3, 4, 5, 6.
    fn refused(&mut self, random: &mut Random) -> Result<(), String> {
        let of = &self.records[random.below(self.records.len())];
        let ([lower, upper], none) = (of.pair, Empty::Null);
        let (digest, assignment) = (&of.claim.digest, &of.claim.assignment);
        let out = &mut self.buffer[..ROW_BYTES];
        out.fill(OLD);
        let mut outside = of.record.clone();
        outside[17] = b'/';
        let (must, answer) = match random.below(8) {
            0 => (13, host::axles::produce(none, of.pair, &outside[1..], out)),
            1 => (18, host::axles::produce(none, [1, upper], &outside, out)),
            2 => (19, host::axles::produce(none, of.pair, &outside, out)),
            3 => (4, host::axles::produce(none, of.pair, &of.record, out)),
            4 => (18, host::axles::row(none, [lower, 100], 0, out)),
            5 => (3, host::axles::row(none, of.pair, u64::MAX, out)),
            6 => (5, host::axles::check(none, of.pair, &[], assignment)),
            _ => (6, host::axles::check(none, of.pair, digest, digest)),
        };
        steady("a refused axle call", must, answer, &[OLD; ROW_BYTES], out)
    }

    /// One call, mostly a short one.
    pub fn call(&mut self, random: &mut Random) -> Result<(), String> {
        match random.below(100) {
            0..=69 => self.row(random),
            70..=89 => self.refused(random),
            90..=94 => self.produce(random),
            _ => self.check(random),
        }
    }
}
