//! What is measured of the check: right claims, and claims that are made to take
//! long. Before a time is taken, all sides must answer alike.

use host::Empty;
use judge::check::check_with;
use judge::field::P;
use judge::forms::RowTable;
use judge::layout;
use judge::length::Length;
use judge::rows;
use judge::sm3;

use crate::baseline::Matrix;
use crate::measures::{answer, deceive, figures, put_entry, record, shift, LIMIT, OURS};
use crate::timing::{best, side, Figure};

/// A record's claim with the rows of its length, as the judge has them and as
/// the stored sparse matrix.
struct Claim {
    length: Length,
    digest: [u8; 32],
    assignment: Vec<u8>,
    table: RowTable,
    matrix: Matrix,
}

/// What stands beside the stored sparse matrix.
enum Beside {
    /// The judge on the same bytes.
    Judge,
    /// Our own check of the right claim.
    Right,
}

impl Claim {
    fn new(bits: u64) -> Claim {
        let record = record(bits);
        let length = record.length();
        let table = rows::rows(length);
        Claim {
            length,
            digest: sm3::hash(&record),
            assignment: layout::assignment(&record),
            matrix: Matrix::new(length, &table),
            table,
        }
    }

    /// A wire by how many come after it.
    fn wire(&self, after: usize) -> usize {
        self.length.wires() - 1 - after
    }

    /// Refusal 9 with a row of the last block by how many of the block's rows
    /// come after it. The last 256 rows are the digest's.
    fn fails_at(&self, after: usize) -> u64 {
        9 | (self.table.count() as u64 - 256 - 1 - after as u64) << 8
    }

    /// The check beside the stored sparse matrix on these bytes. All sides
    /// must give this answer, the judge too.
    fn measure(self, name: &'static str, right: u64, beside: Beside, runs: u32) -> Vec<Figure> {
        let (bits, digest) = (self.length.bits() as u64, self.digest);
        let ours = |assignment: &[u8]| host::check(Empty::Null, LIMIT, bits, &digest, assignment);
        let theirs = || self.matrix.check(&digest, &self.assignment);
        let judged = || check_with(&self.table, self.length, &self.assignment, &digest);
        let answers = [ours(&self.assignment), theirs(), answer(judged())];
        assert_eq!(answers, [right; 3], "{name}");
        let own = layout::assignment(&record(bits));
        let sides = vec![
            side(OURS, || ours(&self.assignment)),
            side("c-sparse", theirs),
            match beside {
                Beside::Judge => side("judge", judged),
                Beside::Right => side("right-claim", || ours(&own)),
            },
        ];
        figures(name, bits, &best(sides, runs))
    }
}

/// The check of a right assignment, beside the stored sparse matrix in C and
/// beside the judge.
pub fn check(bits: u64, runs: u32) -> Vec<Figure> {
    Claim::new(bits).measure("check", 0, Beside::Judge, runs)
}

/// The check of an assignment whose last entry, the lowest bit of the last
/// block's result, is turned over. The digest wires agree with the digest, and
/// all rows hold up to the last one of the last block, which ties that bit to
/// the rounds; 256 digest rows come after it.
pub fn check_refused(bits: u64, runs: u32) -> Vec<Figure> {
    let mut claim = Claim::new(bits);
    let last = claim.wire(0);
    claim.assignment[8 * last] ^= 1;
    let right = claim.fails_at(0);
    claim.measure("check-refused", right, Beside::Right, runs)
}

/// A claim that is right up to one entry of its last block: how many wires come
/// after that entry, and how many rows of the block after the lowest that fails.
pub struct Hostile {
    measure: &'static str,
    wires_after: usize,
    rows_after: usize,
}

/// The last entry; the last carry of the last round, with the 32 wires and 64
/// rows of P0 and the row of the sum after it, and the result; and the last
/// entry of W'63, with all rounds and the result after it.
pub const HOSTILE: [Hostile; 3] = [
    Hostile {
        measure: "check-hostile",
        wires_after: 0,
        rows_after: 0,
    },
    Hostile {
        measure: "check-hostile-carry",
        wires_after: 32 + 256,
        rows_after: 1 + 64 + 256,
    },
    Hostile {
        measure: "check-hostile-words",
        wires_after: 64 * 230 + 256,
        rows_after: 16 * 329 + 48 * 297 + 256,
    },
];

/// The check of a claim of which one entry is p - 1: below the prime, but no
/// bit, and put together with an entry 1 by `or` it is p.
pub fn check_hostile(hostile: &Hostile, bits: u64, runs: u32) -> Vec<Figure> {
    let mut claim = Claim::new(bits);
    let wire = claim.wire(hostile.wires_after);
    put_entry(&mut claim.assignment, wire, P - 1);
    let right = claim.fails_at(hostile.rows_after);
    claim.measure(hostile.measure, right, Beside::Right, runs)
}

/// The check where the last entry is p, so that all are read before one is
/// refused.
pub fn check_not_below(bits: u64, runs: u32) -> Vec<Figure> {
    let mut claim = Claim::new(bits);
    let last = claim.wire(0);
    put_entry(&mut claim.assignment, last, P);
    let right = 20 | (last as u64) << 8;
    claim.measure("check-not-below", right, Beside::Right, runs)
}

/// The check where p is added to every entry, so that the first is refused.
pub fn check_shifted(bits: u64, runs: u32) -> Vec<Figure> {
    let mut claim = Claim::new(bits);
    shift(&mut claim.assignment);
    claim.measure("check-shifted", 20, Beside::Right, runs)
}

/// The check where no entry is p or more, but two beside each other are so
/// together; wire 0 is not 1.
pub fn check_tested(bits: u64, runs: u32) -> Vec<Figure> {
    let mut claim = Claim::new(bits);
    deceive(&mut claim.assignment);
    claim.measure("check-tested", 7, Beside::Right, runs)
}
