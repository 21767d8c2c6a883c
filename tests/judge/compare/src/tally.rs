//! What was compared, and the differences that were found.

use std::collections::{BTreeMap, HashSet};
use std::fmt;

/// How many differences are told in full; the run stops at as many.
pub const TOLD: usize = 20;

#[derive(Clone, Copy, Debug)]
pub enum Operation {
    Digest,
    Row,
    Produce,
    Check,
    Pack,
    Unpack,
    PassageRead,
    PassageWrite,
    PassageSeal,
    PassageCheck,
    AxlesRow,
    AxlesProduce,
    AxlesCheck,
}

/// Operations of a library with their names, and the refusals that it gives, 0
/// for none.
struct Table {
    operations: &'static [(Operation, &'static str)],
    refusals: &'static [usize],
}

const ROWS: Table = Table {
    operations: &[
        (Operation::Digest, "digest"),
        (Operation::Row, "row"),
        (Operation::Produce, "produce"),
        (Operation::Check, "check"),
        (Operation::Pack, "pack"),
        (Operation::Unpack, "unpack"),
    ],
    refusals: &[0, 21, 2, 13, 14, 22, 3, 4, 5, 6, 20, 10, 11, 12, 7, 8, 9],
};

const PASSAGES: Table = Table {
    operations: &[
        (Operation::PassageRead, "read"),
        (Operation::PassageWrite, "write"),
        (Operation::PassageSeal, "seal"),
        (Operation::PassageCheck, "check"),
    ],
    refusals: &[0, 15, 16, 17, 4, 5, 6, 20, 7, 8, 9],
};

const AXLES: Table = Table {
    operations: &[
        (Operation::AxlesRow, "row"),
        (Operation::AxlesProduce, "produce"),
        (Operation::AxlesCheck, "check"),
    ],
    refusals: &[0, 13, 18, 19, 3, 4, 5, 6, 20, 7, 8, 9],
};

/// The bits of the record with appended rows, and the first of these rows.
const AXLES_BITS: u64 = 504;
const APPENDED: u32 = 65_152;

#[derive(Default)]
pub struct Tally {
    /// Calls by operation and by the judge's refusal, 0 for none.
    calls: [[u64; 23]; 13],
    /// Other things counted, by their name.
    counts: BTreeMap<&'static str, u64>,
    /// Rows seen as the failing one: the record's bits and the row number.
    failing: HashSet<(u64, u32)>,
    pub differences: Vec<String>,
}

impl Tally {
    pub fn call(&mut self, operation: Operation, refusal: u8) {
        self.calls[operation as usize][usize::from(refusal)] += 1;
    }

    pub fn count(&mut self, name: &'static str, more: u64) {
        *self.counts.entry(name).or_default() += more;
    }

    pub fn failing_row(&mut self, length: u64, row: u32) {
        self.failing.insert((length, row));
    }

    pub fn difference(&mut self, text: String) {
        if self.differences.len() < TOLD {
            self.differences.push(text);
        }
    }

    pub fn calls(&self) -> u64 {
        self.calls.iter().flatten().sum()
    }

    pub fn add(&mut self, other: Tally) {
        for (into, from) in self.calls.iter_mut().zip(other.calls) {
            for (into, from) in into.iter_mut().zip(from) {
                *into += from;
            }
        }
        for (name, more) in other.counts {
            self.count(name, more);
        }
        self.failing.extend(other.failing);
        self.differences.extend(other.differences);
    }
}

impl Tally {
    fn show(&self, table: &Table, name: &str, f: &mut fmt::Formatter<'_>) -> fmt::Result {
        writeln!(f, "answers of {name} compared, by the refusal (0: none)")?;
        write!(f, "{:8}", "")?;
        for refusal in table.refusals {
            write!(f, "{refusal:>9}")?;
        }
        writeln!(f)?;
        for &(operation, name) in table.operations {
            write!(f, "{name:8}")?;
            for &refusal in table.refusals {
                write!(f, "{:>9}", self.calls[operation as usize][refusal])?;
            }
            writeln!(f)?;
        }
        Ok(())
    }
}

impl fmt::Display for Tally {
    fn fmt(&self, f: &mut fmt::Formatter<'_>) -> fmt::Result {
        self.show(&ROWS, "the row library", f)?;
        self.show(&PASSAGES, "the passage library", f)?;
        self.show(&AXLES, "the axle circuit", f)?;
        for (name, count) in &self.counts {
            writeln!(f, "{count:>10}  {name}")?;
        }
        let all = self.failing.len();
        writeln!(f, "{all:>10}  different failing rows")?;
        let seen = self.failing.iter().filter(|row| row.0 == 447).count();
        writeln!(f, "{seen:>10}  of them at 447 bits, which have 32832 rows")?;
        let appended = |row: &&(u64, u32)| row.0 == AXLES_BITS && row.1 >= APPENDED;
        let seen = self.failing.iter().filter(appended).count();
        write!(f, "{seen:>10}  of them appended for axles, which are 34")
    }
}
