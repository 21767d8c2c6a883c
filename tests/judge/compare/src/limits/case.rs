//! A call with all that it lends, made under one limit after another: beside the
//! judge, beside what the paper says of limit and length, and beside the library's
//! own call under sixteen.

use std::fmt::Display;

use host::Empty;
use judge::check::check_with;
use judge::length::LONGEST;
use judge::limit;
use judge::operations::{self, row_with};
use judge::packing;

use super::{longest, outside, SIXTEEN};
use crate::answers;
use crate::calls::Calls;
use crate::claim::Ground;
use crate::lent::Lent;
use crate::random::Random;
use crate::refusals::first;
use crate::tally::Operation;

/// The length of some calls, in range or not, with the rows of it, or of the
/// longest that is in range.
pub struct Stage {
    pub bits: u64,
    pub ground: Ground,
}

impl Stage {
    pub fn new(bits: u64) -> Stage {
        Stage {
            bits,
            ground: Ground::new(bits.min(LONGEST)),
        }
    }
}

/// A lent slice beside what it held before any call.
struct Kept {
    lent: Lent,
    before: Lent,
}

impl Kept {
    fn new(lent: Lent) -> Kept {
        let before = lent.clone();
        Kept { lent, before }
    }
}

/// What the library answered, and what it left in the memory of the buffer.
struct Outcome {
    answer: u64,
    left: Lent,
}

pub struct Case {
    operation: Operation,
    row: u64,
    digest: Kept,
    read: Kept,
    out: Kept,
    /// What the judge leaves in the buffer.
    must: Lent,
    /// The refusals whose faults are in what is lent, in their order; `None` where
    /// only the judge can tell.
    faults: Option<Vec<u8>>,
    note: String,
}

impl Case {
    /// A call that reads these bytes and writes a buffer of that length.
    pub fn new(operation: Operation, read: &[u8], out_len: usize, random: &mut Random) -> Case {
        let out = Lent::buffer(out_len, random);
        Case {
            operation,
            row: 0,
            digest: Kept::new(Lent::buffer(0, random)),
            read: Kept::new(Lent::holding(read, random)),
            must: out.clone(),
            out: Kept::new(out),
            faults: None,
            note: format!("{} bytes, buffer of {out_len}", read.len()),
        }
    }

    /// A row into a buffer of that length.
    pub fn row(row: u64, out_len: usize, random: &mut Random) -> Case {
        let mut case = Case::new(Operation::Row, &[], out_len, random);
        case.row = row;
        case.note = format!("row {row}, buffer of {out_len}");
        case
    }

    /// A check.
    pub fn check(digest: &[u8], assignment: &[u8], random: &mut Random) -> Case {
        let mut case = Case::new(Operation::Check, assignment, 0, random);
        case.digest = Kept::new(Lent::holding(digest, random));
        case.note = format!("{} and {} bytes", digest.len(), assignment.len());
        case
    }

    /// States the faults that what is lent has, in the order of their refusals.
    pub fn with(mut self, faults: &[u8]) -> Case {
        self.note += &format!(", the faults of refusals {faults:?}");
        self.faults = Some(faults.to_vec());
        self
    }

    /// Says what was done to what is lent.
    pub fn noted(mut self, note: impl Display) -> Case {
        self.note += &format!(", {note}");
        self
    }

    /// The refusal by the paper: 21, 2, the first of 13 and 14 if there is one, 22,
    /// and then the first other one; 0 for none.
    fn by_the_paper(&self, limit: u64, bits: u64) -> Option<u8> {
        let faults = self.faults.as_deref().unwrap_or_default();
        let of_record = |refusal: &&u8| [13, 14].contains(*refusal);
        match faults.iter().find(of_record) {
            _ if outside(limit) => Some(21),
            _ if bits > 8127 => Some(2),
            Some(&refusal) => Some(refusal),
            None if bits > longest(limit) => Some(22),
            None => self.faults.as_deref().map(first),
        }
    }

    /// Whether the call under this limit takes long: it reads or writes a whole
    /// assignment.
    pub fn takes_long(&self, limit: u64, bits: u64) -> bool {
        let short = matches!(self.operation, Operation::Digest | Operation::Row);
        !short && matches!(self.by_the_paper(limit, bits), None | Some(0 | 9))
    }

    fn library(&mut self, empty: Empty, limit: u64, bits: u64) -> u64 {
        let (read, out) = (self.read.lent.slice(), self.out.lent.slice_mut());
        match self.operation {
            Operation::Digest => host::digest(empty, limit, bits, read, out),
            Operation::Row => host::row(empty, limit, bits, self.row, out),
            Operation::Produce => host::produce(empty, limit, bits, read, out),
            Operation::Check => host::check(empty, limit, bits, self.digest.lent.slice(), read),
            Operation::Pack => host::pack(empty, limit, bits, read, out),
            Operation::Unpack => host::unpack(empty, limit, bits, read, out),
            other => unreachable!("{other:?} takes no limit"),
        }
    }

    fn judge(&mut self, limit: u64, stage: &Stage) -> u64 {
        let (bits, table) = (stage.bits, &stage.ground.table);
        let (read, out) = (self.read.before.slice(), self.must.slice_mut());
        let length = limit::length(limit, bits);
        let judged = match self.operation {
            Operation::Digest => operations::digest(limit, bits, read, out),
            Operation::Row => {
                let counts = length.and_then(|length| row_with(table, length, self.row, out));
                return answers::row(counts);
            }
            Operation::Produce => operations::produce(limit, bits, read, out),
            Operation::Check => length
                .and_then(|length| check_with(table, length, read, self.digest.before.slice())),
            Operation::Pack => packing::pack(limit, bits, read, out),
            Operation::Unpack => packing::unpack(limit, bits, read, out),
            other => unreachable!("{other:?} takes no limit"),
        };
        answers::plain(judged)
    }

    /// The call under each of these limits, after which all that was only read must
    /// be what it was.
    pub fn under(&mut self, calls: &mut Calls, stage: &Stage, limits: &[u64]) {
        let (operation, empty) = (self.operation, calls.empty());
        let sixteen = Outcome {
            answer: self.library(empty, SIXTEEN, stage.bits),
            left: self.out.lent.clone(),
        };
        self.restore();
        for &limit in limits {
            self.compare(calls, stage, limit, &sixteen);
        }
        let what = format!("any limit, {} bits, {}", stage.bits, self.note);
        for (slice, kept) in [("digest", &self.digest), ("read slice", &self.read)] {
            calls.memory(operation, slice, &kept.before, &kept.lent, &what);
        }
    }

    fn compare(&mut self, calls: &mut Calls, stage: &Stage, limit: u64, sixteen: &Outcome) {
        let (operation, empty) = (self.operation, calls.empty());
        let what = format!("limit {limit}, {} bits, {}", stage.bits, self.note);
        let judged = self.judge(limit, stage);
        let answer = self.library(empty, limit, stage.bits);
        calls.answers(operation, judged, answer, &what);
        if let Some(must) = self.by_the_paper(limit, stage.bits) {
            calls.must_answer(u64::from(must), judged & 0xff, &what);
        }
        let same = calls.memory(operation, "buffer", &self.must, &self.out.lent, &what);
        if ![21, 22].contains(&answer) {
            self.beside_sixteen(calls, answer, sixteen, &what);
        }
        // Where the judge refuses and the memory is the same, nothing was written.
        if judged & 0xff == 0 || !same {
            self.restore();
        }
        calls.tally.count("calls under limits, one by one", 1);
    }

    /// "Whoever asks with two blocks gets, but for 22, the answer sixteen would
    /// give", and so under every limit: the library's answer and bytes beside its
    /// own.
    fn beside_sixteen(&self, calls: &mut Calls, answer: u64, sixteen: &Outcome, what: &str) {
        if (answer, &self.out.lent) != (sixteen.answer, &sixteen.left) {
            let (operation, told) = (self.operation, answers::told(sixteen.answer));
            calls.tally.difference(format!(
                "{operation:?}, {what}: the library has {told} under sixteen, or other bytes"
            ));
        }
        let name = "calls under limits answered as under sixteen";
        calls.tally.count(name, 1);
    }

    /// Buffers hold again what they held before the call.
    fn restore(&mut self) {
        self.out.lent.clone_from(&self.out.before);
        self.must.clone_from(&self.out.before);
    }
}

#[cfg(test)]
mod tests {
    use super::*;

    /// The refusal by the paper of a call with these faults.
    fn refusal(faults: &[u8], limit: u64, bits: u64) -> Option<u8> {
        let case = Case::new(Operation::Produce, &[], 0, &mut Random::new(1, 0));
        case.with(faults).by_the_paper(limit, bits)
    }

    #[test]
    fn refusals_by_the_paper() {
        let all = [13, 14, 4];
        assert_eq!(refusal(&all, 0, 8128), Some(21));
        assert_eq!(refusal(&all, 17, 448), Some(21));
        assert_eq!(refusal(&all, 1, 8128), Some(2));
        assert_eq!(refusal(&all, 16, u64::MAX), Some(2));
        assert_eq!(refusal(&all, 1, 448), Some(13));
        assert_eq!(refusal(&all[1..], 1, 448), Some(14));
        assert_eq!(refusal(&all[2..], 1, 448), Some(22));
        assert_eq!(refusal(&all[2..], 1, 447), Some(4));
        assert_eq!(refusal(&all[2..], 2, 959), Some(4));
        assert_eq!(refusal(&[], 2, 960), Some(22));
        assert_eq!(refusal(&[], 2, 959), Some(0));
        assert_eq!(refusal(&[], 15, 7616), Some(22));
        assert_eq!(refusal(&[], 16, 8127), Some(0));
    }

    #[test]
    fn without_faults_stated_only_limit_and_length_tell() {
        let case = Case::check(&[], &[], &mut Random::new(1, 0));
        assert_eq!(case.by_the_paper(2, 959), None);
        assert_eq!(case.by_the_paper(2, 960), Some(22));
        assert_eq!(case.by_the_paper(0, 0), Some(21));
        assert!(case.takes_long(2, 959) && !case.takes_long(2, 960));
    }
}
