//! One call of the library beside the same call of the judge: the answer and
//! every byte of the memory around the lent slices are compared.

use std::fmt::Display;

use host::Empty;
use judge::check::check_with;
use judge::field::P;
use judge::forms::{Row, RowTable};
use judge::length::Length;
use judge::limit::{self, SIXTEEN};
use judge::operations::{self, Counts};
use judge::packing;
use judge::record::Record;
use judge::refusal::Refusal;

use crate::answers::{self, told};
use crate::lent::Lent;
use crate::openssl;
use crate::random::Random;
use crate::tally::{Operation, Tally};

/// The calls of one job with its numbers and its tally.
pub struct Calls {
    pub random: Random,
    pub tally: Tally,
}

type Judge<'a> = dyn Fn(&[u8], &mut [u8]) -> Result<(), Refusal> + 'a;
type Library<'a> = dyn Fn(Empty, &[u8], &mut [u8]) -> u64 + 'a;

/// A call that reads one slice and writes another, of both sides.
pub struct Written<'a> {
    pub operation: Operation,
    pub what: &'a str,
    pub judge: &'a Judge<'a>,
    pub library: &'a Library<'a>,
}

/// A call that reads a slice, for the report of a difference.
fn lent_as(limit: u64, length: u64, read: &[u8], note: &str) -> String {
    let bytes = read.len();
    format!("limit {limit}, {length} bits, {bytes} bytes, {note}")
}

impl Calls {
    pub fn new(seed: u64, stream: u64) -> Calls {
        Calls {
            random: Random::new(seed, stream),
            tally: Tally::default(),
        }
    }

    pub fn empty(&mut self) -> Empty {
        self.random.pick(&[Empty::Null, Empty::Address])
    }

    /// Compares two answers and counts the call.
    pub fn answers(&mut self, operation: Operation, judged: u64, answer: u64, what: impl Display) {
        self.tally.call(operation, (judged & 0xff) as u8);
        if judged != answer {
            let (judged, answer) = (told(judged), told(answer));
            self.tally.difference(format!(
                "{operation:?}, {what}: the judge has {judged}, the library {answer}"
            ));
        }
    }

    /// Compares memory around a lent slice with what it must hold. Returns whether
    /// they are the same.
    pub fn memory(
        &mut self,
        operation: Operation,
        slice: &str,
        must: &Lent,
        holds: &Lent,
        what: impl Display,
    ) -> bool {
        let same = must == holds;
        if !same {
            let at = must.first_difference(holds);
            self.tally.difference(format!(
                "{operation:?}, {what}: the {slice}'s memory differs, first at byte {at:?} of it"
            ));
        }
        same
    }

    /// A call that reads one slice and writes a buffer of that length.
    pub fn written(
        &mut self,
        call: Written<'_>,
        read: &[u8],
        out_len: usize,
    ) -> Result<(), Refusal> {
        let (operation, what) = (
            call.operation,
            format!("{}, buffer of {out_len}", call.what),
        );
        let lent = Lent::holding(read, &mut self.random);
        let (before, empty) = (lent.clone(), self.empty());
        let mut out = Lent::buffer(out_len, &mut self.random);
        let mut must = out.clone();
        let judged = (call.judge)(read, must.slice_mut());
        let answer = (call.library)(empty, lent.slice(), out.slice_mut());
        self.answers(operation, answers::plain(judged), answer, &what);
        self.memory(operation, "read slice", &before, &lent, &what);
        self.memory(operation, "buffer", &must, &out, &what);
        judged
    }

    /// The digest of a record into a buffer of that length. Where there is a
    /// result, OpenSSL must agree with it. Returns the judge's answer.
    pub fn digest(
        &mut self,
        limit: u64,
        length: u64,
        record: &[u8],
        out_len: usize,
        note: &str,
    ) -> Result<(), Refusal> {
        let call = Written {
            operation: Operation::Digest,
            what: &lent_as(limit, length, record, note),
            judge: &|record, out| operations::digest(limit, length, record, out),
            library: &|empty, record, out| host::digest(empty, limit, length, record, out),
        };
        let judged = self.written(call, record, out_len);
        if judged.is_ok() {
            self.openssl(&Record::new(length, record).expect("a digest was given"));
        }
        judged
    }

    fn openssl(&mut self, record: &Record) {
        let (name, agrees) = match record.bits() % 8 {
            0 => ("digests compared with OpenSSL's", openssl::agrees(record)),
            _ => (
                "digests compared with OpenSSL's a block later",
                openssl::agrees_a_block_later(record),
            ),
        };
        self.tally.count(name, 1);
        if !agrees {
            let bits = record.bits();
            self.tally
                .difference(format!("Digest, {bits} bits: OpenSSL and the judge differ"));
        }
    }

    /// The assignment of a record into a buffer of that length. Returns the
    /// judge's answer.
    pub fn produce(
        &mut self,
        limit: u64,
        length: u64,
        record: &[u8],
        out_len: usize,
        note: &str,
    ) -> Result<(), Refusal> {
        let call = Written {
            operation: Operation::Produce,
            what: &lent_as(limit, length, record, note),
            judge: &|record, out| operations::produce(limit, length, record, out),
            library: &|empty, record, out| host::produce(empty, limit, length, record, out),
        };
        self.written(call, record, out_len)
    }

    /// The packed bytes of an assignment into a buffer of that length. Returns
    /// the judge's answer.
    pub fn pack(
        &mut self,
        limit: u64,
        length: u64,
        assignment: &[u8],
        out_len: usize,
        note: &str,
    ) -> Result<(), Refusal> {
        let call = Written {
            operation: Operation::Pack,
            what: &lent_as(limit, length, assignment, note),
            judge: &|assignment, out| packing::pack(limit, length, assignment, out),
            library: &|empty, assignment, out| host::pack(empty, limit, length, assignment, out),
        };
        self.written(call, assignment, out_len)
    }

    /// The entries of packed bytes into a buffer of that length. Returns the
    /// judge's answer.
    pub fn unpack(
        &mut self,
        limit: u64,
        length: u64,
        packed: &[u8],
        out_len: usize,
        note: &str,
    ) -> Result<(), Refusal> {
        let call = Written {
            operation: Operation::Unpack,
            what: &lent_as(limit, length, packed, note),
            judge: &|packed, out| packing::unpack(limit, length, packed, out),
            library: &|empty, packed, out| host::unpack(empty, limit, length, packed, out),
        };
        self.written(call, packed, out_len)
    }

    /// One row into a buffer of that length. The table must be that of the
    /// length where the length is in range. Returns the judge's answer.
    pub fn row(
        &mut self,
        table: &RowTable,
        limit: u64,
        length: u64,
        row: u64,
        out_len: usize,
    ) -> Result<(), Refusal> {
        self.row_by(limit, length, row, out_len, |buffer| {
            operations::row_with(table, limit::length(limit, length)?, row, buffer)
        })
    }

    /// The same under sixteen with the judge's row at hand.
    pub fn row_at_hand(&mut self, at_hand: Row<'_>, length: u64, row: u64, out_len: usize) {
        let _ = self.row_by(SIXTEEN, length, row, out_len, |buffer| {
            operations::row_at_hand(at_hand, buffer)
        });
    }

    fn row_by(
        &mut self,
        limit: u64,
        length: u64,
        row: u64,
        out_len: usize,
        judge: impl Fn(&mut [u8]) -> Result<Counts, Refusal>,
    ) -> Result<(), Refusal> {
        let what = format!("limit {limit}, {length} bits, row {row}, buffer of {out_len}");
        let empty = self.empty();
        let mut out = Lent::buffer(out_len, &mut self.random);
        let mut must = out.clone();
        let judged = judge(must.slice_mut());
        let answer = host::row(empty, limit, length, row, out.slice_mut());
        self.answers(Operation::Row, answers::row(judged), answer, &what);
        self.memory(Operation::Row, "buffer", &must, &out, &what);
        self.coefficients(Operation::Row, judged, out.slice(), &what);
        judged.map(|_| ())
    }

    /// Holds the coefficients of a row that the library wrote to the paper: as
    /// signed numbers none is 0, and none is above (p - 1) / 2 without its sign.
    pub fn coefficients(
        &mut self,
        operation: Operation,
        judged: Result<Counts, Refusal>,
        buffer: &[u8],
        what: impl Display,
    ) {
        let terms = judged.map_or(0, |counts| counts.a + counts.b + counts.c);
        let read = |twelve: &[u8]| i64::from_le_bytes(twelve[4..].try_into().expect("8 bytes"));
        let written: Vec<i64> = buffer.chunks_exact(12).take(terms).map(read).collect();
        let wrong = |c: &&i64| !(1..=(P - 1) / 2).contains(&c.unsigned_abs());
        if let Some(wrong) = written.iter().find(wrong) {
            self.tally
                .difference(format!("{operation:?}, {what}: a coefficient is {wrong}"));
        }
        let negative = written.iter().filter(|c| c.is_negative()).count();
        self.tally.count("coefficients of rows", terms as u64);
        self.tally
            .count("coefficients of rows, negative", negative as u64);
    }

    /// The check. The table must be that of the length where the length is
    /// in range. Returns the judge's answer.
    pub fn check(
        &mut self,
        table: &RowTable,
        limit: u64,
        length: u64,
        digest: &[u8],
        assignment: &[u8],
        note: &str,
    ) -> Result<(), Refusal> {
        let judged = limit::length(limit, length)
            .and_then(|length| check_with(table, length, assignment, digest));
        self.check_known(judged, limit, length, digest, assignment, note);
        judged
    }

    /// The check with an answer that is known.
    pub fn check_known(
        &mut self,
        known: Result<(), Refusal>,
        limit: u64,
        length: u64,
        digest: &[u8],
        assignment: &[u8],
        note: &str,
    ) {
        let what = format!("limit {limit}, {length} bits, {note}");
        let held = Lent::holding(digest, &mut self.random);
        let read = Lent::holding(assignment, &mut self.random);
        let (held_before, read_before) = (held.clone(), read.clone());
        let empty = self.empty();
        let answer = host::check(empty, limit, length, held.slice(), read.slice());
        self.answers(Operation::Check, answers::plain(known), answer, &what);
        self.memory(Operation::Check, "digest", &held_before, &held, &what);
        self.memory(Operation::Check, "assignment", &read_before, &read, &what);
        if let Err(Refusal::Unsatisfied(row)) = known {
            self.tally.failing_row(length, row.0);
        }
    }

    /// The check of an assignment against 32 of its own bytes, under sixteen.
    pub fn check_own_bytes(&mut self, table: &RowTable, length: Length, bytes: &[u8], at: usize) {
        let what = format!(
            "{} bits, the digest is the assignment's bytes from {at} on",
            length.bits()
        );
        let lent = Lent::holding(bytes, &mut self.random);
        let before = lent.clone();
        let (digest, assignment) = (&lent.slice()[at..at + 32], lent.slice());
        let judged = check_with(table, length, assignment, digest);
        let bits = length.bits() as u64;
        let answer = host::check(Empty::Null, SIXTEEN, bits, digest, assignment);
        self.answers(Operation::Check, answers::plain(judged), answer, &what);
        self.memory(Operation::Check, "assignment", &before, &lent, &what);
        self.tally.count("checks with slices that overlap", 1);
    }

    /// States a refusal's number that the judge's own answer must have too:
    /// a slip of the judge in the order of refusals would show here.
    pub fn must_be(&mut self, number: u8, judged: Result<(), Refusal>, what: &str) {
        let judged = judged.map_or_else(Refusal::number, |()| 0);
        self.must_answer(u64::from(number), u64::from(judged), what);
    }

    /// The same for a whole answer.
    pub fn must_answer(&mut self, must: u64, judged: u64, what: impl Display) {
        if judged != must {
            let (judged, must) = (told(judged), told(must));
            self.tally
                .difference(format!("{what}: the judge has {judged}, the paper {must}"));
        }
    }
}

#[cfg(test)]
mod tests {
    use super::*;

    /// The differences that a row of one term with that coefficient shows.
    fn differences(coefficient: i64) -> usize {
        let mut calls = Calls::new(1, 0);
        let buffer = [&[0; 4][..], &coefficient.to_le_bytes()].concat();
        let counts = Counts { a: 1, b: 0, c: 0 };
        calls.coefficients(Operation::Row, Ok(counts), &buffer, "one term");
        calls.tally.differences.len()
    }

    #[test]
    fn coefficients_out_of_range_are_told() {
        let greatest = (P as i64 - 1) / 2;
        for coefficient in [1, -1, greatest, -greatest] {
            assert_eq!(differences(coefficient), 0, "{coefficient}");
        }
        let former = P as i64 - 1;
        for coefficient in [0, greatest + 1, -greatest - 1, former, i64::MIN, i64::MAX] {
            assert_eq!(differences(coefficient), 1, "{coefficient}");
        }
    }
}
