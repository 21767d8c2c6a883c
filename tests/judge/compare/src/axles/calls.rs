//! Calls of the axle circuit beside the same calls of the judge.

use std::fmt::{self, Display};

use host::axles::Pair;
use host::Empty;
use judge::axles;
use judge::operations::{Counts, DIGEST_BYTES};
use judge::refusal::Refusal;

use super::claims::LINE_BITS;
use crate::answers;
use crate::calls::{Calls, Written};
use crate::claim::Claim;
use crate::lent::Lent;
use crate::random::Random;
use crate::tally::Operation;

/// A call for the report of a difference: its bounds and a note.
pub struct What<N>(pub Pair, pub N);

impl<N: Display> Display for What<N> {
    fn fmt(&self, f: &mut fmt::Formatter<'_>) -> fmt::Result {
        let What([lower, upper], note) = self;
        write!(f, "bounds {lower} and {upper}, {note}")
    }
}

/// A buffer with room for a result, lent to one call after another that must
/// write nothing into it.
pub struct Room {
    lent: Lent,
    before: Lent,
}

impl Room {
    pub fn new(random: &mut Random) -> Room {
        let lent = Lent::buffer(axles::assignment_bytes() + 9, random);
        let before = lent.clone();
        Room { lent, before }
    }
}

/// A digest and an assignment as they are lent, to one check after another.
pub struct Held {
    digest: Lent,
    assignment: Lent,
    before: [Lent; 2],
}

impl Held {
    pub fn new(digest: &[u8], assignment: &[u8], random: &mut Random) -> Held {
        let digest = Lent::holding(digest, random);
        let assignment = Lent::holding(assignment, random);
        let before = [digest.clone(), assignment.clone()];
        Held {
            digest,
            assignment,
            before,
        }
    }
}

impl Calls {
    /// One row into a buffer of that length, with what the judge does.
    pub fn axles_row(
        &mut self,
        pair: Pair,
        row: u64,
        out_len: usize,
        judge: impl Fn(&mut [u8]) -> Result<Counts, Refusal>,
    ) -> u64 {
        let operation = Operation::AxlesRow;
        let what = What(pair, format_args!("row {row}, buffer of {out_len}"));
        let empty = self.empty();
        let mut out = Lent::buffer(out_len, &mut self.random);
        let mut must = out.clone();
        let counts = judge(must.slice_mut());
        let judged = answers::row(counts);
        let answer = host::axles::row(empty, pair, row, out.slice_mut());
        self.answers(operation, judged, answer, &what);
        self.memory(operation, "buffer", &must, &out, &what);
        self.coefficients(operation, counts, out.slice(), &what);
        judged
    }

    /// The assignment of a record into a buffer of that length. Returns the
    /// judge's answer.
    pub fn axles_produce(
        &mut self,
        pair: Pair,
        record: &[u8],
        out_len: usize,
        note: impl Display,
    ) -> Result<(), Refusal> {
        let [lower, upper] = pair;
        let bytes = record.len();
        let call = Written {
            operation: Operation::AxlesProduce,
            what: &What(pair, format_args!("{bytes} bytes, {note}")).to_string(),
            judge: &|record, out| axles::produce(lower, upper, record, out),
            library: &|empty, record, out| host::axles::produce(empty, pair, record, out),
        };
        self.written(call, record, out_len)
    }

    /// A record that is refused: without room, and in a room that must stay as
    /// it is. A record that is right is produced without room alone. Returns the
    /// judge's answer.
    pub fn axles_produce_nothing(
        &mut self,
        pair: Pair,
        record: &[u8],
        room: &mut Room,
        note: impl Display,
    ) -> Result<(), Refusal> {
        let judged = self.axles_produce(pair, record, 0, &note);
        if judged != Err(Refusal::Buffer) {
            let (operation, what) = (Operation::AxlesProduce, What(pair, note));
            let Room { lent, before } = room;
            let answer = host::axles::produce(Empty::Null, pair, record, lent.slice_mut());
            self.answers(operation, answers::plain(judged), answer, &what);
            self.memory(operation, "room", before, lent, &what);
            // What was reported once need not be again.
            if lent != before {
                lent.clone_from(before);
            }
        }
        judged
    }

    /// The check of what is held, with an answer that is known.
    pub fn axles_check_held(
        &mut self,
        known: Result<(), Refusal>,
        pair: Pair,
        held: &Held,
        note: impl Display,
    ) {
        let (operation, what) = (Operation::AxlesCheck, What(pair, note));
        let (digest, assignment) = (held.digest.slice(), held.assignment.slice());
        let empty = self.empty();
        let answer = host::axles::check(empty, pair, digest, assignment);
        self.answers(operation, answers::plain(known), answer, &what);
        let [digest, assignment] = &held.before;
        self.memory(operation, "digest", digest, &held.digest, &what);
        self.memory(operation, "assignment", assignment, &held.assignment, &what);
        if let Err(Refusal::Unsatisfied(row)) = known {
            self.tally.failing_row(LINE_BITS, row.0);
        }
    }

    /// The check of a claim, with an answer that is known.
    pub fn axles_check(&mut self, known: Result<(), Refusal>, pair: Pair, claim: &Claim) {
        let held = Held::new(&claim.digest, &claim.assignment, &mut self.random);
        self.axles_check_held(known, pair, &held, &claim.note);
    }

    /// The check of an assignment against 32 of its own bytes, with an answer
    /// that is known.
    pub fn axles_check_own_bytes(
        &mut self,
        known: Result<(), Refusal>,
        pair: Pair,
        bytes: &[u8],
        at: usize,
    ) {
        let operation = Operation::AxlesCheck;
        let note = format_args!("the digest is the assignment's bytes from {at} on");
        let what = What(pair, note);
        let lent = Lent::holding(bytes, &mut self.random);
        let before = lent.clone();
        let digest = &lent.slice()[at..at + DIGEST_BYTES];
        let answer = host::axles::check(Empty::Null, pair, digest, lent.slice());
        self.answers(operation, answers::plain(known), answer, &what);
        self.memory(operation, "assignment", &before, &lent, &what);
    }
}
