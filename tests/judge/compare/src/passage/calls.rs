//! Calls of the passage library beside the same calls of the judge.

use std::fmt::{self, Display};

use host::Empty;
use judge::operations::DIGEST_BYTES;
use judge::passage;
use judge::passage::line::LINE_BYTES;
use judge::refusal::Refusal;

use super::fields::{Fields, BLIND_BYTES, PLATE_BYTES};
use crate::answers;
use crate::calls::Calls;
use crate::lent::Lent;
use crate::limits::TWO;
use crate::random::Random;
use crate::tally::Operation;

/// The bits of a line, and the bytes of its assignment, which has 45,569 wires.
pub const LINE_BITS: u64 = 504;
pub const ASSIGNMENT_BYTES: usize = 364_552;

/// Sizes of the buffers that seal writes: of the digest and of the assignment.
pub type Sizes = [usize; 2];

pub const EXACT: Sizes = [DIGEST_BYTES, ASSIGNMENT_BYTES];
pub const NO_ROOM: Sizes = [0, 0];
const MORE: Sizes = [DIGEST_BYTES + 9, ASSIGNMENT_BYTES + 9];

/// A call for the report of a difference: its line or fields, the sizes of its
/// buffers, and a note.
struct What<'a, T, N> {
    of: T,
    buffers: &'a [usize],
    note: N,
}

impl<T: Display, N: Display> Display for What<'_, T, N> {
    fn fmt(&self, f: &mut fmt::Formatter<'_>) -> fmt::Result {
        write!(f, "{}, {}", self.of, self.note)?;
        match self.buffers {
            [] => Ok(()),
            sizes => write!(f, ", buffers of {sizes:?}"),
        }
    }
}

/// A line as it is shown.
struct Shown<'a>(&'a [u8]);

impl Display for Shown<'_> {
    fn fmt(&self, f: &mut fmt::Formatter<'_>) -> fmt::Result {
        write!(f, "'{}'", self.0.escape_ascii())
    }
}

/// The two buffers of seal.
#[derive(Clone, PartialEq, Eq)]
struct Buffers {
    digest: Lent,
    assignment: Lent,
}

impl Buffers {
    fn new([digest, assignment]: Sizes, random: &mut Random) -> Buffers {
        Buffers {
            digest: Lent::buffer(digest, random),
            assignment: Lent::buffer(assignment, random),
        }
    }

    fn seal(&mut self, empty: Empty, line: &[u8]) -> u64 {
        let (digest, assignment) = (self.digest.slice_mut(), self.assignment.slice_mut());
        host::passage::seal(empty, line, digest, assignment)
    }

    fn judge(&mut self, line: &[u8]) -> Result<(), Refusal> {
        passage::seal(line, self.digest.slice_mut(), self.assignment.slice_mut())
    }
}

/// Buffers with room for a result, lent to one call after another that must
/// write nothing into them.
pub struct Room {
    lent: Buffers,
    before: Buffers,
}

impl Room {
    pub fn new(random: &mut Random) -> Room {
        let lent = Buffers::new(MORE, random);
        let before = lent.clone();
        Room { lent, before }
    }
}

impl Calls {
    /// Reads a line. Returns the judge's answer.
    pub fn passage_read(&mut self, line: &[u8], note: impl Display) -> u64 {
        let operation = Operation::PassageRead;
        let (of, buffers) = (Shown(line), &[]);
        let what = What { of, buffers, note };
        let lent = Lent::holding(line, &mut self.random);
        let (before, empty) = (lent.clone(), self.empty());
        let judged = passage::read(line).map(|passage| passage.numbers);
        let judged = answers::passage(judged);
        let answer = host::passage::read(empty, lent.slice());
        self.answers(operation, judged, answer, &what);
        self.memory(operation, "line", &before, &lent, &what);
        judged
    }

    /// Writes fields into a buffer of that length. Returns the judge's answer
    /// and what the library left in the buffer.
    pub fn passage_write(
        &mut self,
        of: &Fields,
        out_len: usize,
        note: impl Display,
    ) -> (u64, Vec<u8>) {
        let (operation, buffers) = (Operation::PassageWrite, &[out_len]);
        let what = What { of, buffers, note };
        let plate = Lent::holding(&of.plate, &mut self.random);
        let blind = Lent::holding(&of.blind, &mut self.random);
        let (plate_before, blind_before) = (plate.clone(), blind.clone());
        let mut out = Lent::buffer(out_len, &mut self.random);
        let (mut must, empty) = (out.clone(), self.empty());
        let judged = passage::write(of.numbers, &of.plate, &of.blind, must.slice_mut());
        let judged = answers::plain(judged);
        let (numbers, to) = (of.as_lent(), out.slice_mut());
        let answer = host::passage::write(empty, numbers, plate.slice(), blind.slice(), to);
        self.answers(operation, judged, answer, &what);
        self.memory(operation, "plate", &plate_before, &plate, &what);
        self.memory(operation, "blind", &blind_before, &blind, &what);
        self.memory(operation, "buffer", &must, &out, &what);
        (judged, out.slice().to_vec())
    }

    /// Writes a line whose plate and blind stand in one slice, from these bytes
    /// of it on; they may overlap.
    pub fn passage_write_parts(&mut self, of: &Fields, bytes: &[u8], [plate, blind]: [usize; 2]) {
        let (operation, buffers) = (Operation::PassageWrite, &[LINE_BYTES]);
        let note = format!("plate and blind of one slice, from {plate} and {blind} on");
        let what = What { of, buffers, note };
        let lent = Lent::holding(bytes, &mut self.random);
        let mut out = Lent::buffer(LINE_BYTES, &mut self.random);
        let (before, mut must) = (lent.clone(), out.clone());
        let plate = &lent.slice()[plate..plate + PLATE_BYTES];
        let blind = &lent.slice()[blind..blind + BLIND_BYTES];
        let judged = passage::write(of.numbers, plate, blind, must.slice_mut());
        let (numbers, to) = (of.as_lent(), out.slice_mut());
        let answer = host::passage::write(Empty::Null, numbers, plate, blind, to);
        self.answers(operation, answers::plain(judged), answer, &what);
        self.memory(operation, "slice", &before, &lent, &what);
        self.memory(operation, "buffer", &must, &out, &what);
    }

    /// Seals a line into buffers of these lengths. Returns the judge's answer,
    /// and what the library left in the buffers.
    pub fn passage_seal(
        &mut self,
        line: &[u8],
        sizes: Sizes,
        note: impl Display,
    ) -> (u64, [Vec<u8>; 2]) {
        let mut out = Buffers::new(sizes, &mut self.random);
        let mut must = out.clone();
        let judged = answers::plain(must.judge(line));
        self.sealed(line, judged, &mut out, &must, &sizes, note);
        let left = [out.digest, out.assignment].map(|lent| lent.slice().to_vec());
        (judged, left)
    }

    /// Seals a line that is refused: without room, and in a room that must stay
    /// as it is. A line that is right is sealed without room alone. Returns the
    /// judge's answer.
    pub fn seal_nothing(&mut self, line: &[u8], room: &mut Room, note: impl Display) -> u64 {
        let (judged, _) = self.passage_seal(line, NO_ROOM, &note);
        if judged != answers::plain(Err(Refusal::Buffer)) {
            let Room { lent, before } = room;
            self.sealed(line, judged, lent, before, &MORE, note);
            // What was reported once need not be again.
            if lent != before {
                lent.clone_from(before);
            }
        }
        judged
    }

    /// A call of seal with an answer and buffers that are known.
    fn sealed(
        &mut self,
        line: &[u8],
        judged: u64,
        out: &mut Buffers,
        must: &Buffers,
        buffers: &[usize],
        note: impl Display,
    ) {
        let (operation, of) = (Operation::PassageSeal, Shown(line));
        let what = What { of, buffers, note };
        let lent = Lent::holding(line, &mut self.random);
        let (before, empty) = (lent.clone(), self.empty());
        let answer = out.seal(empty, lent.slice());
        self.answers(operation, judged, answer, &what);
        self.memory(operation, "line", &before, &lent, &what);
        self.memory(operation, "digest", &must.digest, &out.digest, &what);
        self.memory(
            operation,
            "assignment",
            &must.assignment,
            &out.assignment,
            &what,
        );
    }

    /// The check of a claim by both libraries, with an answer that is known: the row
    /// library's under two blocks.
    pub fn passage_check(
        &mut self,
        known: Result<(), Refusal>,
        digest: &[u8],
        assignment: &[u8],
        note: &str,
    ) {
        let operation = Operation::PassageCheck;
        let held = Lent::holding(digest, &mut self.random);
        let read = Lent::holding(assignment, &mut self.random);
        let (held_before, read_before) = (held.clone(), read.clone());
        let empty = self.empty();
        let answer = host::passage::check(empty, held.slice(), read.slice());
        self.answers(operation, answers::plain(known), answer, note);
        self.memory(operation, "digest", &held_before, &held, note);
        self.memory(operation, "assignment", &read_before, &read, note);
        self.check_known(known, TWO, LINE_BITS, digest, assignment, note);
    }

    /// The check of an assignment against 32 of its own bytes, with an answer
    /// that is known.
    pub fn passage_check_own_bytes(&mut self, known: Result<(), Refusal>, bytes: &[u8], at: usize) {
        let operation = Operation::PassageCheck;
        let what = format!("the digest is the assignment's bytes from {at} on");
        let lent = Lent::holding(bytes, &mut self.random);
        let before = lent.clone();
        let digest = &lent.slice()[at..at + DIGEST_BYTES];
        let answer = host::passage::check(Empty::Null, digest, lent.slice());
        self.answers(operation, answers::plain(known), answer, &what);
        self.memory(operation, "assignment", &before, &lent, &what);
    }
}
