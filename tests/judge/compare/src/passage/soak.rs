//! The passage library in the soak: lines with the answers worked out
//! beforehand, right and wrong, read, written, sealed and checked.

use host::Empty;
use judge::check::check_with;
use judge::operations::DIGEST_BYTES;
use judge::passage;
use judge::passage::line::LINE_BYTES;

use super::calls::ASSIGNMENT_BYTES;
use super::fields::Fields;
use super::lines::damaged;
use super::seals::ground;
use crate::answers;
use crate::claim::{Claim, Ground};
use crate::damage::WAYS;
use crate::random::Random;
use crate::soak::{steady, OLD};

const LINES: usize = 200;
const SEALED: usize = 10;

/// A line with what reading it answers.
struct Read {
    line: Vec<u8>,
    answer: u64,
}

/// A claim with what the check answers.
struct Checked {
    claim: Claim,
    answer: u64,
}

/// All calls with their answers, and the buffers that they write.
pub struct Passages {
    fields: Vec<Fields>,
    reads: Vec<Read>,
    /// Lines with their own claims.
    seals: Vec<(Vec<u8>, Claim)>,
    checks: Vec<Checked>,
    line: [u8; LINE_BYTES],
    digest: [u8; DIGEST_BYTES],
    assignment: Vec<u8>,
}

fn read(line: Vec<u8>) -> Read {
    let answer = passage::read(&line).map(|passage| passage.numbers);
    let answer = answers::passage(answer);
    Read { line, answer }
}

fn checked(ground: &Ground, claim: Claim) -> Checked {
    let answer = check_with(
        &ground.table,
        ground.length,
        &claim.assignment,
        &claim.digest,
    );
    let answer = answers::plain(answer);
    Checked { claim, answer }
}

/// A line with its claim.
fn sealed(line: Vec<u8>) -> (Vec<u8>, Claim) {
    let claim = Claim::of(&judge::record::Record::whole(&line).expect("63 bytes"));
    (line, claim)
}

impl Passages {
    pub fn new(random: &mut Random) -> Passages {
        let ground = ground();
        let fields: Vec<Fields> = (0..LINES).map(|_| Fields::random(random)).collect();
        let right: Vec<Vec<u8>> = fields.iter().map(Fields::line).collect();
        let wrong: Vec<Vec<u8>> = right
            .iter()
            .map(|line| damaged(line.clone(), random))
            .collect();
        let seals: Vec<(Vec<u8>, Claim)> = right[..SEALED].iter().cloned().map(sealed).collect();
        let mut claims: Vec<Claim> = seals.iter().map(|(_, claim)| claim.clone()).collect();
        for (_, damage) in WAYS {
            let mut claim = claims[0].clone();
            damage(&ground, &mut claim, random);
            claims.push(claim);
        }
        Passages {
            fields,
            reads: right.into_iter().chain(wrong).map(read).collect(),
            seals,
            checks: claims
                .into_iter()
                .map(|claim| checked(&ground, claim))
                .collect(),
            line: [OLD; LINE_BYTES],
            digest: [OLD; DIGEST_BYTES],
            assignment: vec![OLD; ASSIGNMENT_BYTES],
        }
    }

    fn read(&mut self, random: &mut Random) -> Result<(), String> {
        let of = &self.reads[random.below(self.reads.len())];
        let answer = host::passage::read(Empty::Null, &of.line);
        steady("passage read", of.answer, answer, &[], &[])
    }

    fn write(&mut self, random: &mut Random) -> Result<(), String> {
        let number = random.below(self.fields.len());
        let (of, must) = (&self.fields[number], &self.reads[number].line);
        self.line.fill(OLD);
        let (numbers, out) = (of.as_lent(), &mut self.line);
        let answer = host::passage::write(Empty::Null, numbers, &of.plate, &of.blind, out);
        steady("passage write", 0, answer, must, &self.line)
    }

    fn seal(&mut self, random: &mut Random) -> Result<(), String> {
        let (line, claim) = &self.seals[random.below(self.seals.len())];
        self.digest.fill(OLD);
        self.assignment.fill(OLD);
        let (digest, assignment) = (&mut self.digest, &mut self.assignment);
        let answer = host::passage::seal(Empty::Null, line, digest, assignment);
        steady("passage seal", 0, answer, &claim.digest, &self.digest)?;
        steady(
            "passage seal",
            0,
            answer,
            &claim.assignment,
            &self.assignment,
        )
    }

    fn check(&mut self, random: &mut Random) -> Result<(), String> {
        let of = &self.checks[random.below(self.checks.len())];
        let (digest, assignment) = (&of.claim.digest, &of.claim.assignment);
        let answer = host::passage::check(Empty::Null, digest, assignment);
        steady("passage check", of.answer, answer, &[], &[])
    }

    /// A call that is refused by a size: refusals 15, 4, 5, 6.
    fn refused(&mut self, random: &mut Random) -> Result<(), String> {
        let (line, claim) = &self.seals[random.below(self.seals.len())];
        let (of, none) = (&self.fields[0], Empty::Null);
        self.line.fill(OLD);
        self.digest.fill(OLD);
        let (numbers, short) = (of.as_lent(), &mut self.line[1..]);
        let (must, answer) = match random.below(7) {
            0 => (15, host::passage::read(none, &line[1..])),
            1 => (
                15,
                host::passage::write(none, numbers, &of.blind, &of.plate, short),
            ),
            2 => (
                4,
                host::passage::write(none, numbers, &of.plate, &of.blind, short),
            ),
            3 => (
                15,
                host::passage::seal(none, &line[1..], &mut self.digest, short),
            ),
            4 => (4, host::passage::seal(none, line, &mut self.digest, short)),
            5 => (5, host::passage::check(none, line, &claim.assignment)),
            _ => (6, host::passage::check(none, &claim.digest, line)),
        };
        let name = "a refused passage";
        steady(name, must, answer, &[OLD; LINE_BYTES], &self.line)?;
        steady(name, must, answer, &[OLD; DIGEST_BYTES], &self.digest)
    }

    /// One call, mostly a short one.
    pub fn call(&mut self, random: &mut Random) -> Result<(), String> {
        match random.below(100) {
            0..=44 => self.read(random),
            45..=84 => self.write(random),
            85..=94 => self.refused(random),
            95..=97 => self.seal(random),
            _ => self.check(random),
        }
    }
}
