//! The soak: one thread makes mixed calls for some minutes. The judge worked
//! the answers out beforehand; they must come again and again, and the
//! process must not grow.

use std::fs;
use std::time::{Duration, Instant};

use host::Empty;
use judge::check::check_with;
use judge::length::{Length, LONGEST};
use judge::operations::{self, DIGEST_BYTES, ROW_BYTES};
use judge::packing;
use judge::record::spare_bits;

use crate::answers::{self, told};
use crate::axles::soak::Bands;
use crate::claim::{Claim, Ground};
use crate::damage::WAYS;
use crate::limits::{self, SIXTEEN};
use crate::passage::soak::Passages;
use crate::random::Random;

/// By how many kB the process may vary once all its memory was used once.
const SLACK: u64 = 1024;
const INTERVAL: Duration = Duration::from_secs(10);
const LENGTHS: [u64; 9] = [0, 1, 440, 447, 448, 510, 957, 2403, 8127];
const ROWS_A_LENGTH: usize = 500;
/// What buffers hold before a call.
pub const OLD: u8 = 0xa5;

/// A record with its right claim, and that packed.
struct Record {
    bits: u64,
    bytes: Vec<u8>,
    claim: Claim,
    packed: Vec<u8>,
}

/// A row with the bytes of its terms and its answer.
struct Listed {
    length: u64,
    row: u64,
    bytes: Vec<u8>,
    answer: u64,
}

/// A claim with its answer, and that of packing it with the bytes.
struct Checked {
    length: u64,
    claim: Claim,
    answer: u64,
    pack_answer: u64,
    packed: Vec<u8>,
}

/// All calls with their answers, and the buffers they write.
struct Pool {
    records: Vec<Record>,
    rows: Vec<Listed>,
    checks: Vec<Checked>,
    buffer: Vec<u8>,
    passages: Passages,
    bands: Bands,
}

/// Whether an answer and the bytes of a buffer are what they must be.
pub fn steady(
    name: &str,
    must: u64,
    answer: u64,
    must_hold: &[u8],
    bytes: &[u8],
) -> Result<(), String> {
    if answer != must {
        let (must, answer) = (told(must), told(answer));
        return Err(format!("{name}: {answer} in the place of {must}"));
    }
    if bytes != must_hold {
        return Err(format!("{name}: other bytes than before"));
    }
    Ok(())
}

fn listed(ground: &Ground, row: u64) -> Listed {
    let mut bytes = vec![OLD; ROW_BYTES];
    let answer = operations::row_with(&ground.table, ground.length, row, &mut bytes);
    Listed {
        length: ground.bits(),
        row,
        bytes,
        answer: answers::row(answer),
    }
}

fn checked(ground: &Ground, claim: Claim) -> Checked {
    let judged = check_with(
        &ground.table,
        ground.length,
        &claim.assignment,
        &claim.digest,
    );
    let mut packed = vec![OLD; ground.length.packed_bytes()];
    let pack_judged = packing::pack(SIXTEEN, ground.bits(), &claim.assignment, &mut packed);
    Checked {
        length: ground.bits(),
        claim,
        answer: answers::plain(judged),
        pack_answer: answers::plain(pack_judged),
        packed,
    }
}

/// A limit for a call of that length, which is in range, with the refusal: mostly
/// one that allows it, and 0.
fn some_limit(bits: u64, random: &mut Random) -> (u64, u8) {
    let blocks = Length::new(bits).map_or(0, Length::blocks);
    match random.one_in(16) {
        true => limits::refusing(blocks, random),
        false => (limits::allowing(blocks, random), 0),
    }
}

impl Pool {
    fn new(random: &mut Random) -> Pool {
        let (mut records, mut rows, mut checks) = (Vec::new(), Vec::new(), Vec::new());
        for length in LENGTHS {
            let ground = Ground::new(length);
            for _ in 0..ROWS_A_LENGTH {
                let row = random.below(ground.length.rows() + 1);
                rows.push(listed(&ground, row as u64));
            }
            let record = random.record(length);
            let claim = Claim::of(&record);
            let right = checked(&ground, claim.clone());
            let packed = right.packed.clone();
            checks.push(right);
            for (_, damage) in WAYS {
                let mut damaged = claim.clone();
                damage(&ground, &mut damaged, random);
                checks.push(checked(&ground, damaged));
            }
            records.push(Record {
                bits: length,
                bytes: record.bytes().to_vec(),
                claim,
                packed,
            });
        }
        let longest = records.iter().map(|record| record.claim.assignment.len());
        let buffer = vec![OLD; longest.max().unwrap_or(0)];
        Pool {
            records,
            rows,
            checks,
            buffer,
            passages: Passages::new(random),
            bands: Bands::new(random),
        }
    }

    /// A buffer of that length that holds the old byte.
    fn buffer(&mut self, len: usize) -> &mut [u8] {
        self.buffer[..len].fill(OLD);
        &mut self.buffer[..len]
    }

    /// Whether the answer and the buffer are what they must be.
    fn told(&self, name: &str, must: u64, answer: u64, bytes: &[u8]) -> Result<(), String> {
        steady(name, must, answer, bytes, &self.buffer[..bytes.len()])
    }

    /// The same under a limit by which the call is refused, or 0.
    fn told_under(
        &self,
        refusal: u8,
        name: &str,
        must: u64,
        answer: u64,
        bytes: &[u8],
    ) -> Result<(), String> {
        if refusal == 0 {
            return self.told(name, must, answer, bytes);
        }
        let old = &[OLD; ROW_BYTES][..bytes.len().min(ROW_BYTES)];
        let name = format!("{name} under a limit that refuses it");
        self.told(&name, u64::from(refusal), answer, old)
    }

    fn digest(&mut self, random: &mut Random) -> Result<(), String> {
        let record = random.below(self.records.len());
        self.buffer(DIGEST_BYTES);
        let of = &self.records[record];
        let out = &mut self.buffer[..DIGEST_BYTES];
        let (limit, refusal) = some_limit(of.bits, random);
        let answer = host::digest(Empty::Null, limit, of.bits, &of.bytes, out);
        self.told_under(refusal, "digest", 0, answer, &of.claim.digest)
    }

    fn row(&mut self, random: &mut Random) -> Result<(), String> {
        let number = random.below(self.rows.len());
        self.buffer(ROW_BYTES);
        let listed = &self.rows[number];
        let out = &mut self.buffer[..ROW_BYTES];
        let (limit, refusal) = some_limit(listed.length, random);
        let answer = host::row(Empty::Null, limit, listed.length, listed.row, out);
        self.told_under(refusal, "row", listed.answer, answer, &listed.bytes)
    }

    fn produce(&mut self, random: &mut Random) -> Result<(), String> {
        let record = random.below(self.records.len());
        let len = self.records[record].claim.assignment.len();
        self.buffer(len);
        let of = &self.records[record];
        let out = &mut self.buffer[..len];
        let (limit, refusal) = some_limit(of.bits, random);
        let answer = host::produce(Empty::Null, limit, of.bits, &of.bytes, out);
        self.told_under(refusal, "produce", 0, answer, &of.claim.assignment)
    }

    fn check(&mut self, random: &mut Random) -> Result<(), String> {
        let number = random.below(self.checks.len());
        let Checked {
            length,
            claim: Claim {
                digest, assignment, ..
            },
            answer: must,
            ..
        } = &self.checks[number];
        let (limit, refusal) = some_limit(*length, random);
        let answer = host::check(Empty::Null, limit, *length, digest, assignment);
        self.told_under(refusal, "check", *must, answer, &[])
    }

    fn pack(&mut self, random: &mut Random) -> Result<(), String> {
        let number = random.below(self.checks.len());
        let len = self.checks[number].packed.len();
        self.buffer(len);
        let of = &self.checks[number];
        let out = &mut self.buffer[..len];
        let (limit, refusal) = some_limit(of.length, random);
        let answer = host::pack(Empty::Null, limit, of.length, &of.claim.assignment, out);
        self.told_under(refusal, "pack", of.pack_answer, answer, &of.packed)
    }

    /// Packed bytes as they are, and with a spare bit set.
    fn unpack(&mut self, random: &mut Random) -> Result<(), String> {
        let number = random.below(self.records.len());
        let len = self.records[number].claim.assignment.len();
        self.buffer(len);
        let record = &mut self.records[number];
        let (length, last) = (record.bits, record.packed.len() - 1);
        let out = &mut self.buffer[..len];
        let (limit, refusal) = some_limit(length, random);
        if random.one_in(4) {
            record.packed[last] ^= 1;
            let answer = host::unpack(Empty::Null, limit, length, &record.packed, out);
            record.packed[last] ^= 1;
            return self.told_under(refusal, "unpack", 12, answer, &[OLD; ROW_BYTES]);
        }
        let answer = host::unpack(Empty::Null, limit, length, &record.packed, out);
        let Record { claim, .. } = &self.records[number];
        self.told_under(refusal, "unpack", 0, answer, &claim.assignment)
    }

    /// A record with a spare bit set, to digest or to produce: 14 under every limit
    /// from 1 to 16, also where 22 would follow.
    fn spare_bit(&mut self, random: &mut Random) -> Result<(), String> {
        self.buffer(ROW_BYTES);
        let with_spare: Vec<&Record> = self.records.iter().filter(|of| of.bits % 8 != 0).collect();
        let of = with_spare[random.below(with_spare.len())];
        let mut bytes = of.bytes.clone();
        bytes[of.bits as usize / 8] |= spare_bits(of.bits);
        let call = random.pick(&[host::digest, host::produce]);
        let limit = random.range(1, 17) as u64;
        let answer = call(Empty::Null, limit, of.bits, &bytes, &mut self.buffer);
        self.told("a record with spare bits", 14, answer, &[OLD; ROW_BYTES])
    }

    /// A call that is refused by the sizes alone, refusals 2 to 6, 11 and 13.
    fn refused(&mut self, random: &mut Random) -> Result<(), String> {
        let record = random.below(self.records.len());
        self.buffer(ROW_BYTES);
        let Record {
            bits,
            bytes,
            claim,
            packed,
        } = &self.records[record];
        let (length, none) = (*bits, Empty::Null);
        if random.one_in(9) {
            let answer = host::unpack(none, SIXTEEN, length, bytes, &mut self.buffer);
            return self.told("a refused unpack", 11, answer, &[OLD; ROW_BYTES]);
        }
        let short = &mut self.buffer[..DIGEST_BYTES - 1];
        // Under any limit from 1 to 16 the length out of range is 2 and the wrong size
        // of a record 13; what comes after 22 is asked under one that allows it.
        let any = random.range(1, 17) as u64;
        let blocks = Length::new(length).map_or(0, Length::blocks);
        let limit = limits::allowing(blocks, random);
        let (must, answer) = match random.below(10) {
            0 => (4, host::digest(none, limit, length, bytes, short)),
            1 => (2, host::produce(none, any, LONGEST + 1, bytes, short)),
            2 => (4, host::row(none, limit, length, 0, short)),
            3 => (3, host::row(none, limit, length, u64::MAX, short)),
            4 => (4, host::pack(none, limit, length, &claim.assignment, short)),
            5 => (4, host::unpack(none, limit, length, packed, short)),
            6 => (5, host::check(none, limit, length, &[], &claim.assignment)),
            7 => (13, host::digest(none, any, length, packed, short)),
            8 => (13, host::produce(none, any, length, packed, short)),
            _ => (6, host::check(none, limit, length, &claim.digest, bytes)),
        };
        self.told("a refused call", must, answer, &[OLD; ROW_BYTES])
    }

    /// One call, mostly a short one.
    fn call(&mut self, random: &mut Random) -> Result<(), String> {
        match random.below(100) {
            0..=29 => self.row(random),
            30..=34 => self.bands.call(random),
            35..=54 => self.passages.call(random),
            55..=89 => self.digest(random),
            90..=93 => self.refused(random),
            94 => self.spare_bit(random),
            95 | 96 => self.produce(random),
            97 => self.pack(random),
            98 => self.unpack(random),
            _ => self.check(random),
        }
    }
}

/// The memory that the process holds, in kB (VmRSS).
fn resident() -> u64 {
    let status = fs::read_to_string("/proc/self/status").unwrap_or_default();
    let line = status.lines().find(|line| line.starts_with("VmRSS:"));
    let number = line.and_then(|line| line.split_whitespace().nth(1));
    number.and_then(|kb| kb.parse().ok()).unwrap_or(0)
}

/// Calls until the interval ends; adds how many there were.
fn call_until(
    end: Instant,
    pool: &mut Pool,
    random: &mut Random,
    calls: &mut u64,
) -> Result<(), String> {
    while Instant::now() < end {
        pool.call(random)?;
        *calls += 1;
    }
    Ok(())
}

/// True when answers and memory stayed as they were.
pub fn soak(seed: u64, time: Duration) -> bool {
    let mut random = Random::new(seed, 0);
    let mut pool = Pool::new(&mut random);
    let (begin, mut calls, mut settled) = (Instant::now(), 0, None);
    println!("soak, seed {seed}, {} s", time.as_secs());
    while begin.elapsed() < time {
        let end = (Instant::now() + INTERVAL).min(begin + time);
        if let Err(difference) = call_until(end, &mut pool, &mut random, &mut calls) {
            println!("difference after {calls} calls: {difference}");
            return false;
        }
        host::give_back_free_memory();
        let now = resident();
        println!(
            "{:>6} s {calls:>12} calls {now:>9} kB",
            begin.elapsed().as_secs()
        );
        // The first interval uses all memory once.
        let first = *settled.get_or_insert(now);
        if now > first + SLACK {
            println!("the process grew from {first} kB to {now} kB");
            return false;
        }
    }
    println!("{calls} calls, answers and memory steady");
    true
}
