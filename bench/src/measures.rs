//! What is measured. Before a time is taken, all sides must agree.

use std::cell::RefCell;
use std::io::Write;
use std::path::Path;
use std::process::{Command, Stdio};
use std::time::Instant;

use host::openssl::{self, Context};
use host::Empty;
use judge::field::P;
use judge::length::Length;
use judge::record::Record;
use judge::refusal::Refusal;
use judge::{layout, sm3};

use crate::baseline;
use crate::libgcrypt;
use crate::timing::{best, side, Figure, Side};

pub const OURS: &str = "sm3rows";

/// The limit in blocks of every call that takes one: sixteen, which allows
/// every length.
pub const LIMIT: u64 = 16;

/// The measure that `growth` takes.
pub const SAME_MEMORY: &str = "produce-same-memory";

/// A record of so many bits.
pub fn record(bits: u64) -> Record {
    let byte = |k: u64| (k * k + 7 * k + 3) as u8;
    let bytes: Vec<u8> = (0..bits.div_ceil(8)).map(byte).collect();
    Record::front(bits, &bytes).expect("a length in range")
}

/// Our digest of a record, a call that is timed.
pub fn digest_ours(record: &Record, out: &mut [u8; 32]) -> u64 {
    let (bits, bytes) = (record.bits() as u64, record.bytes());
    host::digest(Empty::Null, LIMIT, bits, bytes, out)
}

/// Our assignment of a record, a call that is timed.
pub fn produce_ours(record: &Record, out: &mut [u8]) -> u64 {
    let (bits, bytes) = (record.bits() as u64, record.bytes());
    host::produce(Empty::Null, LIMIT, bits, bytes, out)
}

/// Entries as the bytes of an assignment.
pub fn as_bytes(entries: &[u64]) -> Vec<u8> {
    entries
        .iter()
        .flat_map(|entry| entry.to_le_bytes())
        .collect()
}

/// An answer of the judge as the C libraries give it.
pub fn answer(judged: Result<(), Refusal>) -> u64 {
    let value = match judged {
        Err(Refusal::Unsatisfied(row)) => row.0,
        Err(Refusal::NoBit(wire) | Refusal::NotBelowPrime(wire)) => wire.0,
        _ => 0,
    };
    let number = judged.map_or_else(Refusal::number, |()| 0);
    u64::from(value) << 8 | u64::from(number)
}

pub fn put_entry(assignment: &mut [u8], wire: usize, value: u64) {
    assignment[8 * wire..8 * wire + 8].copy_from_slice(&value.to_le_bytes());
}

/// Adds p to every entry: the same number modulo p, but none is below p.
pub fn shift(assignment: &mut [u8]) {
    for wire in 0..assignment.len() / 8 {
        let bit = u64::from(assignment[8 * wire]);
        put_entry(assignment, wire, bit + P);
    }
}

/// Makes the entries p - 1 and 1 in turn: each is below p, but two beside each
/// other, put together by `or`, are p.
pub fn deceive(assignment: &mut [u8]) {
    for wire in 0..assignment.len() / 8 {
        put_entry(assignment, wire, [P - 1, 1][wire % 2]);
    }
}

pub fn figures(measure: &'static str, bits: u64, times: &[(&'static str, f64)]) -> Vec<Figure> {
    let blocks = Length::new(bits).map_or(0, Length::blocks);
    let figure = |&(side, nanoseconds)| Figure {
        measure,
        bits,
        blocks,
        side,
        nanoseconds,
    };
    times.iter().map(figure).collect()
}

/// A side that makes the digest of a record of so many bits; its first digest
/// is the judge's.
fn digests(
    name: &'static str,
    bits: u64,
    mut digest: impl FnMut(&Record, &mut [u8; 32]) + 'static,
) -> Side<'static> {
    let (record, mut out) = (record(bits), [0; 32]);
    digest(&record, &mut out);
    assert_eq!(out, sm3::hash(&record), "{name} and the judge differ");
    side(name, move || digest(&record, &mut out))
}

pub fn digests_ours(bits: u64) -> Side<'static> {
    digests(OURS, bits, |record, out| {
        assert_eq!(digest_ours(record, out), 0)
    })
}

/// OpenSSL's digest of whole bytes, with a context that is kept.
pub fn digests_by_openssl(bits: u64) -> Side<'static> {
    let mut context = Context::new();
    digests("openssl", bits, move |record, out| {
        context.digest(record.bytes(), out)
    })
}

pub fn digests_by_libgcrypt(bits: u64) -> Side<'static> {
    digests("libgcrypt", bits, |record, out| {
        libgcrypt::digest(record.bytes(), out)
    })
}

/// The digest of a record of whole bytes beside OpenSSL's, with a context kept
/// and by one call, and libgcrypt's.
pub fn digest(bits: u64, runs: u32) -> Vec<Figure> {
    let whole = record(bits);
    let sides = vec![
        digests_ours(bits),
        digests_by_openssl(bits),
        side("openssl-one-call", || openssl::one_call(whole.bytes())),
        digests_by_libgcrypt(bits),
    ];
    figures("digest", bits, &best(sides, runs))
}

/// The two producers at one length, each with a buffer of its own.
fn producers(bits: u64) -> [Side<'static>; 2] {
    let record = record(bits);
    let right = layout::assignment(&record);
    let mut ours = vec![0u8; right.len()];
    let mut theirs = vec![0u64; right.len() / 8];
    assert_eq!(produce_ours(&record, &mut ours), 0);
    baseline::produce(&record, &mut theirs);
    assert!(ours == right, "the producer and the judge differ");
    assert!(
        as_bytes(&theirs) == right,
        "the C loop and the judge differ"
    );
    let same = record.clone();
    [
        side(OURS, move || produce_ours(&record, &mut ours)),
        side("c-loop", move || baseline::produce(&same, &mut theirs)),
    ]
}

/// A measure at these lengths, all of them turn by turn: a slow spell of the
/// machine then bends no line over the blocks.
pub fn turn_by_turn<const SIDES: usize>(
    measure: &'static str,
    sides: impl Fn(u64) -> [Side<'static>; SIDES],
    lengths: &[u64],
    runs: u32,
) -> Vec<Vec<Figure>> {
    let all = lengths.iter().flat_map(|&bits| sides(bits));
    let times = best(all.collect(), runs);
    let each = lengths.iter().zip(times.chunks(SIDES));
    each.map(|(&bits, times)| figures(measure, bits, times))
        .collect()
}

/// The producer beside the plain C loop.
pub fn produce(lengths: &[u64], runs: u32) -> Vec<Vec<Figure>> {
    turn_by_turn("produce", producers, lengths, runs)
}

/// The producer at these lengths in the same memory, turn by turn too: every
/// call writes the part of it after the last call's, and a length's calls go
/// through all of it. So the caches serve each length alike, and what is off a
/// straight line is the code's.
pub fn growth(lengths: &[u64], runs: u32) -> Vec<Figure> {
    let size = |bits| Length::new(bits).map_or(0, Length::assignment_bytes);
    let memory = RefCell::new(vec![0u8; 16 * size(0)]);
    let call = |bits| {
        let (record, size, memory) = (record(bits), size(bits), &memory);
        let mut begin = 0;
        side(OURS, move || {
            let mut memory = memory.borrow_mut();
            if begin + size > memory.len() {
                begin = 0;
            }
            let out = &mut memory[begin..begin + size];
            begin += size;
            assert_eq!(produce_ours(&record, out), 0);
        })
    };
    let sides = lengths.iter().map(|&bits| call(bits)).collect();
    let times = lengths.iter().zip(best(sides, runs));
    let figure = |(&bits, time)| figures(SAME_MEMORY, bits, &[time]);
    times.flat_map(figure).collect()
}

/// The lines of the listing of 8,120 bits: its first, and one a term.
const LISTED_LINES: usize = 3_089_722;

/// All rows of records of 16 blocks by the program `rows`: lines a second.
pub fn lines_a_second(program: &Path) -> std::io::Result<f64> {
    let mut most: f64 = 0.0;
    for _ in 0..3 {
        let begin = Instant::now();
        let mut child = Command::new(program)
            .stdin(Stdio::piped())
            .stdout(Stdio::piped())
            .spawn()?;
        let mut stdin = child.stdin.take().expect("a pipe");
        stdin.write_all(b"8120,0,517632\n")?;
        drop(stdin);
        let printed = child.wait_with_output()?.stdout;
        let lines = printed.iter().filter(|&&byte| byte == b'\n').count();
        assert_eq!(lines, LISTED_LINES, "the listing is not whole");
        most = most.max(lines as f64 / begin.elapsed().as_secs_f64());
    }
    Ok(most)
}
