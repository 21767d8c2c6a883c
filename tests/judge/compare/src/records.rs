//! Refusals of digest and produce, the two calls that take a record: 21, 2, 13, 14,
//! 22 and 4, each with later faults present as well, and sizes on both sides of
//! each right one.

use judge::length::Length;
use judge::operations::DIGEST_BYTES;
use judge::record::spare_bits;

use crate::calls::Calls;
use crate::limits::{self, SIXTEEN};
use crate::random::Random;
use crate::refusals::{choices, first, lengths_out, possible};

/// Sizes of the buffers that digest and produce write.
type Sizes = [usize; 2];

/// The right sizes, and none at all.
pub fn exact(length: Length) -> Sizes {
    [DIGEST_BYTES, length.assignment_bytes()]
}

pub const NO_ROOM: Sizes = [0, 0];

/// Digest and produce of a record, which must both be refused in this way.
pub fn both(
    calls: &mut Calls,
    limit: u64,
    bits: u64,
    record: &[u8],
    sizes: Sizes,
    must: u8,
    note: &str,
) {
    let judged = calls.digest(limit, bits, record, sizes[0], note);
    calls.must_be(must, judged, note);
    let judged = calls.produce(limit, bits, record, sizes[1], note);
    calls.must_be(must, judged, note);
}

/// Refusal 14: each bit after the last record bit set alone, then all of them, under
/// any limit. Whole bytes have none.
pub fn bits_after(calls: &mut Calls, length: Length, sizes: Sizes) {
    let bits = length.bits() as u64;
    let spare = spare_bits(bits);
    let right = calls.random.record(bits);
    let alone = (0..8)
        .map(|place| 1 << place)
        .filter(|bit| spare & bit != 0);
    for set in alone.chain([spare]).filter(|&set| set != 0) {
        let mut record = right.bytes().to_vec();
        record[bits as usize / 8] |= set;
        let note = format!("spare bits {set:#04x} set");
        let limit = limits::any(&mut calls.random);
        both(calls, limit, bits, &record, sizes, 14, &note);
        calls.tally.count("records with spare bits set", 1);
    }
}

/// Refusal 13: a byte too few and one too many, with zeros, and with ones,
/// which set bits after the last record bit too, under any limit.
pub fn a_byte_off(calls: &mut Calls, length: Length, sizes: Sizes) {
    let exact = length.record_bytes();
    let fewer = exact.checked_sub(1);
    for count in fewer.into_iter().chain([exact + 1]) {
        for byte in [0x00, 0xff] {
            let note = format!("bytes {byte:#04x}");
            let record = vec![byte; count];
            let (limit, bits) = (limits::any(&mut calls.random), length.bits() as u64);
            both(calls, limit, bits, &record, sizes, 13, &note);
            calls.tally.count("records a byte off", 1);
        }
    }
}

/// The bytes that so many bits need; where so many cannot be lent, those of the
/// length in range.
fn bytes_needed(bits: u64, length: Length) -> usize {
    if bits < 1_000_000 {
        bits.div_ceil(8) as usize
    } else {
        length.record_bytes()
    }
}

/// Byte counts other than the right one, near and far; one is the bits in
/// range taken for bytes.
fn other_counts(exact: usize, length: Length) -> Vec<usize> {
    let (near, bits) = (exact.saturating_sub(1), length.bits());
    let mut counts = vec![0, 1, near, exact + 1, exact + 64, 2 * exact];
    counts.extend([bits, bits / 8, 1016, 65_536 + exact]);
    counts.retain(|&count| count != exact);
    counts
}

/// A length without the fault of refusal 2 or with it; with that of 14 besides,
/// it has spare bits.
fn some_length(length: Length, faults: &[u8], random: &mut Random) -> u64 {
    let mut lengths = match faults.contains(&2) {
        true => lengths_out(length.bits() as u64),
        false => vec![length.bits() as u64],
    };
    lengths.retain(|bits| !faults.contains(&14) || bits % 8 != 0);
    random.pick(&lengths)
}

/// A record of such a length without the faults of refusals 13 and 14 or with
/// them.
pub fn some_record(bits: u64, length: Length, faults: &[u8], random: &mut Random) -> Vec<u8> {
    let exact = bytes_needed(bits, length);
    let (mut record, spare) = (random.bytes(exact), spare_bits(bits));
    if let Some(last) = record.last_mut() {
        *last &= !spare;
        if faults.contains(&14) {
            *last |= random.pick(&[spare, 0x01, spare & !(spare >> 1)]);
        }
    }
    if faults.contains(&13) {
        let more = if faults.contains(&14) { 0xff } else { 0x00 };
        record.resize(random.pick(&other_counts(exact, length)), more);
    }
    record
}

/// Buffers without the fault of refusal 4 or with it.
fn some_sizes(length: Length, faults: &[u8], random: &mut Random) -> Sizes {
    exact(length).map(|exact| match faults.contains(&4) {
        true => random.pick(&[0, 1, 8, exact - 8, exact - 1]),
        false => exact + random.pick(&[0, 1, 100]),
    })
}

/// Digest and produce with every choice of faults, so many times. The first
/// fault in the order of the refusals must be returned.
pub fn faults(calls: &mut Calls, length: Length, times: usize) {
    let mut all = possible(&[21, 2, 13, 14, 22, 4], length);
    all.retain(|&refusal| refusal != 14 || spare_bits(length.bits() as u64) != 0);
    for faults in choices(&all, times) {
        let random = &mut calls.random;
        let limit = limits::with_faults(&faults, length.blocks(), random);
        let bits = some_length(length, &faults, random);
        let record = some_record(bits, length, &faults, random);
        let (sizes, must) = (some_sizes(length, &faults, random), first(&faults));
        let note = format!("the faults of refusals {faults:?}");
        both(calls, limit, bits, &record, sizes, must, &note);
        let name = "digests and produces with every choice of faults";
        calls.tally.count(name, 2);
    }
}

/// All byte counts of `other_counts`, with buffers that are long enough and
/// with none, under any limit.
pub fn other_byte_counts(calls: &mut Calls, length: Length) {
    for count in other_counts(length.record_bytes(), length) {
        let record = calls.random.bytes(count);
        for sizes in [exact(length), NO_ROOM] {
            let (limit, bits) = (limits::any(&mut calls.random), length.bits() as u64);
            both(calls, limit, bits, &record, sizes, 13, "another size");
        }
    }
}

/// Lengths out of range that can really be lent.
const LENT_OUT: [u64; 7] = [8128, 8129, 8136, 8192, 16_384, 524_288, 524_288 + 443];

/// Buffers of all sizes beside the right ones, at this length and at lengths
/// out of range.
pub fn buffers(calls: &mut Calls, length: Length) {
    let [digest, exact] = exact(length);
    let around = [
        exact - 8,
        exact - 1,
        exact,
        exact + 1,
        exact + 7,
        exact + 800,
    ];
    for bits in [length.bits() as u64].into_iter().chain(LENT_OUT) {
        let record = some_record(bits, length, &[], &mut calls.random);
        for out_len in (0..=digest + 8).chain([4 * digest]) {
            let _ = calls.digest(SIXTEEN, bits, &record, out_len, "any buffer");
        }
        for out_len in [0, 1, 8].into_iter().chain(around) {
            let _ = calls.produce(SIXTEEN, bits, &record, out_len, "any buffer");
        }
    }
}
