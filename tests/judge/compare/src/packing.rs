//! Pack and unpack, section by section. A section makes calls at one length.

use judge::length::{Length, LONGEST};
use judge::packing;
use judge::refusal::Refusal;

use crate::answers;
use crate::calls::Calls;
use crate::claim::Claim;
use crate::damage::NO_BITS;
use crate::limits::{self, SIXTEEN};
use crate::prime::{self, FROM_PRIME};
use crate::refusals::{choices, first, lengths_out, possible};
use crate::sections::{enough, record, some_limits};

/// The packed bytes of an assignment that has some.
pub fn packed(length: Length, assignment: &[u8]) -> Vec<u8> {
    let mut bytes = vec![0; length.packed_bytes()];
    let bits = length.bits() as u64;
    packing::pack(SIXTEEN, bits, assignment, &mut bytes).expect("entries that are bits");
    bytes
}

/// An assignment packed, and its packed bytes unpacked, under limits that allow it,
/// and now and then under one that does not.
fn there_and_back(calls: &mut Calls, length: Length, wide: &[u8], small: &[u8], note: &str) {
    let (bits, out_len) = (length.bits() as u64, enough(calls, small.len()));
    for (limit, must) in some_limits(calls, length) {
        let judged = calls.pack(limit, bits, wide, out_len, note);
        calls.must_be(must, judged, note);
    }
    let out_len = enough(calls, wide.len());
    for (limit, must) in some_limits(calls, length) {
        let judged = calls.unpack(limit, bits, small, out_len, note);
        calls.must_be(must, judged, note);
    }
}

/// So many records' own assignments, as they are and with multiples of p added,
/// which is 20.
pub fn records(calls: &mut Calls, length: u64, count: usize) {
    let in_range = Length::new(length).expect("a length in range");
    for _ in 0..count {
        let claim = Claim::of(&record(calls, length));
        let small = packed(in_range, &claim.assignment);
        there_and_back(calls, in_range, &claim.assignment, &small, &claim.note);
        prime::shifted(calls, claim, &prime::pack(in_range));
    }
    calls.tally.count("lengths packed and unpacked", 1);
}

/// Random packed bytes, which need not be of any record.
pub fn random_bytes(calls: &mut Calls, length: Length) {
    let mut small = calls.random.bytes(length.packed_bytes());
    small[length.packed_bytes() - 1] &= 0x80;
    let wide = packing::unpacked(length, &small).expect("no spare bit");
    there_and_back(calls, length, &wide, &small, "random packed bytes");
}

/// One entry that is no bit, below p or not, at wires beside the ends and the
/// borders of bytes and words; then several below p, of which the lowest must be
/// returned.
pub fn no_bits(calls: &mut Calls, length: Length, times: usize) {
    let bits = length.bits() as u64;
    let right = Claim::of(&calls.random.record(bits));
    let last = length.wires() - 1;
    let fixed = [0, 1, 7, 8, 31, 32, 33, 63, 64, 512, 513, last - 1, last];
    for wire in fixed {
        for value in NO_BITS {
            with_no_bits(calls, bits, &right, &[(wire, value)]);
        }
        for value in FROM_PRIME {
            prime::refused(calls, &right.with(wire, value), &prime::pack(length));
        }
    }
    for _ in 0..20 * times {
        let some: Vec<(usize, u64)> = (0..calls.random.range(1, 6))
            .map(|_| (calls.random.below(last + 1), calls.random.pick(&NO_BITS)))
            .collect();
        with_no_bits(calls, bits, &right, &some);
    }
}

fn with_no_bits(calls: &mut Calls, length: u64, right: &Claim, entries: &[(usize, u64)]) {
    let mut claim = right.clone();
    for &(wire, value) in entries {
        claim.set(wire, value);
    }
    let note = format!("wires and entries {entries:?}");
    let out_len = enough(calls, claim.wires().div_ceil(8));
    let judged = calls.pack(SIXTEEN, length, &claim.assignment, out_len, &note);
    let lowest = entries.iter().map(|&(wire, _)| wire).min();
    let known = answers::no_bit(lowest.unwrap_or(0));
    calls.must_answer(known, answers::plain(judged), &note);
    calls.tally.count("entries that are no bit, packed", 1);
}

/// Each spare bit set alone, and all of them, after a last wire of 0 and of 1.
pub fn spare_bits(calls: &mut Calls, length: Length) {
    let bits = length.bits() as u64;
    let right = Claim::of(&calls.random.record(bits));
    let mut small = packed(length, &right.assignment);
    for spare in [0x40, 0x20, 0x10, 0x08, 0x04, 0x02, 0x01, 0x7f] {
        for last in [0x00, 0x80] {
            small[length.packed_bytes() - 1] = last | spare;
            let note = format!("last byte {:#04x}", last | spare);
            let exact = length.assignment_bytes();
            let judged = calls.unpack(SIXTEEN, bits, &small, exact, &note);
            calls.must_be(12, judged, &note);
        }
    }
}

/// Sizes below and above the one that a slice or a buffer must have.
fn below(exact: usize) -> [usize; 4] {
    [0, 1, exact - 8, exact - 1]
}

fn above(exact: usize) -> [usize; 3] {
    [exact + 1, exact + 8, 2 * exact]
}

/// All these sizes of the slice that is read with all of the buffer.
pub fn all_sizes(calls: &mut Calls, length: Length) {
    let all = |exact| [&below(exact)[..], &[exact], &above(exact)].concat();
    let (bits, wide) = (length.bits() as u64, all(length.assignment_bytes()));
    let small = all(length.packed_bytes());
    for &(wide, small) in &pairs(&wide, &small) {
        let _ = calls.pack(SIXTEEN, bits, &vec![0; wide], small, "zeros");
        let _ = calls.unpack(SIXTEEN, bits, &vec![0; small], wide, "zeros");
    }
}

fn pairs(one: &[usize], other: &[usize]) -> Vec<(usize, usize)> {
    let with = |&x: &usize| other.iter().map(move |&y| (x, y));
    one.iter().flat_map(with).collect()
}

type Call = fn(&mut Calls, u64, u64, &[u8], usize, &str) -> Result<(), Refusal>;

/// A call of pack or unpack, its buffer by the size.
struct Lending {
    blocks: usize,
    length: u64,
    read: Vec<u8>,
    out_len: usize,
    call: Call,
}

impl Lending {
    /// Makes the call with these faults, those in what is read made already:
    /// `size` is the refusal of a wrong size of it. The first fault in the
    /// order of the refusals must be returned.
    fn with(mut self, calls: &mut Calls, faults: &[u8], size: u8) {
        let random = &mut calls.random;
        let limit = limits::with_faults(faults, self.blocks, random);
        if faults.contains(&2) {
            self.length = random.pick(&lengths_out(self.length));
        }
        if faults.contains(&4) {
            self.out_len = random.pick(&below(self.out_len));
        }
        if faults.contains(&size) {
            let exact = self.read.len();
            let sizes = [&below(exact)[..], &above(exact)].concat();
            self.read.resize(random.pick(&sizes), 0);
        }
        let note = format!("the faults of refusals {faults:?}");
        let judged = (self.call)(calls, limit, self.length, &self.read, self.out_len, &note);
        calls.must_be(first(faults), judged, &note);
        let name = "packs and unpacks with every choice of faults";
        calls.tally.count(name, 1);
    }
}

/// Pack and unpack with every choice of faults, so many times.
pub fn refusals(calls: &mut Calls, length: Length, times: usize) {
    let right = Claim::of(&calls.random.record(length.bits() as u64));
    for faults in choices(&possible(&[21, 2, 22, 4, 6, 20, 10], length), times) {
        let mut claim = right.clone();
        if faults.contains(&10) {
            let wire = calls.random.below(claim.wires());
            claim.set(wire, calls.random.pick(&NO_BITS));
        }
        if faults.contains(&20) {
            prime::put(&mut claim, &mut calls.random);
        }
        let right = Lending {
            blocks: length.blocks(),
            length: length.bits() as u64,
            read: claim.assignment,
            out_len: length.packed_bytes(),
            call: Calls::pack,
        };
        right.with(calls, &faults, 6);
    }
    for faults in choices(&possible(&[21, 2, 22, 4, 11, 12], length), times) {
        let mut small = packed(length, &right.assignment);
        if faults.contains(&12) {
            small[length.packed_bytes() - 1] |= calls.random.range(1, 0x80) as u8;
        }
        let right = Lending {
            blocks: length.blocks(),
            length: length.bits() as u64,
            read: small,
            out_len: length.assignment_bytes(),
            call: Calls::unpack,
        };
        right.with(calls, &faults, 11);
    }
}

/// Both sides of each right size at one length: all sizes exact, and one byte less
/// of the slice that is read and of the buffer.
pub fn edges(calls: &mut Calls, length: Length) {
    let right = Claim::of(&calls.random.record(length.bits() as u64));
    let (bits, small) = (length.bits() as u64, packed(length, &right.assignment));
    let (wide, exact) = (right.assignment, length.assignment_bytes());
    for (less, out_less) in [(0, 0), (0, 1), (1, 0), (1, 1)] {
        let note = format!("{less} bytes less to read, {out_less} to write");
        let (read, out_len) = (&wide[less..], small.len() - out_less);
        let _ = calls.pack(SIXTEEN, bits, read, out_len, &note);
        let (read, out_len) = (&small[..small.len() - less], exact - out_less);
        let _ = calls.unpack(SIXTEEN, bits, read, out_len, &note);
    }
}

/// Refusal 2 under any limit at the thousand lengths above 8,127, at 8,128 with the
/// sizes that 17 blocks would have, and at lengths that would be in range after
/// losing upper bits.
pub fn lengths_above(calls: &mut Calls, length: Length) {
    let (wide, small) = (length.assignment_bytes(), length.packed_bytes());
    for above in (LONGEST + 1..=LONGEST + 1_000).chain(lengths_out(length.bits() as u64)) {
        let limit = limits::any(&mut calls.random);
        length_above(calls, limit, above, wide, small);
    }
    length_above(calls, SIXTEEN, LONGEST + 1, 8 * 383_489, 47_937);
}

fn length_above(calls: &mut Calls, limit: u64, length: u64, wide: usize, small: usize) {
    let judged = calls.pack(limit, length, &vec![0; wide], small, "zeros");
    calls.must_be(2, judged, "a length above 8,127");
    let judged = calls.unpack(limit, length, &vec![0; small], wide, "zeros");
    calls.must_be(2, judged, "a length above 8,127");
}
