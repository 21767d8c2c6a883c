//! What is compared, section by section. A section makes calls at one length.

use judge::forms::RowNumber;
use judge::length::{Length, LONGEST};
use judge::operations::{DIGEST_BYTES, ROW_BYTES};
use judge::record::Record;
use judge::refusal::Refusal;
use judge::rows;

use crate::calls::Calls;
use crate::claim::{Claim, Ground};
use crate::damage::{NO_BITS, WAYS};
use crate::forge::forge;
use crate::limits::{self, SIXTEEN};
use crate::prime::{self, FROM_PRIME};

/// Rows before block 0 and rows of a block.
pub const START_ROWS: u64 = 256;
pub const BLOCK_ROWS: u64 = 32_320;

/// A record of so many bits: random, and now and then all zeros or all ones.
pub fn record(calls: &mut Calls, bits: u64) -> Record {
    let random = calls.random.record(bits);
    let byte = match calls.random.below(8) {
        0 => 0x00,
        1 => 0xff,
        _ => return random,
    };
    let same = vec![byte; random.bytes().len()];
    Record::front(bits, &same).expect("a length in range")
}

/// Limits for a call, each with the refusal by which it must be refused, 0 for none:
/// one that allows the length, and once in sixteen times another that does not.
pub fn some_limits(calls: &mut Calls, length: Length) -> Vec<(u64, u8)> {
    let (blocks, random) = (length.blocks(), &mut calls.random);
    let mut limits = vec![(limits::allowing(blocks, random), 0)];
    if random.one_in(16) {
        limits.push(limits::refusing(blocks, random));
        calls
            .tally
            .count("calls under a drawn limit that refuses", 1);
    }
    limits
}

/// The exact size or a longer one.
pub fn enough(calls: &mut Calls, bytes: usize) -> usize {
    let more = calls.random.range(1, 100);
    calls.random.pick(&[bytes, bytes + more])
}

/// Digests of random records under limits that allow them, and now and then under
/// one that does not.
pub fn digests(calls: &mut Calls, bits: u64, count: usize) {
    for _ in 0..count {
        let record = record(calls, bits);
        let out_len = enough(calls, DIGEST_BYTES);
        for (limit, must) in some_limits(calls, record.length()) {
            let judged = calls.digest(limit, bits, record.bytes(), out_len, "a record");
            calls.must_be(must, judged, "a record's digest");
        }
    }
    calls.tally.count("lengths with digests", 1);
}

/// Assignments in the same way.
pub fn produced(calls: &mut Calls, bits: u64, count: usize) {
    let exact = Length::new(bits).map_or(0, Length::assignment_bytes);
    for _ in 0..count {
        let record = record(calls, bits);
        let out_len = enough(calls, exact);
        for (limit, must) in some_limits(calls, record.length()) {
            let judged = calls.produce(limit, bits, record.bytes(), out_len, "a record");
            calls.must_be(must, judged, "a record's assignment");
        }
    }
    calls.tally.count("lengths with produced assignments", 1);
}

/// Every row of a length.
pub fn whole_table(calls: &mut Calls, ground: &Ground) {
    for row in 0..ground.length.rows() as u64 {
        let out_len = enough(calls, ROW_BYTES);
        let judged = calls.row(&ground.table, SIXTEEN, ground.bits(), row, out_len);
        calls.must_be(0, judged, "a row of the table");
    }
    calls.tally.count("whole tables of rows", 1);
}

/// The rows of all block bits in the last two blocks, where the padding is.
/// Nothing here needs the whole table.
pub fn block_bit_rows(calls: &mut Calls, bits: u64) {
    let length = Length::new(bits).expect("a length in range");
    for block in length.blocks().saturating_sub(2)..length.blocks() {
        let first = START_ROWS + BLOCK_ROWS * block as u64;
        for (number, row) in rows::block_bit_rows(length, block).iter() {
            let out_len = enough(calls, ROW_BYTES);
            calls.row_at_hand(row, bits, first + u64::from(number.0), out_len);
        }
    }
    calls.tally.count("lengths with all rows of padding", 1);
}

/// So many claims with one block bit changed: a padding bit turned over, a
/// record bit set to 2. The row of that bit refuses them. Nothing here needs
/// the whole table.
pub fn block_bit_claims(calls: &mut Calls, bits: u64, count: usize) {
    let length = Length::new(bits).expect("a length in range");
    let mut claim = Claim::of(&record(calls, bits));
    let (padding, end) = (length.bits(), 512 * length.blocks());
    for _ in 0..count {
        let any = calls.random.below(end);
        let bit = calls.random.pick(&[padding, end - 1, any]);
        let wire = 513 + 22_528 * (bit / 512) + bit % 512;
        let right = claim.entry(wire);
        let value = if bit < padding { 2 } else { 1 - right };
        let row = START_ROWS + BLOCK_ROWS * (bit / 512) as u64 + (bit % 512) as u64;
        let known = Err(Refusal::Unsatisfied(RowNumber(row as u32)));
        claim.set(wire, value);
        let note = format!("wire {wire} set to {value}");
        let (digest, assignment) = (&claim.digest, &claim.assignment);
        calls.check_known(known, SIXTEEN, bits, digest, assignment, &note);
        claim.set(wire, right);
    }
    calls.tally.count("lengths with block bits changed", 1);
}

/// The first and last rows of every part and so many rows at random.
pub fn sampled_rows(calls: &mut Calls, ground: &Ground, count: usize) {
    let (blocks, all) = (ground.length.blocks() as u64, ground.length.rows() as u64);
    let mut numbers = vec![0, START_ROWS - 1, all - 256, all - 1];
    for block in 0..blocks {
        let first = START_ROWS + BLOCK_ROWS * block;
        numbers.extend([first, first + 511, first + 512, first + BLOCK_ROWS - 1]);
    }
    numbers.extend((0..count).map(|_| calls.random.below(all as usize) as u64));
    for row in numbers {
        let out_len = enough(calls, ROW_BYTES);
        for (limit, must) in some_limits(calls, ground.length) {
            let judged = calls.row(&ground.table, limit, ground.bits(), row, out_len);
            calls.must_be(must, judged, "a row");
        }
    }
    calls.tally.count("lengths with sampled rows", 1);
}

/// A claim, right or damaged, under a limit that allows it, and now and then under
/// one that does not.
pub fn check(calls: &mut Calls, ground: &Ground, claim: &Claim) {
    let Claim {
        digest,
        assignment,
        note,
    } = claim;
    for (limit, refusal) in some_limits(calls, ground.length) {
        let bits = ground.bits();
        let judged = calls.check(&ground.table, limit, bits, digest, assignment, note);
        if judged.is_ok() {
            calls.tally.count("claims accepted", 1);
        }
        if refusal != 0 {
            calls.must_be(refusal, judged, note);
        }
    }
}

/// A right claim, as it is, with an entry of p or more on the last wire and on
/// any, also to the packer, and shifted by multiples of p.
pub fn right_claims(calls: &mut Calls, ground: &Ground) {
    let claim = ground.claim(&mut calls.random);
    check(calls, ground, &claim);
    prime::last_and_any(calls, &claim, &prime::check(ground));
    prime::last_and_any(calls, &claim, &prime::pack(ground.length));
    prime::shifted(calls, claim, &prime::check(ground));
    calls
        .tally
        .count("lengths with right claims, as they are and shifted", 1);
}

/// So many damages of a right claim, in one way. A quarter is shifted by
/// multiples of p after that.
fn damages_of(calls: &mut Calls, ground: &Ground, right: &Claim, way: usize, count: usize) {
    let (name, damage) = WAYS[way];
    for _ in 0..count {
        let mut claim = right.clone();
        damage(ground, &mut claim, &mut calls.random);
        check(calls, ground, &claim);
        if calls.random.one_in(4) {
            prime::shifted(calls, claim, &prime::check(ground));
        }
    }
    calls.tally.count(name, count as u64);
}

/// So many damages in every way.
pub fn damages(calls: &mut Calls, ground: &Ground, count: usize) {
    let right = ground.claim(&mut calls.random);
    for way in 0..WAYS.len() {
        damages_of(calls, ground, &right, way, count);
    }
}

/// So many damages in ways drawn at random.
pub fn some_damages(calls: &mut Calls, ground: &Ground, count: usize) {
    let right = ground.claim(&mut calls.random);
    for _ in 0..count {
        let way = calls.random.below(WAYS.len());
        damages_of(calls, ground, &right, way, 1);
    }
}

/// Every `step`-th wire from `first` on, before `end`: turned over on the way
/// by the forge, and set to a number that is no bit in a right claim, and to one
/// of p or more, which is packed too.
pub fn each_wire(calls: &mut Calls, ground: &Ground, first: usize, end: usize, step: usize) {
    let record = calls.random.record(ground.bits());
    let right = Claim::of(&record);
    for wire in (first..end).step_by(step) {
        check(calls, ground, &forge(&record, &[wire]));
        let no_bit = right.with(wire, calls.random.pick(&NO_BITS));
        check(calls, ground, &no_bit);
        let claim = right.with(wire, calls.random.pick(&FROM_PRIME));
        prime::refused(calls, &claim, &prime::check(ground));
        prime::refused(calls, &claim, &prime::pack(ground.length));
        calls.tally.count("wires turned over and set to no bit", 1);
    }
}

/// Several wires turned over on the way: the lowest row must be returned.
pub fn several_wires(calls: &mut Calls, ground: &Ground, count: usize) {
    let wires = ground.length.wires();
    for _ in 0..count {
        let record = calls.random.record(ground.bits());
        let turned: Vec<usize> = (0..calls.random.range(2, 6))
            .map(|_| calls.random.range(1, wires))
            .collect();
        check(calls, ground, &forge(&record, &turned));
        calls.tally.count("claims with 2 to 5 wires turned over", 1);
    }
}

/// Right claims of another length with as many blocks: the padding decides.
pub fn other_lengths(calls: &mut Calls, ground: &Ground) {
    let blocks = ground.length.blocks();
    let same = |&length: &u64| Length::new(length).map(Length::blocks) == Ok(blocks);
    for length in (0..=LONGEST).filter(same) {
        let mut claim = Claim::of(&calls.random.record(length));
        claim.note = format!("the claim of a record of {length} bits");
        check(calls, ground, &claim);
        calls.tally.count("claims of another length", 1);
    }
}
