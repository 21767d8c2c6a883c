//! Ways to damage a right claim. Each says in the claim's note what it did.
//! Some leave the claim right now and then (two equal neighbours swapped);
//! the judge tells.

use judge::field::{self, P};
use judge::forms::{RowNumber, Term};

use crate::claim::{Claim, Ground};
use crate::prime;
use crate::random::Random;

type Damage = fn(&Ground, &mut Claim, &mut Random);

/// All ways with the names by which they are counted.
pub const WAYS: [(&str, Damage); 12] = [
    ("damages: one entry", one_entry),
    ("damages: one entry, another root of a row", other_root),
    ("damages: two entries", two_entries),
    ("damages: two entries, a sum kept", sum_kept),
    ("damages: many entries", many_entries),
    ("damages: a run of entries", run_of_entries),
    ("damages: neighbours swapped", neighbours_swapped),
    ("damages: neighbouring words swapped", words_swapped),
    ("damages: a block of another record", other_block),
    ("damages: wire 0 or a digest wire", digest_entry),
    ("damages: the digest", digest_bytes),
    ("damages: entries of p or more", from_prime),
];

/// Wires of a block, and the wire at which block 0 begins.
pub const BLOCK: usize = 22_528;
pub const FIRST: usize = 513;

/// Numbers below p that are neither 0 nor 1. Some would be in their lowest byte
/// or half, or in 60 bits.
pub const NO_BITS: [u64; 9] = [
    2,
    3,
    0x100,
    1 << 32,
    (1 << 32) + 1,
    1 << 60,
    (1 << 60) + 1,
    P - 2,
    P - 1,
];

/// A value below p to put in the place of another.
fn value(old: u64, random: &mut Random) -> u64 {
    match random.below(10) {
        0 | 1 => 1 - old % 2,
        2 | 3 => random.field(),
        4 => 1 << 60,
        5 => P - 1,
        6 => (old + 2) % P,
        7 => random.pick(&NO_BITS),
        _ => 2 + random.below(6) as u64,
    }
}

fn damage_wire(claim: &mut Claim, wire: usize, random: &mut Random) {
    let old = claim.entry(wire);
    let new = value(old, random);
    claim.set(wire, new);
    if claim.note.len() < 200 {
        claim.note += &format!(", wire {wire} from {old} to {new}");
    }
}

fn some_wire(claim: &Claim, random: &mut Random) -> usize {
    random.range(257, claim.wires())
}

fn one_entry(_: &Ground, claim: &mut Claim, random: &mut Random) {
    let wire = some_wire(claim, random);
    damage_wire(claim, wire, random);
}

fn two_entries(_: &Ground, claim: &mut Claim, random: &mut Random) {
    let one = some_wire(claim, random);
    // Now and then close to one another, so that one row has both.
    let other = if random.one_in(2) {
        (one + random.range(1, 64)).min(claim.wires() - 1)
    } else {
        some_wire(claim, random)
    };
    damage_wire(claim, one, random);
    damage_wire(claim, other, random);
}

fn many_entries(_: &Ground, claim: &mut Claim, random: &mut Random) {
    let most = random.pick(&[10, 1_000, 20_000]);
    for _ in 0..random.range(3, most) {
        let wire = some_wire(claim, random);
        damage_wire(claim, wire, random);
    }
}

/// A run of entries takes one value, or random ones, below p.
fn run_of_entries(_: &Ground, claim: &mut Claim, random: &mut Random) {
    let first = some_wire(claim, random);
    let last = (first + random.range(2, 300)).min(claim.wires());
    let same = random.pick(&[None, Some(0), Some(1), Some(P - 1), Some(1 << 60)]);
    for wire in first..last {
        let new = same.unwrap_or_else(|| random.field());
        claim.set(wire, new);
    }
    claim.note += &format!(", wires {first} to {} set to {same:?}", last - 1);
}

fn neighbours_swapped(_: &Ground, claim: &mut Claim, random: &mut Random) {
    // Twenty trials to find two that differ.
    let mut wire = 257;
    for _ in 0..20 {
        wire = random.range(257, claim.wires() - 1);
        if claim.entry(wire) != claim.entry(wire + 1) {
            break;
        }
    }
    swap(claim, wire, wire + 1, 1);
}

fn words_swapped(_: &Ground, claim: &mut Claim, random: &mut Random) {
    let wire = random.range(257, claim.wires() - 64);
    swap(claim, wire, wire + 32, 32);
}

fn swap(claim: &mut Claim, one: usize, other: usize, count: usize) {
    for k in 0..count {
        let (x, y) = (claim.entry(one + k), claim.entry(other + k));
        claim.set(one + k, y);
        claim.set(other + k, x);
    }
    claim.note += &format!(", {count} wires from {one} swapped with those from {other}");
}

/// The wires of one block, or of all from one on, become those of another
/// record of the same length; what a circuit has behind its blocks stays. The
/// other digest is taken over or not.
fn other_block(ground: &Ground, claim: &mut Claim, random: &mut Random) {
    let other = ground.claim(random);
    let block = random.below(ground.length.blocks());
    let first = FIRST + BLOCK * block;
    let last = random.pick(&[first + BLOCK, other.wires()]);
    claim.assignment[8 * first..8 * last].copy_from_slice(&other.assignment[8 * first..8 * last]);
    claim.note += &format!(", wires {first} to {} of another record", last - 1);
    if random.one_in(2) {
        claim.assignment[8..8 * 257].copy_from_slice(&other.assignment[8..8 * 257]);
        claim.digest = other.digest;
        claim.note += " with its digest";
    }
}

fn digest_entry(_: &Ground, claim: &mut Claim, random: &mut Random) {
    let wire = if random.one_in(4) {
        0
    } else {
        random.range(1, 257)
    };
    damage_wire(claim, wire, random);
}

/// A bit of the digest changes, or all bits; the digest wires follow or not.
fn digest_bytes(_: &Ground, claim: &mut Claim, random: &mut Random) {
    if random.one_in(4) {
        claim.digest = std::array::from_fn(|_| random.next() as u8);
    } else {
        claim.digest[random.below(32)] ^= 1 << random.below(8);
    }
    claim.note += ", digest changed";
    if random.one_in(2) {
        claim.set_digest_wires();
        claim.note += " and its wires with it";
    }
}

fn from_prime(_: &Ground, claim: &mut Claim, random: &mut Random) {
    prime::put(claim, random);
}

/// The coefficient of a wire in a sum, modulo p.
fn coefficient(sum: &[Term], wire: usize) -> u64 {
    let mut terms = sum.iter();
    terms
        .find(|term| term.wire.0 as usize == wire)
        .map_or(0, Term::residue)
}

/// A sum's value without what that wire adds.
fn rest(sum: &[Term], claim: &Claim, without: usize) -> u64 {
    let others = sum.iter().filter(|term| term.wire.0 as usize != without);
    others.fold(0, |total, term| {
        let product = field::multiply(term.residue(), claim.entry(term.wire.0 as usize));
        field::add(total, product)
    })
}

fn negative(x: u64) -> u64 {
    (P - x) % P
}

/// 1 / x modulo p, as x to the power p - 2.
fn inverse(x: u64) -> u64 {
    let (mut result, mut power, mut left) = (1, x, P - 2);
    while left > 0 {
        if left % 2 == 1 {
            result = field::multiply(result, power);
        }
        power = field::multiply(power, power);
        left /= 2;
    }
    result
}

/// One wire of a row takes the other value with which this row still holds:
/// in its entry x, the row is (a0 + a1 x)(b0 + b1 x) = c0 + c1 x, and the
/// roots of it add up to -(a0 b1 + a1 b0 - c1) / (a1 b1).
fn other_root(ground: &Ground, claim: &mut Claim, random: &mut Random) {
    for _ in 0..50 {
        let number = RowNumber(random.below(ground.table.count()) as u32);
        let row = ground.table.row(number);
        let wire = row.a[random.below(row.a.len())].wire.0 as usize;
        let [a1, b1, c1] = [row.a, row.b, row.c].map(|sum| coefficient(sum, wire));
        let square = field::multiply(a1, b1);
        if square == 0 {
            continue;
        }
        let [a0, b0] = [row.a, row.b].map(|sum| rest(sum, claim, wire));
        let crossed = field::add(field::multiply(a0, b1), field::multiply(a1, b0));
        let linear = field::add(crossed, negative(c1));
        let both = field::multiply(negative(linear), inverse(square));
        let old = claim.entry(wire);
        let new = field::add(both, negative(old));
        claim.set(wire, new);
        claim.note += &format!(", wire {wire} from {old} to {new}, row {} kept", number.0);
        return;
    }
}

/// Two wires of a row's A change so that A keeps its value.
fn sum_kept(ground: &Ground, claim: &mut Claim, random: &mut Random) {
    for _ in 0..1_000 {
        let number = RowNumber(random.below(ground.table.count()) as u32);
        let a = ground.table.row(number).a;
        // Sum rows, and now and then a shorter one.
        if a.len() < 90 && !(a.len() > 1 && random.one_in(100)) {
            continue;
        }
        let first = random.below(a.len() - 1);
        let (one, other) = (a[first], a[random.range(first + 1, a.len())]);
        if one.wire.0 == 0 {
            continue;
        }
        let any = random.field();
        let by = random.pick(&[1, P - 1, 2, 1 << 60, any]);
        let (one_wire, other_wire) = (one.wire.0 as usize, other.wire.0 as usize);
        let add = |old: u64, times: u64| field::add(old, field::multiply(by, times));
        let one_new = add(claim.entry(one_wire), other.residue());
        let other_new = add(claim.entry(other_wire), negative(one.residue()));
        claim.set(one_wire, one_new);
        claim.set(other_wire, other_new);
        claim.note += &format!(
            ", wires {one_wire} and {other_wire}, A of row {} kept",
            number.0
        );
        return;
    }
}
