//! Changes placed by the kind of the wire and by the block. A check may
//! compute a block's wires again from its bits and the words that it begins
//! with, and judge rows only where an entry reads otherwise: then each kind of
//! wire in each block is a place where it could look away.

use judge::field::P;
use judge::length::Length;

use crate::calls::Calls;
use crate::claim::{Claim, Ground};
use crate::damage::{BLOCK, FIRST, NO_BITS};
use crate::forge::forge;
use crate::prime;
use crate::random::Random;
use crate::sections::check;

/// Wires of one kind: so many runs, with a step from run to run.
struct Kind {
    name: &'static str,
    /// The first wire, counted from the block's first.
    first: usize,
    step: usize,
    runs: usize,
    width: usize,
}

const fn kind(name: &'static str, first: usize, step: usize, runs: usize, width: usize) -> Kind {
    Kind {
        name,
        first,
        step,
        runs,
        width,
    }
}

/// A kind of word in the rounds, or of carries.
const fn round(name: &'static str, first: usize, width: usize) -> Kind {
    kind(name, 7_552 + first, 230, 64, width)
}

/// All wires of a block.
const KINDS: [Kind; 16] = [
    kind("block bits", 0, 32, 16, 32),
    kind("q", 512, 96, 52, 32),
    kind("P1(q)", 544, 96, 52, 32),
    kind("W", 576, 96, 52, 32),
    kind("W'", 5_504, 32, 64, 32),
    round("u", 0, 32),
    round("carries of u", 32, 2),
    round("SS2", 34, 32),
    round("FF", 66, 32),
    round("GG", 98, 32),
    round("TT1", 130, 32),
    round("carries of TT1", 162, 2),
    round("TT2", 164, 32),
    round("carries of TT2", 196, 2),
    round("P0(TT2)", 198, 32),
    kind("result", 22_272, 32, 8, 32),
];

/// A wire with its kind, and two neighbours of the same run: it is one of them.
struct Place {
    kind: &'static str,
    wire: usize,
    higher: usize,
}

impl Kind {
    /// A wire of this kind in that block. First and last runs are drawn
    /// often, and those on both sides of round 16.
    fn place(&self, block: usize, random: &mut Random) -> Place {
        let any = random.below(self.runs);
        let run = random.pick(&[0, 15, 16, self.runs - 1, any]) % self.runs;
        let begin = FIRST + BLOCK * block + self.first + self.step * run;
        let at = random.below(self.width);
        Place {
            kind: self.name,
            wire: begin + at,
            higher: begin + at.min(self.width - 2),
        }
    }
}

fn some_place(block: usize, random: &mut Random) -> Place {
    KINDS[random.below(KINDS.len())].place(block, random)
}

/// Wires of all kinds: wire 0, those at the ends of the digest, of the start words,
/// of the record and of its padding, one inside the first two, and so many wires
/// of every kind of a block, each in any block.
pub fn wires(length: Length, count: usize, random: &mut Random) -> Vec<usize> {
    let (bits, blocks) = (length.bits(), length.blocks());
    let bit = |number: usize| FIRST + BLOCK * (number / 512) + number % 512;
    let mut wires = vec![0, 1, 256, 257, FIRST - 1];
    wires.extend([random.range(2, 256), random.range(258, FIRST - 1)]);
    wires.extend([bit(bits), bit(512 * blocks - 1)]);
    if bits > 0 {
        wires.extend([bit(0), bit(bits - 1)]);
    }
    for kind in KINDS.iter().flat_map(|kind| vec![kind; count]) {
        let block = random.below(blocks);
        wires.push(kind.place(block, random).wire);
    }
    wires
}

type Change = fn(&mut Claim, &Place, &mut Random);

/// All ways to change an entry where it stands to one below p: what is computed
/// from it keeps its entries.
const CHANGES: [Change; 3] = [turned, no_bit, number_kept];

fn put(claim: &mut Claim, kind: &str, wire: usize, new: u64) {
    let old = claim.entry(wire);
    claim.set(wire, new);
    claim.note += &format!(", wire {wire} ({kind}) from {old} to {new}");
}

fn turned(claim: &mut Claim, place: &Place, _: &mut Random) {
    let bit = 1 - claim.entry(place.wire) % 2;
    put(claim, place.kind, place.wire, bit);
}

/// Another number with the same residue, for an entry that is a bit: any
/// multiple of p that 8 bytes hold beside it.
fn same_residue(claim: &mut Claim, place: &Place, random: &mut Random) {
    let number = claim.entry(place.wire) + P * random.range(1, 9) as u64;
    put(claim, place.kind, place.wire, number);
}

fn no_bit(claim: &mut Claim, place: &Place, random: &mut Random) {
    put(claim, place.kind, place.wire, random.pick(&NO_BITS));
}

/// Two neighbours change so that the number that the word's bits write stays
/// what it was, as a residue.
fn number_kept(claim: &mut Claim, place: &Place, _: &mut Random) {
    let [higher, lower] = [0, 1].map(|next| claim.entry(place.higher + next));
    put(claim, place.kind, place.higher, (higher + P - 1) % P);
    put(claim, place.kind, place.higher + 1, (lower + 2) % P);
}

/// Every kind of wire in every block, changed so many times. The ways to
/// change it and the forge take turns; a quarter is shifted after that.
pub fn each_kind(calls: &mut Calls, ground: &Ground, count: usize) {
    let record = calls.random.record(ground.bits());
    let right = Claim::of(&record);
    for block in 0..ground.length.blocks() {
        for (number, kind) in KINDS.iter().enumerate() {
            for turn in block + number..block + number + count {
                let place = kind.place(block, &mut calls.random);
                let mut claim = right.clone();
                match CHANGES.get(turn % (CHANGES.len() + 1)) {
                    Some(change) => change(&mut claim, &place, &mut calls.random),
                    None => claim = forge(&record, &[place.wire]),
                }
                check(calls, ground, &claim);
                calls.tally.count("changes kind by kind, block by block", 1);
                if calls.random.one_in(4) {
                    prime::shifted(calls, claim, &prime::check(ground));
                }
            }
        }
    }
}

/// A multiple of p added to one entry of a right claim, so many times for
/// every kind of wire in every block, and to one entry of each part before
/// the blocks: turned over before that in half of the claims. 20 at that wire.
pub fn single_shifts(calls: &mut Calls, ground: &Ground, count: usize) {
    let right = ground.claim(&mut calls.random);
    check(calls, ground, &right);
    let before = |kind, wire| Place {
        kind,
        wire,
        higher: wire,
    };
    let mut places = vec![before("wire 0", 0)];
    places.push(before("digest", calls.random.range(1, 257)));
    places.push(before("start words", calls.random.range(257, FIRST)));
    for block in 0..ground.length.blocks() {
        for kind in KINDS.iter().flat_map(|kind| vec![kind; count]) {
            places.push(kind.place(block, &mut calls.random));
        }
    }
    for place in places {
        let mut claim = right.clone();
        if calls.random.one_in(2) {
            turned(&mut claim, &place, &mut calls.random);
        }
        same_residue(&mut claim, &place, &mut calls.random);
        prime::refused(calls, &claim, &prime::check(ground));
        calls.tally.count("claims with one entry shifted", 1);
    }
}

/// Two changes, so many times: in two blocks where there are two, and every
/// third time in one. Every other time the later one is a block bit that is no
/// bit. The lower row must be returned.
pub fn two_changes(calls: &mut Calls, ground: &Ground, count: usize) {
    let (right, blocks) = (ground.claim(&mut calls.random), ground.length.blocks());
    for number in 0..count {
        let random = &mut calls.random;
        let one = random.below(blocks.max(2) - 1);
        let other = match number % 3 {
            0 => one,
            _ => random.range(one + 1, blocks.max(2)).min(blocks - 1),
        };
        let mut claim = right.clone();
        let place = some_place(one, random);
        random.pick(&CHANGES)(&mut claim, &place, random);
        if number % 2 == 0 {
            let place = KINDS[0].place(other, random);
            no_bit(&mut claim, &place, random);
        } else {
            let place = some_place(other, random);
            random.pick(&CHANGES)(&mut claim, &place, random);
        }
        check(calls, ground, &claim);
        calls.tally.count("claims with changes in two places", 1);
    }
}

/// Every block computed from other words than it begins with, in one bit. With
/// that bit turned over where it stands, the rows that tie it to what came
/// before fail; with the bit as it was, rows of the block. So many times each.
pub fn other_beginnings(calls: &mut Calls, ground: &Ground, count: usize) {
    let blocks = ground.length.blocks();
    for block in (0..blocks).flat_map(|block| vec![block; count]) {
        let record = calls.random.record(ground.bits());
        // The start words or the result before: 256 wires before the block's.
        let wire = FIRST + BLOCK * block - 1 - calls.random.below(256);
        let mut claim = forge(&record, &[wire]);
        check(calls, ground, &claim);
        let bit = 1 - claim.entry(wire);
        put(&mut claim, "as it was", wire, bit);
        check(calls, ground, &claim);
        calls.tally.count("blocks computed from other words", 1);
    }
}

#[cfg(test)]
mod tests {
    use super::*;

    #[test]
    fn every_wire_of_a_block_is_of_one_kind() {
        let mut seen = vec![0; BLOCK];
        for kind in KINDS {
            for run in 0..kind.runs {
                for wire in 0..kind.width {
                    seen[kind.first + kind.step * run + wire] += 1;
                }
            }
        }
        assert!(seen.iter().all(|&times| times == 1));
    }
}
