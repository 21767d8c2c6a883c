//! "Entries below the prime": refusal 20 at the lowest wire whose entry is p or
//! more, in every check and in packing. Claims with such entries on every kind of
//! wire, several at once, with the faults of later refusals, and shifted by
//! multiples of p: modulo p their entries are what they were.

use judge::field::P;
use judge::length::Length;
use judge::refusal::Refusal;

use crate::answers;
use crate::calls::Calls;
use crate::claim::{Claim, Ground};
use crate::limits::allowing;
use crate::random::Random;
use crate::refusals::spoil;
use crate::sections::enough;

/// Entries of p or more; p + 1 is 2^61. Some would read 0 or 1 modulo p, or in
/// their lower bits.
pub const FROM_PRIME: [u64; 9] = [
    P,
    P + 1,
    P + 2,
    2 * P - 1,
    7 * P + 1,
    8 * P,
    1 << 63,
    (1 << 63) + 1,
    u64::MAX,
];

/// What a claim is handed to: a check or the packer, of a library and of the
/// judge, whose answer is returned.
pub type Ask<'a> = dyn Fn(&mut Calls, &Claim) -> Result<(), Refusal> + 'a;

/// The check of a record's claim, under a limit that allows it.
pub fn check(ground: &Ground) -> impl Fn(&mut Calls, &Claim) -> Result<(), Refusal> + '_ {
    |calls, claim| {
        let Claim {
            digest,
            assignment,
            note,
        } = claim;
        let limit = allowing(ground.length.blocks(), &mut calls.random);
        let bits = ground.bits();
        calls.check(&ground.table, limit, bits, digest, assignment, note)
    }
}

/// And the packer.
pub fn pack(length: Length) -> impl Fn(&mut Calls, &Claim) -> Result<(), Refusal> {
    move |calls, claim| {
        let out_len = enough(calls, length.packed_bytes());
        let limit = allowing(length.blocks(), &mut calls.random);
        let bits = length.bits() as u64;
        calls.pack(limit, bits, &claim.assignment, out_len, &claim.note)
    }
}

/// A claim with entries of p or more, which must be refused at the lowest wire
/// that has one. A claim without one is asked all the same.
pub fn refused(calls: &mut Calls, claim: &Claim, ask: &Ask) {
    let judged = answers::plain(ask(calls, claim));
    if let Some(wire) = claim.lowest_from_prime() {
        calls.must_answer(answers::not_below_prime(wire), judged, &claim.note);
        calls.tally.count("claims with entries of p or more", 1);
    }
}

/// A claim, right or damaged, with multiples of p added to its entries, or to
/// some.
pub fn shifted(calls: &mut Calls, mut claim: Claim, ask: &Ask) {
    let times = calls.random.pick(&[1, 30, 1_000]);
    claim.shift_one_in(times, &mut calls.random);
    refused(calls, &claim, ask);
}

/// The last wire, and any, with an entry of p or more.
pub fn last_and_any(calls: &mut Calls, right: &Claim, ask: &Ask) {
    let last = right.wires() - 1;
    for wire in [last, calls.random.below(last)] {
        let value = calls.random.pick(&FROM_PRIME);
        refused(calls, &right.with(wire, value), ask);
    }
}

/// Puts entries of p or more on one to five wires, or on a run of them.
pub fn put(claim: &mut Claim, random: &mut Random) {
    let first = random.below(claim.wires());
    let run = first..claim.wires().min(first + random.range(2, 300));
    let wires: Vec<usize> = match random.one_in(4) {
        true => run.collect(),
        false => (0..random.range(1, 6))
            .map(|_| random.below(claim.wires()))
            .collect(),
    };
    for wire in wires {
        let [some, any] = [random.pick(&FROM_PRIME), random.next().max(P)];
        claim.set(wire, random.pick(&[some, any]));
    }
    claim.note += ", entries of p or more";
}

/// All of these for a right claim: entries beside the prime on these wires, so
/// many claims with several of p or more, and shifted ones.
pub fn all(calls: &mut Calls, right: &Claim, wires: &[usize], count: usize, ask: &Ask) {
    for &wire in wires {
        beside(calls, right, wire, ask);
    }
    several(calls, right, count, ask);
    shifts(calls, right, ask);
}

/// A wire with entries on both sides of the prime, with the greatest one, and
/// with a multiple of p added to its own. p - 1 is below it, and no bit: another
/// refusal's.
fn beside(calls: &mut Calls, right: &Claim, wire: usize, ask: &Ask) {
    let own = right.entry(wire) + P * calls.random.range(1, 9) as u64;
    for value in [P, P + 1, u64::MAX, own] {
        refused(calls, &right.with(wire, value), ask);
    }
    let below = right.with(wire, P - 1);
    let judged = ask(calls, &below).map_or_else(Refusal::number, |()| 0);
    if ![7, 8, 9, 10].contains(&judged) {
        let text = format!("{}: the judge has refusal {judged}", below.note);
        calls.tally.difference(text);
    }
    calls.tally.count("wires with entries beside the prime", 1);
}

/// Several entries of p or more, with the faults of later refusals in half of
/// the claims each: wire 0, a digest wire, and an entry that a row refuses, which
/// is no bit in most. So many times.
fn several(calls: &mut Calls, right: &Claim, count: usize, ask: &Ask) {
    for number in 0..count {
        let mut claim = right.clone();
        let later = |refusal: u8| (7..=9).contains(&refusal) && number >> (refusal - 7) & 1 == 1;
        spoil(&mut claim, later, &mut calls.random);
        put(&mut claim, &mut calls.random);
        refused(calls, &claim, ask);
    }
}

/// Shifted from wire 0 and from any on by p, 2 p, up to 8 p; every entry by any
/// multiple; then here and there, so that most words have one entry that is
/// shifted, or every other.
fn shifts(calls: &mut Calls, right: &Claim, ask: &Ask) {
    for times in 1..=8 {
        for first in [0, calls.random.below(right.wires())] {
            let mut claim = right.clone();
            claim.shift_from(first, times);
            refused(calls, &claim, ask);
        }
    }
    for times in [1, 2, 24, 1_000] {
        let mut claim = right.clone();
        claim.shift_one_in(times, &mut calls.random);
        refused(calls, &claim, ask);
    }
}

#[cfg(test)]
mod tests {
    use super::*;

    #[test]
    fn numbers_from_the_prime_on() {
        assert_eq!(P + 1, 1 << 61);
        assert!(FROM_PRIME.iter().all(|&entry| entry >= P));
    }

    #[test]
    fn the_lowest_wire_of_what_was_put() {
        let mut random = Random::new(1, 0);
        let right = Ground::new(0).claim(&mut random);
        assert_eq!(right.lowest_from_prime(), None);
        let mut claim = right.clone();
        for (wire, value) in [(23_040, P), (513, u64::MAX), (7, P - 1)] {
            claim.set(wire, value);
        }
        assert_eq!(claim.lowest_from_prime(), Some(513));
        claim.shift_from(30, 1);
        assert_eq!(claim.lowest_from_prime(), Some(30));
    }
}
