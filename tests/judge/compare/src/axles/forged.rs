//! Claims whose record is right, with appended entries made to fit: the sum rows
//! hold, and bits are none.

use host::axles::Pair;
use judge::field::{self, P};

use super::claims::{
    bits_modulo, claim_answer, digits, fill, numbers, record, some_pair, unfilled, unsatisfied,
    Number, NUMBERS, WIRES,
};
use crate::answers;
use crate::calls::Calls;
use crate::claim::Claim;

/// The four numbers of so many axles under these bounds.
fn numbers_of(pair: Pair, axles: u8) -> [i64; 4] {
    numbers(pair, [axles / 10, axles % 10])
}

/// A claim of any number of axles, within the bounds or not, whose bits write
/// the numbers modulo 2^4 and 2^7.
struct Forgery {
    pair: Pair,
    axles: u8,
    claim: Claim,
}

impl Forgery {
    fn new(calls: &mut Calls, axles: u8) -> Forgery {
        let pair = some_pair(&mut calls.random);
        let mut claim = unfilled(&record(digits(axles), &mut calls.random));
        fill(&mut claim, &bits_modulo(numbers_of(pair, axles)));
        Forgery { pair, axles, claim }
    }

    /// One number's wires, from its highest bit.
    fn set(&mut self, number: &Number, entries: &[u64]) {
        for (place, &entry) in entries.iter().enumerate() {
            self.claim.set(WIRES + number.wire + place, entry);
        }
    }

    fn check(&mut self, calls: &mut Calls, note: &str) -> u64 {
        self.claim.note = format!("{} axles, {note}", self.axles);
        let judged = claim_answer(self.pair, &self.claim);
        calls.axles_check(judged, self.pair, &self.claim);
        calls
            .tally
            .count("claims with appended entries made to fit", 1);
        answers::plain(judged)
    }
}

/// A number whole in one wire, divided by what the wire weighs: the sum row
/// holds, and the bit row of that wire must refuse it where it is no bit.
fn whole_in_one_wire(calls: &mut Calls, axles: u8, which: usize) {
    let number = &NUMBERS[which];
    for place in 0..number.bits {
        let mut forgery = Forgery::new(calls, axles);
        let values = numbers_of(forgery.pair, axles);
        let entry = number.over_weight(field::from_signed(values[which]), place);
        let mut entries = vec![0; number.bits];
        entries[place] = entry;
        forgery.set(number, &entries);
        let answer = forgery.check(calls, "a number whole in one wire");
        // Numbers before it may be negative, which refuses them first.
        let earlier = values[..which].iter().any(|&value| value < 0);
        if entry > 1 && !earlier {
            let known = Err(unsatisfied(number.bit_row(place)));
            calls.must_answer(answers::plain(known), answer, "a whole number");
        }
    }
}

/// A number in two wires, any residue in one of them and the rest in the other.
fn split_in_two(calls: &mut Calls, axles: u8, which: usize) {
    let number = &NUMBERS[which];
    let mut forgery = Forgery::new(calls, axles);
    let value = field::from_signed(numbers_of(forgery.pair, axles)[which]);
    let one = calls.random.below(number.bits);
    let other = (one + calls.random.range(1, number.bits)) % number.bits;
    let any = calls.random.field();
    let residue = calls.random.pick(&[0, 1, 2, P - 1, 1 << 60, any]);
    let weight = 1u64 << (number.bits - 1 - one);
    let taken = field::multiply(residue, weight);
    let mut entries = vec![0; number.bits];
    entries[one] = residue;
    entries[other] = number.over_weight(field::add(value, P - taken), other);
    forgery.set(number, &entries);
    forgery.check(calls, "a number in two wires");
}

/// Every appended number of so many axles, under bounds that hold them or not.
pub fn made_to_fit(calls: &mut Calls, axles: u8) {
    for which in 0..NUMBERS.len() {
        whole_in_one_wire(calls, axles, which);
        split_in_two(calls, axles, which);
    }
}
