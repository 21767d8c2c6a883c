//! Records with two bytes for their axles, their claims with what is appended,
//! and the judge's answer for them.

use host::axles::Pair;
use judge::axles::{self, band::Axles, layout, rows, Bounds};
use judge::check::satisfied;
use judge::entries;
use judge::field::{self, P};
use judge::forms::RowNumber;
use judge::record::Record;
use judge::refusal::Refusal;

use crate::claim::Claim;
use crate::passage::fields::Fields;
use crate::random::Random;

/// The bits of the record.
pub const LINE_BITS: u64 = 504;

/// The first appended wire and the first appended row.
pub const WIRES: usize = 45_569;
pub const ROWS: u32 = 65_152;

/// Where the two bytes of the axles stand.
const TENS: usize = 17;

/// The four numbers that are appended: the place of its first wire and of its
/// first bit row among those appended, and its bits.
pub struct Number {
    pub wire: usize,
    pub row: u32,
    pub bits: usize,
}

pub const NUMBERS: [Number; 4] = [
    Number::at(0, 8, 4),
    Number::at(4, 13, 4),
    Number::at(8, 18, 7),
    Number::at(15, 26, 7),
];

impl Number {
    const fn at(wire: usize, row: u32, bits: usize) -> Number {
        Number { wire, row, bits }
    }

    /// The row of value minus bits.
    pub fn sum_row(&self) -> u32 {
        ROWS + self.row + self.bits as u32
    }

    /// The bit row of that place, counted from the highest.
    pub fn bit_row(&self, place: usize) -> u32 {
        ROWS + self.row + place as u32
    }

    /// A value divided by what that place weighs, modulo p, where 2^61 is 1.
    pub fn over_weight(&self, value: u64, place: usize) -> u64 {
        let weight = self.bits - 1 - place;
        field::multiply(value, (1 << (61 - weight)) % P)
    }
}

/// Two bounds that are right.
pub fn bounds([lower, upper]: Pair) -> Bounds {
    Bounds::new(lower, upper).expect("right bounds")
}

/// Two right bounds at random, now and then equal ones or the widest.
pub fn some_pair(random: &mut Random) -> Pair {
    let [one, other] = [0, 0].map(|_| random.range(2, 100) as u64);
    let any = [one.min(other), one.max(other)];
    random.pick(&[[one, one], [2, 99], any, any, any, any])
}

/// A number from the lower bound to the upper.
pub fn some_axles([lower, upper]: Pair, random: &mut Random) -> u8 {
    random.range(lower as usize, upper as usize + 1) as u8
}

/// The two digits that write a number below 100.
pub fn digits(axles: u8) -> [u8; 2] {
    [b'0' + axles / 10, b'0' + axles % 10]
}

/// A record with these two bytes: a passage in half of the cases, else any bytes.
pub fn record(bytes: [u8; 2], random: &mut Random) -> Vec<u8> {
    let mut record = match random.one_in(2) {
        true => Fields::random(random).line(),
        false => random.bytes(axles::RECORD_BYTES),
    };
    record[TENS..TENS + 2].copy_from_slice(&bytes);
    record
}

/// The claim of a record with 22 more entries, which are 0.
pub fn unfilled(record: &[u8]) -> Claim {
    let mut claim = Claim::of(&Record::whole(record).expect("63 bytes"));
    claim.assignment.resize(axles::assignment_bytes(), 0);
    claim
}

/// Puts the appended entries.
pub fn fill(claim: &mut Claim, entries: &[u64]) {
    for (place, &entry) in entries.iter().enumerate() {
        claim.set(WIRES + place, entry);
    }
}

/// The right appended entries of axles within the bounds.
pub fn right_entries(pair: Pair, axles: u8) -> Vec<u64> {
    let [tens, units] = [axles / 10, axles % 10];
    let wires = layout::appended(bounds(pair), Axles { tens, units });
    wires.map(u64::from).to_vec()
}

/// The four numbers of two digits under these bounds, in whole numbers; a digit
/// is what its byte's low half holds, so that it may be above 9.
pub fn numbers([lower, upper]: Pair, digits: [u8; 2]) -> [i64; 4] {
    let [tens, units] = digits.map(i64::from);
    let axles = 10 * tens + units;
    [
        9 - tens,
        9 - units,
        axles - lower as i64,
        upper as i64 - axles,
    ]
}

/// The bits of the four numbers, each without what is too great for them.
pub fn bits_modulo(numbers: [i64; 4]) -> Vec<u64> {
    let bits = |(value, number): (i64, &Number)| {
        (0..number.bits)
            .rev()
            .map(move |place| (value >> place & 1) as u64)
    };
    numbers.into_iter().zip(&NUMBERS).flat_map(bits).collect()
}

/// The right claim of a record of so many axles, which lie within the bounds.
pub fn right(pair: Pair, axles: u8, random: &mut Random) -> Claim {
    let mut claim = unfilled(&record(digits(axles), random));
    fill(&mut claim, &right_entries(pair, axles));
    claim.note = format!("the claim of {axles} axles");
    claim
}

/// The judge's answer for entries that are right up to the appended ones, and
/// all below p.
pub fn appended_answer(pair: Pair, entries: &[u64]) -> Result<(), Refusal> {
    let table = rows::appended(bounds(pair));
    let mut failing = table.iter().filter(|&(_, row)| !satisfied(row, entries));
    match failing.next() {
        Some((number, _)) => Err(unsatisfied(ROWS + number.0)),
        None => Ok(()),
    }
}

/// The same for a claim, whose appended entries may be p or more.
pub fn claim_answer(pair: Pair, claim: &Claim) -> Result<(), Refusal> {
    let entries = entries::read(&claim.assignment)?;
    appended_answer(pair, &entries)
}

pub fn unsatisfied(row: u32) -> Refusal {
    Refusal::Unsatisfied(RowNumber(row))
}

#[cfg(test)]
mod tests {
    use super::*;

    #[test]
    fn numbers_stand_at_their_wires_and_rows() {
        let sums = NUMBERS.each_ref().map(Number::sum_row);
        assert_eq!(sums, [65_164, 65_169, 65_177, 65_185]);
        let wires = NUMBERS.each_ref().map(|number| WIRES + number.wire);
        assert_eq!(wires, [45_569, 45_573, 45_577, 45_584]);
        assert_eq!(NUMBERS[3].bit_row(6), 65_184);
    }

    #[test]
    fn a_value_over_its_weight_weighs_the_value() {
        for number in &NUMBERS {
            for place in 0..number.bits {
                let weight = 1 << (number.bits - 1 - place);
                let over = number.over_weight(P - 3, place);
                assert_eq!(field::multiply(over, weight), P - 3);
            }
        }
    }

    #[test]
    fn a_filled_claim_is_what_the_producer_writes() {
        let mut random = Random::new(1, 0);
        for (pair, axles) in [([2, 99], 2), ([2, 99], 99), ([30, 30], 30)] {
            let record = record(digits(axles), &mut random);
            let mut claim = unfilled(&record);
            fill(&mut claim, &right_entries(pair, axles));
            let mut written = vec![0; axles::assignment_bytes()];
            axles::produce(pair[0], pair[1], &record, &mut written).unwrap();
            assert!(claim.assignment == written);
            let bits = bits_modulo(numbers(pair, [axles / 10, axles % 10]));
            assert_eq!(bits, right_entries(pair, axles));
        }
    }
}
