//! A claim: an assignment with the digest that it is held against.

use judge::bits::bit;
use judge::field::P;
use judge::forms::RowTable;
use judge::length::Length;
use judge::record::Record;
use judge::{layout, rows, sm3};

use crate::random::Random;

/// The rows of a length, with the length.
pub struct Ground {
    pub length: Length,
    pub table: RowTable,
}

impl Ground {
    pub fn new(bits: u64) -> Ground {
        let length = Length::new(bits).expect("a length in range");
        let table = rows::rows(length);
        Ground { length, table }
    }

    pub fn bits(&self) -> u64 {
        self.length.bits() as u64
    }

    /// A right claim of a random record of this length.
    pub fn claim(&self, random: &mut Random) -> Claim {
        Claim::of(&random.record(self.bits()))
    }
}

#[derive(Clone)]
pub struct Claim {
    pub digest: [u8; 32],
    pub assignment: Vec<u8>,
    /// What was done to it, for the report of a difference.
    pub note: String,
}

impl Claim {
    pub fn of(record: &Record) -> Claim {
        Claim {
            digest: sm3::hash(record),
            assignment: layout::assignment(record),
            note: String::from("a record's own"),
        }
    }

    pub fn wires(&self) -> usize {
        self.assignment.len() / 8
    }

    pub fn entry(&self, wire: usize) -> u64 {
        let eight = &self.assignment[8 * wire..8 * wire + 8];
        u64::from_le_bytes(eight.try_into().expect("eight bytes"))
    }

    pub fn set(&mut self, wire: usize, value: u64) {
        self.assignment[8 * wire..8 * wire + 8].copy_from_slice(&value.to_le_bytes());
    }

    /// The same claim with one entry set to a value.
    pub fn with(&self, wire: usize, value: u64) -> Claim {
        let mut claim = self.clone();
        claim.set(wire, value);
        claim.note += &format!(", wire {wire} set to {value}");
        claim
    }

    /// The digest wires take the digest's bits.
    pub fn set_digest_wires(&mut self) {
        for number in 0..256 {
            self.set(1 + number, bit(&self.digest, number));
        }
    }

    /// The lowest wire whose entry is p or more, if there is one.
    pub fn lowest_from_prime(&self) -> Option<usize> {
        (0..self.wires()).find(|&wire| self.entry(wire) >= P)
    }

    /// Adds a random multiple of p to one entry in so many, up to what 8 bytes
    /// hold; a bit may take 0 to 8 times p.
    pub fn shift_one_in(&mut self, times: usize, random: &mut Random) {
        for wire in 0..self.wires() {
            if !random.one_in(times) {
                continue;
            }
            let value = self.entry(wire);
            let most = (u64::MAX - value) / P;
            self.set(wire, value + P * random.below(most as usize + 1) as u64);
        }
        self.note += &format!(", one entry in {times} shifted by multiples of p");
    }

    /// Adds the same multiple of p to every entry from that wire on that can
    /// take it.
    pub fn shift_from(&mut self, first: usize, times: u64) {
        for wire in first..self.wires() {
            let value = self.entry(wire);
            if (u64::MAX - value) / P >= times {
                self.set(wire, value + P * times);
            }
        }
        self.note += &format!(", entries from wire {first} on shifted by {times} p");
    }
}
