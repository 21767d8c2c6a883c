//! The fields of a passage, right or wrong, and the line of right ones.

use std::fmt;

use judge::passage::line::LINE_BYTES;
use judge::passage::{self, Numbers};

use crate::answers;
use crate::random::Random;

pub const DIGITS: &[u8] = b"0123456789";
pub const LETTERS: &[u8] = b"ABCDEFGHIJKLMNOPQRSTUVWXYZ";
pub const HEXADECIMAL: &[u8] = b"0123456789abcdef";

/// The first bytes of plate and blind, and how many they have.
pub const PLATE: usize = 20;
pub const PLATE_BYTES: usize = 10;
pub const BLIND: usize = 31;
pub const BLIND_BYTES: usize = 32;

/// What fields may be: the highest of each number.
pub const MOST: Numbers = Numbers {
    lane: 999,
    time: 9_999_999_999,
    class: 9,
    axles: 99,
};

#[derive(Clone)]
pub struct Fields {
    pub numbers: Numbers,
    pub plate: Vec<u8>,
    pub blind: Vec<u8>,
}

/// So many of these bytes.
pub fn some_of(bytes: &[u8], count: usize, random: &mut Random) -> Vec<u8> {
    (0..count).map(|_| random.pick(bytes)).collect()
}

/// A number from the lowest to the highest, now and then one of them.
fn number(lowest: u64, highest: u64, random: &mut Random) -> u64 {
    let any = lowest + random.next() % (highest - lowest + 1);
    random.pick(&[lowest, highest, any, any, any, any])
}

impl Fields {
    /// Right ones; so many places of the plate have no `-`.
    pub fn right(filled: usize, random: &mut Random) -> Fields {
        let numbers = Numbers {
            lane: number(1, MOST.lane, random),
            time: number(0, MOST.time, random),
            class: number(1, MOST.class, random),
            axles: number(2, MOST.axles, random),
        };
        let mut plate = some_of(&[DIGITS, LETTERS].concat(), filled, random);
        plate.resize(PLATE_BYTES, b'-');
        Fields {
            numbers,
            plate,
            blind: some_of(HEXADECIMAL, BLIND_BYTES, random),
        }
    }

    /// Right ones with any plate.
    pub fn random(random: &mut Random) -> Fields {
        let filled = random.range(1, PLATE_BYTES + 1);
        Fields::right(filled, random)
    }

    /// The judge's line of right fields.
    pub fn line(&self) -> Vec<u8> {
        let mut line = vec![0; LINE_BYTES];
        passage::write(self.numbers, &self.plate, &self.blind, &mut line).expect("right fields");
        line
    }

    /// The numbers as the library takes them.
    pub fn as_lent(&self) -> host::passage::Numbers {
        let Numbers {
            lane,
            time,
            class,
            axles,
        } = self.numbers;
        host::passage::Numbers {
            lane,
            time,
            class,
            axles,
        }
    }

    /// What reading the line of right fields must answer.
    pub fn answer(&self) -> u64 {
        answers::passage(Ok(self.numbers))
    }
}

impl fmt::Display for Fields {
    fn fmt(&self, f: &mut fmt::Formatter<'_>) -> fmt::Result {
        let (numbers, plate) = (self.numbers, self.plate.escape_ascii());
        write!(f, "{numbers:?}, '{plate}', '{}'", self.blind.escape_ascii())
    }
}
