//! The answer as one number: the low byte is the refusal's number, 0 for
//! none. For refusal 9 the row number stands from bit 8 on, for refusals 10 and
//! 20 the wire number, for refusal 16 the number of the byte; for a row the counts
//! of A, B and C stand at bits 8, 16 and 24; for a passage that is read the lane
//! at bits 8 to 17, the time at 18 to 51, the class at 52 to 55 and the axles at
//! 56 to 62. Otherwise 0 is above.

use judge::forms::Wire;
use judge::operations::Counts;
use judge::passage::line::Place;
use judge::passage::Numbers;
use judge::refusal::Refusal;

fn refusal(refusal: Refusal) -> u64 {
    let number = match refusal {
        Refusal::Unsatisfied(row) => row.0,
        Refusal::NoBit(wire) | Refusal::NotBelowPrime(wire) => wire.0,
        Refusal::WrongByte(place) => u32::from(place.0),
        _ => 0,
    };
    u64::from(number) << 8 | u64::from(refusal.number())
}

pub fn plain(answer: Result<(), Refusal>) -> u64 {
    answer.map_or_else(refusal, |()| 0)
}

pub fn row(answer: Result<Counts, Refusal>) -> u64 {
    let counts = |n: Counts| (n.a as u64) << 8 | (n.b as u64) << 16 | (n.c as u64) << 24;
    answer.map_or_else(refusal, counts)
}

pub fn passage(answer: Result<Numbers, Refusal>) -> u64 {
    let fields = |n: Numbers| n.lane << 8 | n.time << 18 | n.class << 52 | n.axles << 56;
    answer.map_or_else(refusal, fields)
}

/// Refusal 16 at that byte.
pub fn wrong_byte(byte: usize) -> u64 {
    refusal(Refusal::WrongByte(Place(byte as u8)))
}

/// Refusal 10 at that wire.
pub fn no_bit(wire: usize) -> u64 {
    refusal(Refusal::NoBit(Wire(wire as u32)))
}

/// Refusal 20 at that wire.
pub fn not_below_prime(wire: usize) -> u64 {
    refusal(Refusal::NotBelowPrime(Wire(wire as u32)))
}

/// An answer in words, for the report of a difference.
pub fn told(answer: u64) -> String {
    match (answer & 0xff, answer >> 8) {
        (0, 0) => String::from("no refusal"),
        (0, above) => format!("no refusal and {above:#x} above"),
        (refusal, 0) => format!("refusal {refusal}"),
        (refusal, above) => format!("refusal {refusal} and {above} above"),
    }
}

#[cfg(test)]
mod tests {
    use super::*;

    fn read(lane: u64, time: u64, class: u64, axles: u64) -> u64 {
        passage(Ok(Numbers {
            lane,
            time,
            class,
            axles,
        }))
    }

    #[test]
    fn the_fields_of_a_passage_have_bits_of_their_own() {
        // From bit 62 down: axles 7 bits, class 4, time 34, lane 10, refusal 8.
        let highest = "0_1100011_1001_1001010100000010111110001111111111_1111100111_00000000";
        let bits = highest.replace('_', "");
        let expected = u64::from_str_radix(&bits, 2).unwrap();
        assert_eq!(read(999, 9_999_999_999, 9, 99), expected);
        assert_eq!(read(1, 0, 0, 0), 0x100);
        assert_eq!(read(0, 1, 0, 0), 0x4_0000);
        assert_eq!(read(0, 0, 1, 0), 0x0010_0000_0000_0000);
        assert_eq!(read(0, 0, 0, 2), 0x0200_0000_0000_0000);
    }

    #[test]
    fn a_wrong_byte_stands_from_bit_8_on() {
        assert_eq!(wrong_byte(0), 0x10);
        assert_eq!(wrong_byte(62), 0x3e10);
        assert_eq!(passage(Err(Refusal::LineBytes)), 15);
        assert_eq!(passage(Err(Refusal::LaneOrAxles)), 17);
    }

    #[test]
    fn a_wire_stands_from_bit_8_on() {
        assert_eq!(no_bit(0), 0x0a);
        assert_eq!(not_below_prime(0), 0x14);
        assert_eq!(not_below_prime(45_590), 0x00b2_1614);
        assert_eq!(not_below_prime(360_960), 0x0582_0014);
    }
}
