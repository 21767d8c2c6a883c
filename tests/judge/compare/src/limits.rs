//! "The partner's two blocks": calls under limits, right and wrong, of lengths on
//! both sides of what each allows.
//!
//! * `case`: a call that is made under one limit after another.
//! * `grid`: every limit with every length at the edge of a number of blocks, and
//!   with the faults of other refusals.
//! * `equal`: rows, assignments and answers of one and two blocks, which are the
//!   same under every limit that allows them.

mod case;
mod equal;
mod grid;

pub use judge::limit::{SIXTEEN, TWO};

use crate::plan::{job, Job};
use crate::random::Random;

/// Limits above 16. Some would be from 1 to 16 after losing upper bits.
const ABOVE: [u64; 15] = [
    17,
    18,
    32,
    255,
    256,
    256 + 2,
    (1 << 16) + 16,
    1 << 32,
    (1 << 32) + 2,
    (1 << 32) + 16,
    1 << 63,
    (1 << 63) + 2,
    u64::MAX - 13,
    u64::MAX - 1,
    u64::MAX,
];

/// "A limit outside 1 to 16."
fn outside(limit: u64) -> bool {
    !(1..=16).contains(&limit)
}

/// The longest record of so many blocks: one block has room for 447 bits beside
/// the padding, each further one for 512 more.
fn longest(blocks: u64) -> u64 {
    447 + 512 * (blocks - 1)
}

/// A limit from 1 to 16, sixteen in half of the cases: for calls that are refused
/// before 22.
pub fn any(random: &mut Random) -> u64 {
    let any = random.range(1, 17) as u64;
    random.pick(&[any, SIXTEEN])
}

/// A limit that allows so many blocks: just these, two or sixteen, or any.
pub fn allowing(blocks: usize, random: &mut Random) -> u64 {
    let (least, any) = (blocks as u64, random.range(blocks, 17) as u64);
    random.pick(&[least, TWO.max(least), SIXTEEN, any])
}

/// A limit that refuses so many blocks, with the refusal: 21, and 22 in half of the
/// cases where one block is not enough.
pub fn refusing(blocks: usize, random: &mut Random) -> (u64, u8) {
    let above = random.pick(&ABOVE);
    match blocks {
        2.. if random.one_in(2) => (random.range(1, blocks) as u64, 22),
        _ => (random.pick(&[0, above]), 21),
    }
}

/// A limit without the faults of refusals 21 and 22 or with them, for so many
/// blocks, which are two at least where 22 is among them.
pub fn with_faults(faults: &[u8], blocks: usize, random: &mut Random) -> u64 {
    match [21, 22].map(|refusal| faults.contains(&refusal)) {
        [true, true] => 0,
        [true, false] => random.pick(&ABOVE),
        [false, true] => random.range(1, blocks) as u64,
        [false, false] => allowing(blocks, random),
    }
}

/// How much of everything.
pub struct Amounts {
    /// Whether all lengths beside each number of blocks are tried, and calls that take
    /// long under all limits.
    all: bool,
    /// Lengths of one and two blocks with results that are compared, and how many
    /// records and claims of each.
    equal: Vec<u64>,
    results: usize,
}

impl Amounts {
    pub fn short() -> Amounts {
        Amounts {
            all: false,
            equal: vec![0, 447, 448, 504, 959],
            results: 3,
        }
    }

    pub fn full() -> Amounts {
        Amounts {
            all: true,
            equal: vec![
                0, 1, 8, 440, 446, 447, 448, 449, 504, 511, 512, 513, 805, 958, 959,
            ],
            results: 8,
        }
    }
}

/// All jobs, those that take long first.
pub fn jobs(amounts: &Amounts) -> Vec<Job> {
    let (all, count) = (amounts.all, amounts.results);
    let mut jobs = Vec::new();
    for bits in grid::lengths(all).into_iter().rev() {
        let name = format!("limits: every limit at {bits} bits");
        jobs.push(job(name, move |calls| grid::every_limit(calls, bits, all)));
    }
    for &bits in &amounts.equal {
        let name = format!("limits: results of {bits} bits");
        jobs.push(job(name, move |calls| {
            equal::under_limits(calls, bits, count, all);
        }));
    }
    jobs
}

#[cfg(test)]
mod tests {
    use super::*;

    #[test]
    fn drawn_limits_allow_and_refuse() {
        let random = &mut Random::new(1, 0);
        for blocks in (1..=16).cycle().take(1_600) {
            let least = blocks as u64;
            assert!((least..=16).contains(&allowing(blocks, random)));
            assert!((1..=16).contains(&any(random)));
            match refusing(blocks, random) {
                (limit, 21) => assert!(outside(limit)),
                (limit, 22) => assert!((1..least).contains(&limit)),
                (limit, other) => panic!("limit {limit}, refusal {other}"),
            }
        }
    }

    #[test]
    fn limits_with_faults() {
        let random = &mut Random::new(1, 0);
        for blocks in (2..=16).cycle().take(1_500) {
            let least = blocks as u64;
            assert_eq!(with_faults(&[21, 2, 22], blocks, random), 0);
            assert!(with_faults(&[21, 4], blocks, random) > 16);
            assert!((1..least).contains(&with_faults(&[22], blocks, random)));
            assert!((least..=16).contains(&with_faults(&[2, 4], blocks, random)));
        }
    }
}
