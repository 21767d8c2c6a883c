//! Records that end inside a byte, each beside one of whole bytes that has as
//! many blocks: what our own calls take for both, and what the other sides do,
//! in the same run.

use std::cell::RefCell;

use judge::layout;
use judge::length::Length;

use crate::baseline;
use crate::measures::{
    as_bytes, digests_by_libgcrypt, digests_by_openssl, digests_ours, figures, produce_ours,
    record, OURS,
};
use crate::timing::{best, side, Figure, Side};

/// The bits of a record that ends inside a byte, and those of whole bytes.
pub type Pair = [u64; 2];

/// Of each pair these sides, each with its bits; all of them turn by turn.
fn beside<'a, const SIDES: usize>(
    measure: &'static str,
    sides: impl Fn(&Pair) -> [(u64, Side<'a>); SIDES],
    pairs: &[Pair],
    runs: u32,
) -> Vec<Vec<Figure>> {
    let (bits, sides): (Vec<u64>, Vec<Side<'a>>) = pairs.iter().flat_map(sides).unzip();
    let times = bits.into_iter().zip(best(sides, runs));
    let figure = |(bits, time)| figures(measure, bits, &[time]);
    let all: Vec<Figure> = times.flat_map(figure).collect();
    all.chunks(SIDES).map(<[Figure]>::to_vec).collect()
}

/// Our digest of a record that ends inside a byte beside that of whole bytes,
/// and beside the libraries', which take whole bytes alone.
pub fn digest(pairs: &[Pair], runs: u32) -> Vec<Vec<Figure>> {
    let sides = |&[inside, whole]: &Pair| {
        [
            (inside, digests_ours(inside)),
            (whole, digests_ours(whole)),
            (whole, digests_by_openssl(whole)),
            (whole, digests_by_libgcrypt(whole)),
        ]
    };
    beside("digest-inside", sides, pairs, runs)
}

fn produces(memory: &RefCell<Vec<u8>>, bits: u64) -> Side<'_> {
    let record = record(bits);
    let right = layout::assignment(&record);
    let size = right.len();
    assert_eq!(produce_ours(&record, &mut memory.borrow_mut()[..size]), 0);
    assert!(memory.borrow()[..size] == right, "the judge differs");
    side(OURS, move || {
        produce_ours(&record, &mut memory.borrow_mut()[..size])
    })
}

fn produces_by_c(bits: u64) -> Side<'static> {
    let record = record(bits);
    let right = layout::assignment(&record);
    let mut out = vec![0u64; right.len() / 8];
    baseline::produce(&record, &mut out);
    assert!(as_bytes(&out) == right, "the C loop and the judge differ");
    side("c-loop", move || baseline::produce(&record, &mut out))
}

/// Our producer likewise, and the plain C loop on the record that ends inside
/// a byte. Ours writes all records into the same memory, so that the caches
/// serve them alike.
pub fn produce(pairs: &[Pair], runs: u32) -> Vec<Vec<Figure>> {
    let lengths = pairs.iter().flatten().map(|&bits| record(bits).length());
    let most = lengths.map(Length::assignment_bytes).max().unwrap_or(0);
    let memory = RefCell::new(vec![0u8; most]);
    let sides = |&[inside, whole]: &Pair| {
        [
            (inside, produces(&memory, inside)),
            (whole, produces(&memory, whole)),
            (inside, produces_by_c(inside)),
        ]
    };
    beside("produce-inside", sides, pairs, runs)
}
