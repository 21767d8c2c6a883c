//! What is measured of packing. Before a time is taken, all sides must agree,
//! on refusals too.

use std::rc::Rc;

use host::Empty;
use judge::field::P;
use judge::layout;
use judge::length::Length;

use crate::baseline;
use crate::measures::{answer, as_bytes, deceive, put_entry, record, turn_by_turn, LIMIT, OURS};
use crate::timing::{side, Figure, Side};

fn in_range(bits: u64) -> Length {
    Length::new(bits).expect("a length in range")
}

/// What the judge leaves in a buffer that it packs an assignment into, and what
/// it answers.
fn packed(bits: u64, assignment: &[u8]) -> (Vec<u8>, u64) {
    let mut out = vec![0xa5; in_range(bits).packed_bytes()];
    let judged = judge::packing::pack(LIMIT, bits, assignment, &mut out);
    (out, answer(judged))
}

/// A way of packing: of records of a length, an assignment into a buffer.
type Packing = fn(Length, &[u8], &mut [u8]) -> u64;

fn pack_ours(length: Length, assignment: &[u8], out: &mut [u8]) -> u64 {
    host::pack(Empty::Null, LIMIT, length.bits() as u64, assignment, out)
}

/// The packing of this assignment by one side, with a buffer of its own. The
/// judge must leave the same bytes; where it refuses, those from before.
fn packer(name: &'static str, pack: Packing, assignment: Rc<[u8]>, bits: u64) -> Side<'static> {
    let ((right, answer), length) = (packed(bits, &assignment), in_range(bits));
    let mut out = vec![0xa5; right.len()];
    assert_eq!(pack(length, &assignment, &mut out), answer, "{name}");
    assert!(out == right, "{name} packs otherwise");
    side(name, move || pack(length, &assignment, &mut out))
}

fn packers(assignment: Vec<u8>, right: u64, bits: u64) -> [Side<'static>; 3] {
    assert_eq!(packed(bits, &assignment).1, right);
    let assignment: Rc<[u8]> = assignment.into();
    let sides: [(_, Packing); 3] = [
        (OURS, pack_ours),
        ("c-loop", baseline::pack),
        ("c-copied", baseline::pack_copied),
    ];
    sides.map(|(name, pack)| packer(name, pack, Rc::clone(&assignment), bits))
}

/// Packing beside the plain C loops, in two passes and by a copy.
pub fn pack(lengths: &[u64], runs: u32) -> Vec<Vec<Figure>> {
    let sides = |bits| packers(layout::assignment(&record(bits)), 0, bits);
    turn_by_turn("pack", sides, lengths, runs)
}

/// The same where the last entry is another, for which it is refused by this
/// number.
fn with_last(
    measure: &'static str,
    (entry, refusal): (u64, u64),
    lengths: &[u64],
    runs: u32,
) -> Vec<Vec<Figure>> {
    let sides = |bits| {
        let mut assignment = layout::assignment(&record(bits));
        let last = assignment.len() / 8 - 1;
        put_entry(&mut assignment, last, entry);
        packers(assignment, refusal | (last as u64) << 8, bits)
    };
    turn_by_turn(measure, sides, lengths, runs)
}

/// The last entry is below p, but no bit.
pub fn pack_refused(lengths: &[u64], runs: u32) -> Vec<Vec<Figure>> {
    with_last("pack-refused", (P - 1, 10), lengths, runs)
}

/// The last entry is p.
pub fn pack_not_below(lengths: &[u64], runs: u32) -> Vec<Vec<Figure>> {
    with_last("pack-not-below", (P, 20), lengths, runs)
}

/// No entry is p or more, but two beside each other are so together; wire 0 is
/// no bit.
pub fn pack_tested(lengths: &[u64], runs: u32) -> Vec<Vec<Figure>> {
    let sides = |bits| {
        let mut assignment = layout::assignment(&record(bits));
        deceive(&mut assignment);
        packers(assignment, 10, bits)
    };
    turn_by_turn("pack-tested", sides, lengths, runs)
}

/// The two ways of unpacking at one length, each with a buffer of its own.
fn unpackers(bits: u64) -> [Side<'static>; 2] {
    let right = layout::assignment(&record(bits));
    let packed: Rc<[u8]> = packed(bits, &right).0.into();
    let mut ours = vec![0u8; right.len()];
    let mut theirs = vec![0u64; right.len() / 8];
    let mut spare = packed.to_vec();
    *spare.last_mut().expect("packed bytes") |= 1;
    for (answer, bytes) in [(11, &packed[1..]), (12, &spare), (0, &packed)] {
        let both = [
            host::unpack(Empty::Null, LIMIT, bits, bytes, &mut ours),
            baseline::unpack(in_range(bits), bytes, &mut theirs),
        ];
        assert_eq!(both, [answer; 2]);
    }
    assert!(ours == right, "unpacking and the judge differ");
    assert!(
        as_bytes(&theirs) == right,
        "the C loop and the judge differ"
    );
    let same = Rc::clone(&packed);
    [
        side(OURS, move || {
            host::unpack(Empty::Null, LIMIT, bits, &packed, &mut ours)
        }),
        side("c-loop", move || {
            baseline::unpack(in_range(bits), &same, &mut theirs)
        }),
    ]
}

/// Unpacking beside the plain C loop.
pub fn unpack(lengths: &[u64], runs: u32) -> Vec<Vec<Figure>> {
    turn_by_turn("unpack", unpackers, lengths, runs)
}
