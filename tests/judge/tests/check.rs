//! The check under a limit of sixteen blocks: its refusals in order, and damaged
//! assignments refused with the lowest row.

mod support;

use judge::check::{self, check_with};
use judge::field::P;
use judge::forms::{RowNumber, RowTable};
use judge::length::Length;
use judge::limit::SIXTEEN;
use judge::record::Record;
use judge::refusal::Refusal;
use judge::{layout, rows, sm3};
use support::{
    entry, holds, length, lowest_with_wire, not_below_prime, record, set_entry, FROM_PRIME, LENGTHS,
};

/// A record's assignment and digest with the rows of its length.
struct Case {
    length: Length,
    table: RowTable,
    assignment: Vec<u8>,
    digest: [u8; 32],
}

fn case(bits: u64) -> Case {
    let record = record(bits, 11);
    Case {
        length: length(bits),
        table: rows::rows(length(bits)),
        assignment: layout::assignment(&record),
        digest: sm3::hash(&record),
    }
}

impl Case {
    fn check(&self) -> Result<(), Refusal> {
        check_with(&self.table, self.length, &self.assignment, &self.digest)
    }

    /// The check with one entry changed; the change is taken back.
    fn with(&mut self, wire: usize, value: u64) -> Result<(), Refusal> {
        let before = entry(&self.assignment, wire);
        set_entry(&mut self.assignment, wire, value);
        let answer = self.check();
        set_entry(&mut self.assignment, wire, before);
        answer
    }
}

fn check(bits: u64, assignment: &[u8], digest: &[u8]) -> Result<(), Refusal> {
    check::check(SIXTEEN, bits, assignment, digest)
}

fn unsatisfied(row: u32) -> Result<(), Refusal> {
    Err(Refusal::Unsatisfied(RowNumber(row)))
}

#[test]
fn layouts_are_accepted() {
    for bits in LENGTHS {
        let record = record(bits, 3);
        let assignment = layout::assignment(&record);
        let answer = check(bits, &assignment, &sm3::hash(&record));
        assert_eq!(answer, Ok(()), "{bits} bits");
    }
}

#[test]
fn refusals_come_in_order() {
    let good = case(8);
    let (long, short) = (vec![0xff; good.assignment.len() + 8], &good.assignment[8..]);
    // Everything wrong at once, then one thing mended after another.
    assert_eq!(check(8128, &long, &[0; 31]), Err(Refusal::Length));
    assert_eq!(check(8, &long, &[0; 31]), Err(Refusal::DigestBytes));
    assert_eq!(check(8, &long, &[0; 33]), Err(Refusal::DigestBytes));
    assert_eq!(check(8, &long, &[]), Err(Refusal::DigestBytes));
    assert_eq!(check(8, &long, &[1; 32]), Err(Refusal::AssignmentBytes));
    assert_eq!(check(8, short, &[1; 32]), Err(Refusal::AssignmentBytes));
    assert_eq!(check(8, &[], &[1; 32]), Err(Refusal::AssignmentBytes));
    let mut assignment = vec![0x02; good.assignment.len()];
    // The last wire's entry, then one before it: 20 comes before all of 7 to 9.
    for wire in [good.length.wires() - 1, 700] {
        set_entry(&mut assignment, wire, P);
        assert_eq!(check(8, &assignment, &[1; 32]), not_below_prime(wire));
    }
    let mut assignment = vec![0x02; good.assignment.len()];
    assert_eq!(check(8, &assignment, &[1; 32]), Err(Refusal::WireZero));
    set_entry(&mut assignment, 0, 1);
    assert_eq!(check(8, &assignment, &[1; 32]), Err(Refusal::DigestWire));
    assignment[8..8 * 257].copy_from_slice(&good.assignment[8..8 * 257]);
    assert_eq!(check(8, &assignment, &[1; 32]), Err(Refusal::DigestWire));
    assert_eq!(check(8, &assignment, &good.digest), unsatisfied(0));
    assert_eq!(good.check(), Ok(()));
}

#[test]
fn an_assignment_of_another_block_count_is_refusal_6() {
    let good = case(447);
    assert_eq!(
        check(448, &good.assignment, &good.digest),
        Err(Refusal::AssignmentBytes)
    );
    // Same block count, other padding: the first padding wire of 446 bits is
    // a record wire at 447, so the rows decide.
    let answer = check(446, &good.assignment, &good.digest);
    assert!(matches!(answer, Err(Refusal::Unsatisfied(_))));
}

#[test]
fn entries_are_not_read_modulo_p() {
    let mut good = case(27);
    // From the last wire down, so that the wire shifted last is the lowest; a
    // wire that 8 divides keeps its entry.
    for wire in (0..good.length.wires()).rev() {
        let value = entry(&good.assignment, wire);
        set_entry(&mut good.assignment, wire, value + P * (wire as u64 % 8));
        if wire % 2_000 == 1 {
            assert_eq!(good.check(), not_below_prime(wire));
        }
    }
    assert_eq!(good.check(), not_below_prime(1));
}

#[test]
fn one_entry_of_p_or_more_on_any_wire() {
    let mut good = case(453);
    let last = good.length.wires() - 1;
    // Wire 0, the digest, the start words, a record bit, a padding bit, q, P1(q),
    // W, W', all of a round of the second block, and the result.
    let wires = [
        0, 1, 256, 257, 512, 513, 965, 966, 1_025, 1_057, 1_089, 6_017,
    ];
    let round = (23_041 + 7_552..).take(230);
    for wire in wires.into_iter().chain(round).chain([last - 255, last]) {
        for value in FROM_PRIME {
            assert_eq!(good.with(wire, value), not_below_prime(wire));
        }
        assert_ne!(good.with(wire, P - 1), not_below_prime(wire));
    }
    // p - 1 is below p, and the wire's own bit row refuses it.
    assert_eq!(good.with(513, P - 1), unsatisfied(256));
}

#[test]
fn of_several_entries_of_p_or_more_the_lowest_wire_is_returned() {
    let mut good = case(448);
    set_entry(&mut good.assignment, 44_000, P);
    for value in [P - 1, P, P + 5, u64::MAX] {
        assert_eq!(good.with(44_001, value), not_below_prime(44_000));
    }
    // A greater one on a higher wire, and a smaller one.
    set_entry(&mut good.assignment, 30_000, u64::MAX);
    assert_eq!(good.check(), not_below_prime(30_000));
    set_entry(&mut good.assignment, 400, P + 1);
    assert_eq!(good.check(), not_below_prime(400));
    // With wire 0 and a digest wire wrong besides: 7 and 8 come later.
    set_entry(&mut good.assignment, 256, 2);
    set_entry(&mut good.assignment, 0, P - 1);
    assert_eq!(good.check(), not_below_prime(400));
}

#[test]
fn wire_0_and_digest_wires() {
    let mut good = case(15);
    for value in [0, 2, 1 << 60, P - 1] {
        assert_eq!(good.with(0, value), Err(Refusal::WireZero));
    }
    // p + 1 is not 1 any more.
    for value in FROM_PRIME {
        assert_eq!(good.with(0, value), not_below_prime(0));
    }
    for wire in 1..=256 {
        let value = entry(&good.assignment, wire);
        assert_eq!(good.with(wire, 1 - value), Err(Refusal::DigestWire));
        assert_eq!(good.with(wire, value + 2), Err(Refusal::DigestWire));
    }
}

#[test]
fn digest_and_digest_wires_changed_together_meet_the_closing_rows() {
    let mut good = case(448);
    for number in [0, 1, 100, 255] {
        let mut digest = good.digest;
        digest[number / 8] ^= 0x80 >> (number % 8);
        let value = entry(&good.assignment, 1 + number);
        set_entry(&mut good.assignment, 1 + number, 1 - value);
        let answer = check_with(&good.table, good.length, &good.assignment, &digest);
        assert_eq!(answer, unsatisfied(256 + 2 * 32_320 + number as u32));
        set_entry(&mut good.assignment, 1 + number, value);
    }
}

#[test]
fn lowest_rows_worked_by_hand() {
    let mut good = case(8);
    let flipped = |good: &Case, wire| 1 - entry(&good.assignment, wire);
    // A start wire and a padding wire have fixed rows.
    assert_eq!(good.with(257, flipped(&good, 257)), unsatisfied(0));
    assert_eq!(good.with(512, flipped(&good, 512)), unsatisfied(255));
    assert_eq!(good.with(521, flipped(&good, 521)), unsatisfied(256 + 8));
    assert_eq!(good.with(1024, flipped(&good, 1024)), unsatisfied(767));
    // A record wire as another bit first fails in q for j = 16; as no bit it
    // fails in its own bit row.
    assert_eq!(good.with(513, flipped(&good, 513)), unsatisfied(769));
    assert_eq!(good.with(513, 2), unsatisfied(256));
}

#[test]
fn of_two_damages_the_lower_row_is_returned() {
    let mut good = case(448);
    let (late, early) = (40_000, 9_000);
    let late_value = 5 + entry(&good.assignment, late);
    let late_alone = good.with(late, late_value);
    set_entry(&mut good.assignment, late, late_value);
    assert_eq!(good.check(), late_alone);
    let both = good.with(early, 5);
    set_entry(&mut good.assignment, late, late_value - 5);
    assert_eq!(both, good.with(early, 5));
    assert_ne!(both, late_alone);
}

/// Damages every `step`-th wire past the digest, as another bit and as a
/// number that is no bit, and compares with the test's own evaluation.
fn damage_wires(bits: u64, step: usize) {
    let mut good = case(bits);
    for wire in (257..good.length.wires()).step_by(step) {
        let before = entry(&good.assignment, wire);
        for value in [1 - before, before + (1 << 60)] {
            let mut damaged = good.assignment.clone();
            set_entry(&mut damaged, wire, value);
            let expected = lowest_with_wire(&good.table, &damaged, wire as u32);
            let expected = expected.expect("every wire is held by a row");
            assert_eq!(
                good.with(wire, value),
                Err(Refusal::Unsatisfied(expected)),
                "wire {wire}"
            );
        }
    }
}

#[test]
fn damaged_wires_of_one_block() {
    damage_wires(75, 101);
}

#[test]
fn damaged_wires_of_two_blocks() {
    damage_wires(800, 463);
}

#[test]
fn damaged_wires_of_sixteen_blocks() {
    damage_wires(8127, 36_007);
}

#[test]
fn another_record_of_the_same_length_has_another_digest() {
    for bits in [511, 512] {
        let records = [4, 5].map(|seed| record(bits, seed));
        let [one, two] = records.each_ref().map(layout::assignment);
        let [digest_one, digest_two] = records.each_ref().map(sm3::hash);
        assert_eq!(check(bits, &one, &digest_one), Ok(()));
        assert_eq!(check(bits, &two, &digest_two), Ok(()));
        assert_eq!(check(bits, &one, &digest_two), Err(Refusal::DigestWire));
    }
}

#[test]
fn trap_the_majority_needs_its_bit_row() {
    // "With x + y + z = 1, r = 2^60 satisfies the other row."
    let mut good = case(0);
    // FF in round 20: row of its first position, and its wire.
    let first_row = 12_800 + 16 * 329 + 4 * 297 + 35 + 32;
    let first_wire = 8_065 + 20 * 230 + 66;
    let mut met = 0;
    for position in 0..32 {
        let (wire, bit_row) = (first_wire + position, first_row + 2 * position as u32);
        let majority = good.table.row(RowNumber(bit_row + 1));
        let own = wire as u32;
        let inputs = majority.a.iter().filter(|term| term.wire.0 != own);
        let ones: u64 = inputs
            .map(|t| entry(&good.assignment, t.wire.0 as usize))
            .sum();
        if ones == 1 {
            let entries = |w: usize| {
                if w == wire {
                    1 << 60
                } else {
                    entry(&good.assignment, w)
                }
            };
            assert!(holds(majority, entries));
            assert_eq!(good.with(wire, 1 << 60), unsatisfied(bit_row));
            met += 1;
        }
    }
    assert!(met > 0, "no position with x + y + z = 1 came up");
}

#[test]
fn trap_carries_need_bit_rows() {
    // Carries 2^33 c + 2^32 d: one more of c and two less of d sum the same.
    let mut good = case(0);
    let (high, low) = (8_065 + 32, 8_065 + 33);
    let (c, d) = (entry(&good.assignment, high), entry(&good.assignment, low));
    set_entry(&mut good.assignment, high, c + 1);
    set_entry(&mut good.assignment, low, d + P - 2);
    let assignment = good.assignment.clone();
    assert!(holds(good.table.row(RowNumber(12_800 + 34)), |w| entry(
        &assignment,
        w
    )));
    let expected = if c == 0 { 12_800 + 33 } else { 12_800 + 32 };
    assert_eq!(good.check(), unsatisfied(expected));
}

#[test]
fn trap_padding_is_not_free() {
    // The wires of a two byte record at a length of one: all rows of words
    // hold, but the padding is that of another length.
    let record = Record::whole(&[0x61, 0x80]).unwrap();
    let answer = check(8, &layout::assignment(&record), &sm3::hash(&record));
    // Byte 1 is 0x80 in both; byte 2 is 0x80 only in the longer one.
    assert_eq!(answer, unsatisfied(256 + 16));
    // The same inside one byte: five bits 10110 at a length of three. Bit 3 is
    // 1 in both; bit 5 is 1 only in the longer one.
    let record = Record::new(5, &[0b10110000]).unwrap();
    let answer = check(3, &layout::assignment(&record), &sm3::hash(&record));
    assert_eq!(answer, unsatisfied(256 + 5));
    // Two bits at a length of three: bit 3 must be 1.
    let record = Record::new(2, &[0b10000000]).unwrap();
    let answer = check(3, &layout::assignment(&record), &sm3::hash(&record));
    assert_eq!(answer, unsatisfied(256 + 3));
}
