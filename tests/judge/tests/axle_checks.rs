//! Axles between two bounds: what the check accepts, and the lowest row that
//! damaged and forged assignments fail, by hand.

mod support;

use judge::axles::{check, check_with, rows};
use judge::field::P;
use judge::limit::TWO;
use judge::operations;
use judge::refusal::Refusal;
use support::axles::{
    bits_of, bounds, digest, line, produced, unsatisfied, with_bytes, ASSIGNMENT,
};
use support::{not_below_prime, set_entry, FROM_PRIME};

#[test]
fn what_was_produced_is_accepted() {
    let mut table = rows::all(bounds(2, 99));
    for (lower, upper, axles) in [
        (2, 99, 2),
        (2, 99, 99),
        (2, 99, 50),
        (2, 2, 2),
        (99, 99, 99),
        (2, 5, 2),
        (2, 5, 5),
        (9, 10, 9),
        (9, 10, 10),
    ] {
        let record = line(axles);
        let assignment = produced(lower, upper, &record).unwrap();
        rows::rebind(&mut table, bounds(lower, upper));
        let answer = check_with(&table, &digest(&record), &assignment);
        assert_eq!(answer, Ok(()), "{axles} in {lower} to {upper}");
    }
    let record = line(7);
    let assignment = produced(6, 8, &record).unwrap();
    assert_eq!(check(6, 8, &digest(&record), &assignment), Ok(()));
}

#[test]
fn a_record_need_not_be_a_passage() {
    let mut record = support::bytes(63, 5);
    record[17..19].copy_from_slice(b"12");
    let assignment = produced(12, 13, &record).unwrap();
    assert_eq!(check(12, 13, &digest(&record), &assignment), Ok(()));
}

/// A producer's assignment for 3 axles under 2 and 5 with one entry changed.
fn changed(wire: usize, value: u64) -> Result<(), Refusal> {
    let record = line(3);
    let mut assignment = produced(2, 5, &record).unwrap();
    set_entry(&mut assignment, wire, value);
    check(2, 5, &digest(&record), &assignment)
}

#[test]
fn damaged_appended_wires_by_hand() {
    // 9 - 0 is 1001: its first wire cleared leaves 1, its last one 8.
    assert_eq!(changed(45_569, 0), unsatisfied(65_164));
    assert_eq!(changed(45_572, 0), unsatisfied(65_164));
    // No bit: its own bit row comes before the sum row.
    assert_eq!(changed(45_569, 2), unsatisfied(65_160));
    assert_eq!(changed(45_572, P - 2), unsatisfied(65_163));
    // 9 - 3 is 0110.
    assert_eq!(changed(45_573, 1), unsatisfied(65_169));
    assert_eq!(changed(45_574, P - 1), unsatisfied(65_166));
    // 3 - 2 is 0000001, 5 - 3 is 0000010.
    assert_eq!(changed(45_583, 0), unsatisfied(65_177));
    assert_eq!(changed(45_577, 1), unsatisfied(65_177));
    assert_eq!(changed(45_577, 3), unsatisfied(65_170));
    assert_eq!(changed(45_590, 1), unsatisfied(65_185));
    assert_eq!(changed(45_584, 1 << 60), unsatisfied(65_178));
    assert_eq!(changed(45_590, 2), unsatisfied(65_184));
    // p and p + 1 are not 0 and 1 any more.
    assert_eq!(changed(45_590, P), not_below_prime(45_590));
    assert_eq!(changed(45_583, P + 1), not_below_prime(45_583));
    // A digit byte's own wires fail where the record has them.
    assert_eq!(changed(649, 2), unsatisfied(392));
    assert_eq!(changed(664, 2), unsatisfied(407));
}

#[test]
fn an_entry_of_p_or_more_on_any_wire_of_the_circuit() {
    let (record, table) = (line(3), rows::all(bounds(2, 5)));
    let mut assignment = produced(2, 5, &record).unwrap();
    // From the last appended wire down: each is the lowest in its turn.
    for wire in (45_569..45_591)
        .rev()
        .chain([45_568, 664, 649, 257, 256, 0])
    {
        for value in FROM_PRIME {
            set_entry(&mut assignment, wire, value);
            let answer = check_with(&table, &digest(&record), &assignment);
            assert_eq!(answer, not_below_prime(wire));
        }
    }
}

/// The assignment of these two bytes, whatever they are, with these appended
/// entries; it is checked against the digest of its own record.
fn forged(tens: u8, units: u8, appended: &[u64]) -> (Vec<u8>, [u8; 32]) {
    let record = with_bytes(tens, units);
    let mut assignment = vec![0; ASSIGNMENT];
    operations::produce(TWO, 504, &record, &mut assignment).unwrap();
    for (number, &value) in appended.iter().enumerate() {
        set_entry(&mut assignment, 45_569 + number, value);
    }
    (assignment, digest(&record))
}

fn forged_answer(lower: u64, upper: u64, bytes: &[u8; 2], numbers: [i32; 4]) -> u32 {
    let bits: Vec<u64> = bits_of(numbers).into_iter().map(u64::from).collect();
    let (assignment, digest) = forged(bytes[0], bytes[1], &bits);
    match check(lower, upper, &digest, &assignment) {
        Err(Refusal::Unsatisfied(row)) => row.0,
        other => panic!("{other:?}"),
    }
}

#[test]
fn bytes_that_are_no_digits_by_hand() {
    // '@' is 0100 0000: its second high bit is 1; 'p' is 0111 0000.
    assert_eq!(forged_answer(2, 99, b"@5", [9, 4, 3, 94]), 65_153);
    assert_eq!(forged_answer(2, 99, b"p5", [9, 4, 3, 94]), 65_153);
    // '\xb0' is 1011 0000, ' ' is 0010 0000, '\x10' is 0001 0000.
    assert_eq!(forged_answer(2, 99, b"\xb05", [9, 4, 3, 94]), 65_152);
    assert_eq!(forged_answer(2, 99, b" 5", [9, 4, 3, 94]), 65_155);
    assert_eq!(forged_answer(2, 99, b"\x105", [9, 4, 3, 94]), 65_154);
    // The same of the units, four rows later.
    assert_eq!(forged_answer(2, 99, b"0E", [9, 4, 3, 94]), 65_157);
    assert_eq!(forged_answer(2, 99, b"0%", [9, 4, 3, 94]), 65_159);
    // ':' is 0011 1010, so ten: 9 - 10 has no bits, though 15 is -1 modulo 16.
    assert_eq!(forged_answer(2, 99, b"0:", [9, -1, 8, 89]), 65_169);
    assert_eq!(forged_answer(2, 99, b":0", [-1, 9, 98, -1]), 65_164);
    assert_eq!(forged_answer(2, 99, b"0?", [9, -6, 13, 84]), 65_169);
}

#[test]
fn axles_outside_the_bounds_by_hand() {
    // 1 - 2 as 127, and 6 past 5: -1 modulo 128 does not do.
    assert_eq!(forged_answer(2, 5, b"01", [9, 8, -1, 4]), 65_177);
    assert_eq!(forged_answer(2, 5, b"06", [9, 3, 4, -1]), 65_185);
    // -1 itself, in the place of a bit, is refused by that bit's row.
    let mut entries: Vec<u64> = bits_of([9, 8, 0, 4]).into_iter().map(u64::from).collect();
    entries[14] = P - 1;
    let (assignment, digest) = forged(b'0', b'1', &entries);
    assert_eq!(check(2, 5, &digest, &assignment), unsatisfied(65_176));
    // -1 / 64 in the highest bit's: 2^-6 is 2^55 modulo p.
    entries[14] = 0;
    entries[8] = P - (1 << 55);
    let (assignment, digest) = forged(b'0', b'1', &entries);
    assert_eq!(check(2, 5, &digest, &assignment), unsatisfied(65_170));
}

#[test]
fn another_band_s_assignment() {
    let record = line(30);
    let assignment = produced(20, 40, &record).unwrap();
    let answer = |lower, upper| check(lower, upper, &digest(&record), &assignment);
    assert_eq!(answer(20, 40), Ok(()));
    assert_eq!(answer(21, 40), unsatisfied(65_177));
    assert_eq!(answer(20, 41), unsatisfied(65_185));
    assert_eq!(answer(19, 41), unsatisfied(65_177));
    assert_eq!(answer(31, 40), unsatisfied(65_177));
}

#[test]
fn a_plain_record_s_assignment() {
    let record = line(30);
    let mut assignment = vec![0; 364_552];
    operations::produce(TWO, 504, &record, &mut assignment).unwrap();
    let (digest, short) = (digest(&record), Refusal::AssignmentBytes);
    assert_eq!(check(20, 40, &digest, &assignment), Err(short));
    // With zeros behind it 9 - 3 is not 0.
    assignment.resize(ASSIGNMENT, 0);
    assert_eq!(check(20, 40, &digest, &assignment), unsatisfied(65_164));
    // With 99 axles under 99 and 99 all four numbers are 0.
    let (assignment, digest) = forged(b'9', b'9', &[]);
    assert_eq!(check(99, 99, &digest, &assignment), Ok(()));
}
