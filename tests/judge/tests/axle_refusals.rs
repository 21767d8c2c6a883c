//! Axles between two bounds: refusals 18 and 19, the orders of the refusals of
//! row, produce and check, and the bytes that stay.

mod support;

use judge::axles::{check, produce, row, Bounds};
use judge::field::P;
use judge::refusal::Refusal;
use support::axles::{all_bounds, digest, line, produced, with_bytes, ASSIGNMENT};
use support::{not_below_prime, set_entry, untouched, OLD};

#[test]
fn refusal_18() {
    let wide = [1u64 << 32, 1 << 63, 256, 128, 65_536];
    let record = line(3);
    let right = produced(2, 5, &record).unwrap();
    let refused = |lower: u64, upper: u64| {
        assert_eq!(Bounds::new(lower, upper), Err(Refusal::Bounds));
        assert_eq!(produced(lower, upper, &record), Err(Refusal::Bounds));
        assert_eq!(row(lower, upper, 0, &mut []), Err(Refusal::Bounds));
        let answer = check(lower, upper, &digest(&record), &right);
        assert_eq!(answer, Err(Refusal::Bounds));
    };
    for lower in 0..=101 {
        for upper in 0..=101 {
            let right = 2 <= lower && lower <= upper && upper <= 99;
            assert_eq!(Bounds::new(lower, upper).is_ok(), right);
        }
    }
    for (lower, upper) in [(0, 5), (1, 5), (2, 100), (5, 4), (99, 2), (100, 100)] {
        refused(lower, upper);
    }
    for more in wide {
        refused(2 + more, 5);
        refused(2, 5 + more);
        refused(2 + more, 5 + more);
    }
    refused(u64::MAX, u64::MAX);
    refused(2, u64::MAX);
}

/// Without room the producer answers 4 where it refuses the record by nothing.
fn producer_takes(lower: u64, upper: u64, record: &[u8]) -> bool {
    match produce(lower, upper, record, &mut []) {
        Err(Refusal::Buffer) => true,
        Err(Refusal::OutsideBand) => false,
        other => panic!("{other:?}"),
    }
}

#[test]
fn refusal_19() {
    for tens in 0..=u8::MAX {
        for units in 0..=u8::MAX {
            let digits = tens.is_ascii_digit() && units.is_ascii_digit();
            let number = u32::from(tens) * 10 + u32::from(units);
            let within = digits && (2..=99).contains(&(number - 11 * 48));
            assert_eq!(producer_takes(2, 99, &with_bytes(tens, units)), within);
        }
    }
    for (lower, upper) in all_bounds() {
        for axles in [lower - 1, lower, upper, upper + 1] {
            if axles <= 99 {
                let within = lower <= axles && axles <= upper;
                let taken = producer_takes(lower, upper, &line(axles as u8));
                assert_eq!(taken, within, "{axles} in {lower} to {upper}");
            }
        }
    }
}

/// The number of what the producer refuses; no byte of the buffer may change.
fn refused_produce(lower: u64, upper: u64, record: &[u8], room: usize) -> u8 {
    let mut buffer = vec![OLD; room];
    let refusal = produce(lower, upper, record, &mut buffer).unwrap_err();
    assert!(untouched(&buffer));
    refusal.number()
}

#[test]
fn the_order_of_the_producer_is_13_18_19_4() {
    let (right, outside, short) = (line(3), line(6), &line(3)[..62]);
    for room in [0, ASSIGNMENT - 1, ASSIGNMENT, ASSIGNMENT + 8] {
        assert_eq!(refused_produce(1, 5, short, room), 13);
        assert_eq!(refused_produce(2, 5, short, room), 13);
        assert_eq!(
            refused_produce(2, 5, &[right.clone(), vec![0]].concat(), room),
            13
        );
        assert_eq!(refused_produce(5, 4, &outside, room), 18);
        assert_eq!(refused_produce(2, 100, &right, room), 18);
        assert_eq!(refused_produce(2, 5, &outside, room), 19);
        if room < ASSIGNMENT {
            assert_eq!(refused_produce(2, 5, &right, room), 4);
        }
    }
}

#[test]
fn bytes_past_the_assignment_are_kept() {
    let mut buffer = vec![OLD; ASSIGNMENT + 9];
    produce(2, 5, &line(3), &mut buffer).unwrap();
    assert!(untouched(&buffer[ASSIGNMENT..]));
    assert_eq!(buffer[..ASSIGNMENT], produced(2, 5, &line(3)).unwrap());
}

#[test]
fn the_order_of_row_is_18_3_4() {
    let answer = |lower, number, room: usize| {
        let mut buffer = vec![OLD; room];
        let answer = row(lower, 5, number, &mut buffer);
        if answer.is_err() {
            assert!(untouched(&buffer));
        }
        answer.map_err(Refusal::number)
    };
    for number in [65_186, 65_187, (1 << 32) + 65_177, u64::MAX] {
        assert_eq!(answer(1, number, 0), Err(18));
        assert_eq!(answer(2, number, 0), Err(3));
        assert_eq!(answer(2, number, 1_956), Err(3));
    }
    assert_eq!(answer(6, 65_185, 1_956), Err(18));
    assert_eq!(answer(2, 65_185, 1_955), Err(4));
    let counts = answer(2, 65_185, 1_956).unwrap();
    assert_eq!((counts.a, counts.b, counts.c), (16, 1, 0));
}

#[test]
fn the_order_of_the_check_is_18_5_6_20_7_8_9() {
    let record = line(3);
    let mut assignment = produced(2, 5, &record).unwrap();
    let mut digest = digest(&record);
    let number = |answer: Result<(), Refusal>| answer.unwrap_err().number();
    set_entry(&mut assignment, 45_590, 1);
    assert_eq!(number(check(2, 5, &digest, &assignment)), 9);
    digest[31] ^= 1;
    assert_eq!(number(check(2, 5, &digest, &assignment)), 8);
    set_entry(&mut assignment, 0, 0);
    assert_eq!(number(check(2, 5, &digest, &assignment)), 7);
    set_entry(&mut assignment, 45_589, P);
    let answer = check(2, 5, &digest, &assignment);
    assert_eq!(answer, not_below_prime(45_589));
    set_entry(&mut assignment, 3, u64::MAX);
    let short = &assignment[..ASSIGNMENT - 8];
    assert_eq!(number(check(2, 5, &digest, short)), 6);
    assert_eq!(number(check(2, 5, &digest[1..], short)), 5);
    assert_eq!(number(check(2, 1, &digest[1..], short)), 18);
}
