//! Axles between two bounds: the appended rows and wires, by facts worked out by
//! hand, and that the rows hold exactly within the bounds.

mod support;

use judge::axles::{self, band::Axles, layout, rows};
use judge::forms::{RowNumber, RowTable};
use judge::limit::TWO;
use judge::operations;
use support::axles::{all_bounds, bits_of, bounds, line, produced, APPENDED, ASSIGNMENT};
use support::{entry, holds, in_range, length, plain, Plain, OLD};

/// The appended wires of an assignment, as text.
fn appended_text(assignment: &[u8]) -> String {
    let wires = 45_569..45_591;
    wires
        .map(|wire| entry(assignment, wire).to_string())
        .collect()
}

/// One of the appended rows, by its number in the circuit.
fn appended_row(lower: u64, upper: u64, number: u32) -> Plain {
    plain(rows::appended(bounds(lower, upper)).row(RowNumber(number - APPENDED)))
}

/// Terms of such weights on wires from one on.
fn terms(first: u32, weights: &[i64]) -> Vec<(u32, i64)> {
    (first..).zip(weights.iter().copied()).collect()
}

/// A sum row: its terms part by part, times 1 is 0.
fn sum_row(parts: [Vec<(u32, i64)>; 4]) -> Plain {
    [parts.concat(), vec![(0, 1)], vec![]]
}

#[test]
fn the_worked_row_of_the_layout() {
    let expected = sum_row([
        vec![(0, -2)],
        terms(653, &[80, 40, 20, 10]),
        terms(661, &[8, 4, 2, 1]),
        terms(45_577, &[-64, -32, -16, -8, -4, -2, -1]),
    ]);
    assert_eq!(appended_row(2, 5, 65_177), expected);
    let all = rows::all(bounds(2, 5));
    assert_eq!(plain(all.row(RowNumber(65_177))), expected);
}

#[test]
fn the_other_sum_rows() {
    let bits = [-8, -4, -2, -1];
    let nine = || vec![(0, 9)];
    let tens = sum_row([nine(), terms(653, &bits), terms(45_569, &bits), vec![]]);
    assert_eq!(appended_row(2, 99, 65_164), tens);
    let units = sum_row([nine(), terms(661, &bits), terms(45_573, &bits), vec![]]);
    assert_eq!(appended_row(2, 99, 65_169), units);
    let upper = sum_row([
        vec![(0, 99)],
        terms(653, &[-80, -40, -20, -10]),
        terms(661, &bits),
        terms(45_584, &[-64, -32, -16, -8, -4, -2, -1]),
    ]);
    assert_eq!(appended_row(2, 99, 65_185), upper);
}

#[test]
fn the_fixed_rows_and_the_bit_rows() {
    let one = (0, 1);
    for (place, wire) in (649..=652).chain(657..=660).enumerate() {
        let c = if place % 4 < 2 { vec![] } else { vec![one] };
        let expected = [vec![(wire, 1)], vec![one], c];
        assert_eq!(appended_row(7, 8, APPENDED + place as u32), expected);
    }
    let bit_rows = (65_160..=65_163)
        .chain(65_165..=65_168)
        .chain(65_170..=65_176)
        .chain(65_178..=65_184);
    for (number, wire) in bit_rows.zip(45_569..) {
        let expected = [vec![(wire, 1)], vec![(0, -1), (wire, 1)], vec![]];
        assert_eq!(appended_row(7, 8, number), expected);
    }
}

#[test]
fn counts() {
    assert_eq!(axles::wires(), 45_591);
    assert_eq!(axles::row_count(), 65_186);
    assert_eq!(axles::assignment_bytes(), ASSIGNMENT);
    assert_eq!(rows::all(bounds(2, 99)).count(), 65_186);
    assert_eq!(rows::appended(bounds(2, 99)).count(), 34);
}

/// Terms by rising wire below the count, coefficients in their range, no more
/// than 163 terms.
fn assert_shape(table: &RowTable) {
    for (number, row) in table.iter() {
        assert!(row.terms() <= 163, "{number:?}");
        for sum in [row.a, row.b, row.c] {
            assert!(sum.windows(2).all(|two| two[0].wire < two[1].wire));
            assert!(sum.iter().all(|t| in_range(t) && t.wire.0 < 45_591));
        }
    }
}

#[test]
fn every_row_has_its_shape() {
    assert_shape(&rows::all(bounds(2, 99)));
    for (lower, upper) in all_bounds() {
        assert_shape(&rows::appended(bounds(lower, upper)));
    }
}

#[test]
fn the_record_s_rows_stand_in_front() {
    let record = judge::rows::rows(length(504));
    let mut table = rows::all(bounds(3, 17));
    for number in (0..APPENDED).map(RowNumber) {
        assert_eq!(table.row(number), record.row(number));
    }
    for (lower, upper) in [(99, 99), (2, 2), (2, 99), (3, 17)] {
        rows::rebind(&mut table, bounds(lower, upper));
        assert_eq!(table.count(), 65_186);
        for (number, row) in rows::appended(bounds(lower, upper)).iter() {
            assert_eq!(table.row(RowNumber(APPENDED + number.0)), row);
        }
    }
}

#[test]
fn appended_wires_by_hand() {
    // 9 - 0, 9 - 3, 3 - 2, 5 - 3.
    let three = produced(2, 5, &line(3)).unwrap();
    assert_eq!(appended_text(&three), "1001011000000010000010");
    // 9 - 9, 9 - 9, 99 - 2, 99 - 99.
    let most = produced(2, 99, &line(99)).unwrap();
    assert_eq!(appended_text(&most), "0000000011000010000000");
    // 9 - 2, 9 - 0, 20 - 20, 20 - 20.
    let twenty = produced(20, 20, &line(20)).unwrap();
    assert_eq!(appended_text(&twenty), "0111100100000000000000");
}

#[test]
fn all_other_wires_are_those_of_the_record() {
    for axles in [2, 3, 47, 99] {
        let mut plain = vec![OLD; ASSIGNMENT];
        operations::produce(TWO, 504, &line(axles), &mut plain).unwrap();
        let assignment = produced(2, 99, &line(axles)).unwrap();
        assert!(assignment[..8 * 45_569] == plain[..8 * 45_569]);
    }
}

/// Whether all appended rows hold with these axles and these appended wires.
fn appended_hold(table: &RowTable, record: &[u8], appended: &[u8]) -> bool {
    let entries = |wire: usize| match wire {
        0 => 1,
        45_569.. => u64::from(appended[wire - 45_569]),
        _ => judge::bits::bit(record, wire - 513),
    };
    table.iter().all(|(_, row)| holds(row, entries))
}

#[test]
fn the_rows_hold_exactly_within_the_bounds() {
    let lines: Vec<Vec<u8>> = (0..100).map(line).collect();
    for (lower, upper) in all_bounds() {
        let table = rows::appended(bounds(lower, upper));
        let (low, high) = (lower as i32, upper as i32);
        for axles in [low - 1, low, high, high + 1, 0, 9, 10, 50, 99] {
            if axles > 99 {
                continue;
            }
            let bits = bits_of([9 - axles / 10, 9 - axles % 10, axles - low, high - axles]);
            let held = appended_hold(&table, &lines[axles as usize], &bits);
            let within = low <= axles && axles <= high;
            assert_eq!(held, within, "{axles} in {lower} to {upper}");
        }
    }
}

#[test]
fn no_other_bits_hold() {
    for (lower, upper, axles) in [(2, 5, 3), (2, 99, 99), (20, 20, 20), (30, 80, 47)] {
        let (table, record) = (rows::appended(bounds(lower, upper)), line(axles));
        let digits = Axles::of(&record).unwrap();
        let right = layout::appended(bounds(lower, upper), digits);
        // Each number by itself, in all its bits.
        for (first, count) in [(0, 4), (4, 4), (8, 7), (15, 7)] {
            for other in 0..1u8 << count {
                let mut bits = right;
                for place in 0..count {
                    bits[first + place] = other >> (count - 1 - place) & 1;
                }
                assert_eq!(appended_hold(&table, &record, &bits), bits == right);
            }
        }
    }
}
