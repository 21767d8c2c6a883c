//! What holds of every row of a length.

mod support;

use judge::forms::{Row, Term};
use judge::record::Record;
use judge::{layout, rows};
use support::{holds, in_range, length, record, LENGTHS};

#[test]
fn the_walk_agrees_with_the_stated_counts() {
    // One length for each number of blocks, 1 to 16.
    for blocks in 1..=16 {
        let length = length(512 * blocks - 65);
        assert_eq!(length.blocks() as u64, blocks);
        let walked = rows::walk(length);
        assert_eq!(walked.wires, 513 + 22_528 * length.blocks());
        assert_eq!(walked.table.count(), 512 + 32_320 * length.blocks());
    }
}

#[test]
fn layouts_have_the_stated_wires() {
    // A step that is prime to 8, and the longest.
    for bits in (0..=8127).step_by(11).chain([8127]) {
        let wires = layout::wires(&record(bits, 2));
        assert_eq!(wires.len(), length(bits).wires());
        assert!(wires.iter().all(|&wire| wire <= 1));
    }
}

#[test]
fn every_row_is_satisfied_by_the_layout() {
    for bits in LENGTHS {
        let table = rows::rows(length(bits));
        assert_eq!(table.count(), length(bits).rows());
        let [zeros, ones] = [0, 0xff].map(|byte| Record::front(bits, &[byte; 1016]).unwrap());
        for record in [record(bits, 7), zeros, ones] {
            let wires = layout::wires(&record);
            let entries = |wire: usize| u64::from(wires[wire]);
            for (number, row) in table.iter() {
                assert!(holds(row, entries), "{bits} bits, row {number:?}");
            }
        }
    }
}

fn well_formed(sum: &[Term], wires: usize) -> bool {
    sum.windows(2).all(|two| two[0].wire < two[1].wire)
        && sum.iter().all(in_range)
        && sum.iter().all(|term| (term.wire.0 as usize) < wires)
}

#[test]
fn terms_are_in_order_and_in_range() {
    for bits in LENGTHS {
        let table = rows::rows(length(bits));
        let wires = length(bits).wires();
        for (number, row) in table.iter() {
            let sums = [row.a, row.b, row.c];
            assert!(
                sums.iter().all(|sum| well_formed(sum, wires)),
                "{bits} bits, row {number:?}"
            );
        }
    }
}

#[test]
fn no_row_has_over_163_terms() {
    for bits in LENGTHS {
        let table = rows::rows(length(bits));
        let most = table.iter().map(|(_, row): (_, Row<'_>)| row.terms()).max();
        assert_eq!(most, Some(163), "{bits} bits");
    }
}

#[test]
fn every_wire_stands_in_a_row() {
    let table = rows::rows(length(449));
    let mut seen = vec![false; length(449).wires()];
    for (_, row) in table.iter() {
        for term in row.a.iter().chain(row.b).chain(row.c) {
            seen[term.wire.0 as usize] = true;
        }
    }
    assert!(seen.into_iter().all(|seen| seen));
}
