//! "The partner's two blocks": refusals 21 and 22 in their places, and results that
//! do not ask for the limit. All expectations are written by hand.

mod support;

use judge::axles;
use judge::check::{check, check_with};
use judge::field::P;
use judge::forms::{RowNumber, Wire};
use judge::limit::{self, SIXTEEN, TWO};
use judge::operations::{digest, produce, row, Counts, ROW_BYTES};
use judge::packing::{pack, unpack};
use judge::passage;
use judge::refusal::Refusal;
use judge::{layout, listing, packed, rows, sm3};
use support::{length, record, set_entry, untouched, OLD};

/// The longest record of so many blocks: "blocks are floor((bits + 64) / 512) + 1".
const LONGEST: [(u64, u64); 16] = [
    (1, 447),
    (2, 959),
    (3, 1471),
    (4, 1983),
    (5, 2495),
    (6, 3007),
    (7, 3519),
    (8, 4031),
    (9, 4543),
    (10, 5055),
    (11, 5567),
    (12, 6079),
    (13, 6591),
    (14, 7103),
    (15, 7615),
    (16, 8127),
];

/// Limits outside 1 to 16. Some would be inside after losing upper bits.
const OUTSIDE: [u64; 10] = [
    0,
    17,
    18,
    258,
    65_538,
    4_294_967_296,
    4_294_967_298,
    4_294_967_312,
    1 << 63,
    u64::MAX,
];

/// The bytes of an assignment of one block and of two, and of both packed.
const ENTRIES: [usize; 2] = [184_328, 364_552];
const PACKED: [usize; 2] = [2_881, 5_697];

fn number(answer: Result<(), Refusal>) -> u8 {
    answer.map_or_else(Refusal::number, |()| 0)
}

/// What digest, produce, row, check, pack and unpack refuse when these bytes are
/// lent for a record and nothing else: 3, 4 and 5 have their faults in all.
fn six(limit: u64, bits: u64, record: &[u8]) -> [u8; 6] {
    [
        number(digest(limit, bits, record, &mut [])),
        number(produce(limit, bits, record, &mut [])),
        number(row(limit, bits, u64::MAX, &mut []).map(|_| ())),
        number(check(limit, bits, &[], &[])),
        number(pack(limit, bits, &[], &mut [])),
        number(unpack(limit, bits, &[], &mut [])),
    ]
}

/// The same where the length is allowed: short buffers, a row past the count, a
/// digest of 0 bytes.
const ALLOWED: [u8; 6] = [4, 4, 3, 5, 4, 4];

/// So many zeros as a record of that many bits has.
fn zeros(bits: u64) -> Vec<u8> {
    vec![0; bits.div_ceil(8) as usize]
}

#[test]
fn the_two_refusals_have_their_numbers() {
    assert_eq!(Refusal::Limit.number(), 21);
    assert_eq!(Refusal::TooManyBlocks.number(), 22);
    assert_eq!((TWO, SIXTEEN), (2, 16));
}

#[test]
fn a_limit_allows_the_lengths_of_so_many_blocks() {
    for (limit, longest) in LONGEST {
        for bits in [0, 1, 446, 447, longest - 1, longest] {
            assert_eq!(six(limit, bits, &zeros(bits)), ALLOWED, "{limit}: {bits}");
        }
        // One bit more needs one block more.
        let over = if limit == 16 { 2 } else { 22 };
        let bits = longest + 1;
        assert_eq!(six(limit, bits, &zeros(bits)), [over; 6], "{limit}: {bits}");
    }
}

#[test]
fn every_length_under_every_limit() {
    for (limit, longest) in LONGEST {
        for bits in 0..=8127 {
            let must = if bits <= longest { 0 } else { 22 };
            let answer = limit::length(limit, bits).map(|length| length.bits());
            assert_eq!(number(answer.map(|_| ())), must, "{limit}: {bits}");
            assert!(answer.is_err() || answer == Ok(bits as usize));
        }
    }
}

#[test]
fn limits_outside_1_to_16_are_refused_before_anything_else() {
    for limit in OUTSIDE {
        for bits in [0, 447, 448, 959, 960, 8127, 8128, 8129, u64::MAX] {
            for bytes in [0, 1, 56, 120, 1016, 1017] {
                assert_eq!(six(limit, bits, &vec![0xff; bytes]), [21; 6], "{limit}");
            }
        }
    }
}

#[test]
fn lengths_above_8127_are_refusal_2_under_every_limit() {
    for limit in 1..=16 {
        for bits in [8128, 8129, 8192, 1 << 32, (1 << 32) + 8, 1 << 63, u64::MAX] {
            for record in [&[][..], &[0xff], &[0; 1016]] {
                assert_eq!(six(limit, bits, record), [2; 6], "{limit}: {bits}");
            }
        }
    }
}

#[test]
fn the_record_s_own_refusals_come_before_22() {
    // 961 bits need three blocks and 121 bytes, of which the last has seven spare
    // bits.
    for limit in [1, 2] {
        for bytes in [0, 1, 120, 122, 242] {
            let expected = [13, 13, 22, 22, 22, 22];
            assert_eq!(six(limit, 961, &vec![0x00; bytes]), expected);
            assert_eq!(six(limit, 961, &vec![0xff; bytes]), expected);
        }
        for last in [0x01, 0x40, 0x7f, 0xff] {
            let record = [vec![0; 120], vec![last]].concat();
            assert_eq!(six(limit, 961, &record), [14, 14, 22, 22, 22, 22]);
        }
        let record = [vec![0xff; 120], vec![0x80]].concat();
        assert_eq!(six(limit, 961, &record), [22; 6]);
    }
    let record = [vec![0xff; 120], vec![0x80]].concat();
    assert_eq!(six(3, 961, &record), ALLOWED);
    assert_eq!(six(3, 961, &record[1..]), [13, 13, 3, 5, 4, 4]);
    assert_eq!(six(3, 961, &[0xff; 121]), [14, 14, 3, 5, 4, 4]);
}

#[test]
fn two_refuses_by_22_or_answers_as_sixteen() {
    for bits in (0..=8200).chain([1 << 32, u64::MAX]) {
        for byte in [0x00, 0xff] {
            let record = vec![byte; bits.min(8200).div_ceil(8) as usize];
            let (two, sixteen) = (six(TWO, bits, &record), six(SIXTEEN, bits, &record));
            for (two, sixteen) in two.into_iter().zip(sixteen) {
                let over = (960..=8127).contains(&bits) && ![13, 14].contains(&sixteen);
                assert_eq!(two, if over { 22 } else { sixteen }, "{bits} bits");
            }
        }
    }
}

#[test]
fn digest_and_produce_refuse_in_the_order_21_2_13_14_22_4() {
    let (wrong, spare, right) = ([0xff; 57], [0xff; 58], [vec![0xff; 57], vec![0x80]]);
    let (mut short, mut entries) = ([OLD; 31], vec![OLD; ENTRIES[1] - 1]);
    let (mut digests, mut produced) = (Vec::new(), Vec::new());
    let right = right.concat();
    // Everything wrong at once, then one thing mended after another. 457 bits are
    // 58 bytes and two blocks.
    let mended: [(u64, u64, &[u8]); 6] = [
        (0, 8128, &wrong),
        (1, 8128, &wrong),
        (1, 457, &wrong),
        (1, 457, &spare),
        (1, 457, &right),
        (2, 457, &right),
    ];
    for (limit, bits, record) in mended {
        digests.push(number(digest(limit, bits, record, &mut short)));
        produced.push(number(produce(limit, bits, record, &mut entries)));
    }
    assert_eq!(digests, [21, 2, 13, 14, 22, 4]);
    assert_eq!(produced, [21, 2, 13, 14, 22, 4]);
    assert!(untouched(&short) && untouched(&entries));
}

#[test]
fn row_refuses_in_the_order_21_2_22_3_4() {
    let mut short = [OLD; ROW_BYTES - 1];
    // Two blocks have 65,152 rows, one has 32,832.
    let mended = [
        (17, 8128, 65_152),
        (1, 8128, 65_152),
        (1, 448, 65_152),
        (2, 448, 65_152),
        (2, 448, 65_151),
    ];
    let numbers = mended.map(|(limit, bits, at)| {
        let answer = row(limit, bits, at, &mut short);
        number(answer.map(|_| ()))
    });
    assert_eq!(numbers, [21, 2, 22, 3, 4]);
    // A row that one block has too is no less refused.
    let answer = row(1, 448, 0, &mut [OLD; ROW_BYTES]);
    assert_eq!(answer, Err(Refusal::TooManyBlocks));
    assert!(untouched(&short));
}

#[test]
fn check_refuses_in_the_order_21_2_22_5_6_20_7_8_9() {
    let record = record(448, 12);
    let right = layout::assignment(&record);
    let digest = sm3::hash(&record);
    let mut damaged = right.clone();
    set_entry(&mut damaged, 513, 2);
    let nine = damaged.clone();
    set_entry(&mut damaged, 256, 2);
    let eight = damaged.clone();
    set_entry(&mut damaged, 0, 0);
    let seven = damaged.clone();
    set_entry(&mut damaged, 45_568, P);
    let short = &damaged[..damaged.len() - 1];
    let answers = [
        check(17, 8128, short, &digest[1..]),
        check(1, 8128, short, &digest[1..]),
        check(1, 448, short, &digest[1..]),
        check(2, 448, short, &digest[1..]),
        check(2, 448, short, &digest),
        check(2, 448, &damaged, &digest),
        check(2, 448, &seven, &digest),
        check(2, 448, &eight, &digest),
        check(2, 448, &nine, &digest),
        check(2, 448, &right, &digest),
    ];
    assert_eq!(answers.map(number), [21, 2, 22, 5, 6, 20, 7, 8, 9, 0]);
    assert_eq!(answers[5], Err(Refusal::NotBelowPrime(Wire(45_568))));
    assert_eq!(answers[8], Err(Refusal::Unsatisfied(RowNumber(256))));
    // The assignment that is right for the length, under too low a limit.
    assert_eq!(number(check(1, 448, &right, &digest)), 22);
}

#[test]
fn pack_refuses_in_the_order_21_2_22_4_6_20_10() {
    let mut damaged = vec![0; ENTRIES[1]];
    set_entry(&mut damaged, 9, 2);
    let ten = damaged.clone();
    set_entry(&mut damaged, 45_568, P);
    let short = &damaged[1..];
    let (mut small, mut exact) = (vec![OLD; PACKED[1] - 1], vec![OLD; PACKED[1]]);
    let answers = [
        pack(17, 8128, short, &mut small),
        pack(1, 8128, short, &mut small),
        pack(1, 448, short, &mut small),
        pack(2, 448, short, &mut small),
        pack(2, 448, short, &mut exact),
        pack(2, 448, &damaged, &mut exact),
        pack(2, 448, &ten, &mut exact),
        pack(1, 448, &vec![0; ENTRIES[1]], &mut exact),
    ];
    assert_eq!(answers.map(number), [21, 2, 22, 4, 6, 20, 10, 22]);
    assert!(untouched(&small) && untouched(&exact));
}

#[test]
fn unpack_refuses_in_the_order_21_2_22_4_11_12() {
    let spare = vec![0xff; PACKED[1]];
    let few = &spare[1..];
    let (mut small, mut exact) = (vec![OLD; ENTRIES[1] - 1], vec![OLD; ENTRIES[1]]);
    let answers = [
        unpack(17, 8128, few, &mut small),
        unpack(1, 8128, few, &mut small),
        unpack(1, 448, few, &mut small),
        unpack(2, 448, few, &mut small),
        unpack(2, 448, few, &mut exact),
        unpack(2, 448, &spare, &mut exact),
        unpack(1, 448, &vec![0; PACKED[1]], &mut exact),
    ];
    assert_eq!(answers.map(number), [21, 2, 22, 4, 11, 12, 22]);
    assert!(untouched(&small) && untouched(&exact));
}

/// What digest, produce, pack and unpack write of a record under a limit.
fn written(limit: u64, bits: u64) -> [Vec<u8>; 4] {
    let (record, blocks) = (record(bits, 4), length(bits).blocks());
    let mut digested = vec![OLD; 40];
    digest(limit, bits, record.bytes(), &mut digested).unwrap();
    let mut produced = vec![OLD; ENTRIES[blocks - 1]];
    produce(limit, bits, record.bytes(), &mut produced).unwrap();
    let mut small = vec![OLD; PACKED[blocks - 1] + 3];
    pack(limit, bits, &produced, &mut small).unwrap();
    let mut wide = vec![OLD; ENTRIES[blocks - 1] + 3];
    unpack(limit, bits, &small[..PACKED[blocks - 1]], &mut wide).unwrap();
    [digested, produced, small, wide]
}

#[test]
fn what_is_written_does_not_depend_on_the_limit() {
    for bits in [0, 1, 447] {
        assert!((2..=16).all(|limit| written(limit, bits) == written(1, bits)));
    }
    for bits in [448, 504, 959] {
        assert!((3..=16).all(|limit| written(limit, bits) == written(2, bits)));
    }
}

#[test]
fn a_row_does_not_depend_on_the_limit() {
    // "Row 256 fixes wire 513 to 1 at L 0"; the last row of 448 bits is that of
    // wires 256 and 45,568.
    let one = [1, 0, 0, 0, 0, 0, 0, 0];
    let term = |wire: u32, coefficient: [u8; 8]| [&wire.to_le_bytes()[..], &coefficient].concat();
    let fixed = [term(513, one), term(0, one), term(0, one)].concat();
    let last = [term(256, one), term(45_568, [0xff; 8]), term(0, one)].concat();
    for limit in [1, 2, 3, 15, 16] {
        let mut buffer = [OLD; ROW_BYTES];
        let answer = row(limit, 0, 256, &mut buffer);
        assert_eq!(answer, Ok(Counts { a: 1, b: 1, c: 1 }));
        assert_eq!(buffer[..36], fixed);
        assert!(untouched(&buffer[36..]));
    }
    for limit in [2, 3, 15, 16] {
        let mut buffer = [OLD; ROW_BYTES];
        let answer = row(limit, 448, 65_151, &mut buffer);
        assert_eq!(answer, Ok(Counts { a: 2, b: 1, c: 0 }));
        assert_eq!(buffer[..36], last);
    }
}

#[test]
fn the_check_under_a_limit_is_that_of_the_rows() {
    let record = record(959, 21);
    let (digest, right) = (sm3::hash(&record), layout::assignment(&record));
    let table = rows::rows(length(959));
    for (wire, value) in [(0, 1), (0, 2), (17, 3), (700, P), (40_000, 7)] {
        let mut assignment = right.clone();
        set_entry(&mut assignment, wire, value);
        let known = check_with(&table, length(959), &assignment, &digest);
        for limit in [2, 9, 16] {
            assert_eq!(check(limit, 959, &assignment, &digest), known);
        }
        let refused = check(1, 959, &assignment, &digest);
        assert_eq!(refused, Err(Refusal::TooManyBlocks));
    }
}

#[test]
fn passages_and_axles_fit_two_blocks() {
    let line = b"042,1700000000,3,02,AB12345---,0123456789abcdef0123456789abcdef";
    let (mut digest, mut assignment) = ([0; 32], vec![0; ENTRIES[1]]);
    assert_eq!(passage::seal(line, &mut digest, &mut assignment), Ok(()));
    assert_eq!(passage::check(&digest, &assignment), Ok(()));
    assert_eq!(check(TWO, 504, &assignment, &digest), Ok(()));
    assert_eq!(check(SIXTEEN, 504, &assignment, &digest), Ok(()));
    let mut billed = vec![0; ENTRIES[1] + 8 * 22];
    assert_eq!(axles::produce(2, 5, line, &mut billed), Ok(()));
    assert_eq!(axles::check(2, 5, &digest, &billed), Ok(()));
    assert!(billed[..ENTRIES[1]] == assignment[..]);
}

#[test]
fn the_programs_use_sixteen() {
    assert_eq!(
        listing::listing(b"8127,517632,0\n"),
        "row,part,wire,coefficient\n"
    );
    assert_eq!(listing::listing(b"8128,0,0\n"), "refused,2\n");
    // No packed bytes are behind this line: 11, and no 22.
    let line = |bits: u64| format!("{bits},{}\n", "0".repeat(64)).into_bytes();
    assert_eq!(packed::answer(&line(8127)), "refused,11\n");
    assert_eq!(packed::answer(&line(8128)), "refused,2\n");
}
