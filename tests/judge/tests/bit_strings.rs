//! Digests of bit strings, by a second SM3 that stands here alone. It keeps the
//! message as a list of bits, pads it as the standard says (so many zeros that
//! the bits so far and 64 more fill blocks) and knows no bytes. No other SM3 at
//! hand takes bits: OpenSSL, libgcrypt and the others take whole bytes.

mod support;

use judge::record::Record;
use judge::sm3;
use support::record;

/// Numbers 0 and 1, from the first bit.
type Bits = Vec<u8>;

/// So many bits of some bytes, the highest of a byte first.
fn bits_of(bytes: &[u8], count: usize) -> Bits {
    let of_byte = |byte: &u8| (0..8).map(|k| byte >> (7 - k) & 1).collect::<Bits>();
    bytes.iter().flat_map(of_byte).take(count).collect()
}

/// "1, then k zeros, k the least with l + 1 + k = 448 mod 512, then l in 64
/// bits" (5.2 of the standard).
fn padded(mut message: Bits) -> Bits {
    let count = message.len();
    message.push(1);
    while message.len() % 512 != 448 {
        message.push(0);
    }
    message.extend((0..64).rev().map(|place| (count >> place & 1) as u8));
    message
}

/// The word written twice, and 32 bits of that.
fn turned(x: u32, by: u32) -> u32 {
    let twice = u64::from(x) << 32 | u64::from(x);
    (twice >> (32 - by % 32)) as u32
}

fn expanded(block: &[u8]) -> Vec<u32> {
    let word = |bits: &[u8]| bits.iter().fold(0, |x, &bit| x << 1 | u32::from(bit));
    let mut w: Vec<u32> = block.chunks(32).map(word).collect();
    for j in 16..68 {
        let x = w[j - 16] ^ w[j - 9] ^ turned(w[j - 3], 15);
        let p1 = x ^ turned(x, 15) ^ turned(x, 23);
        w.push(p1 ^ turned(w[j - 13], 7) ^ w[j - 6]);
    }
    w
}

/// One block, as 5.3.3 of the standard writes it.
fn compressed(v: [u32; 8], block: &[u8]) -> [u32; 8] {
    let w = expanded(block);
    let [mut a, mut b, mut c, mut d, mut e, mut f, mut g, mut h] = v;
    for j in 0..64 {
        let t = if j < 16 { 0x79cc4519 } else { 0x7a879d8a };
        let sum = turned(a, 12)
            .wrapping_add(e)
            .wrapping_add(turned(t, j as u32));
        let (ss1, ss2) = (turned(sum, 7), turned(sum, 7) ^ turned(a, 12));
        let (ff, gg) = if j < 16 {
            (a ^ b ^ c, e ^ f ^ g)
        } else {
            (a & b | a & c | b & c, e & f | !e & g)
        };
        let tt1 = ff.wrapping_add(d).wrapping_add(ss2);
        let tt1 = tt1.wrapping_add(w[j] ^ w[j + 4]);
        let tt2 = gg.wrapping_add(h).wrapping_add(ss1).wrapping_add(w[j]);
        (d, c, b, a) = (c, turned(b, 9), a, tt1);
        (h, g, f) = (g, turned(f, 19), e);
        e = tt2 ^ turned(tt2, 9) ^ turned(tt2, 17);
    }
    let after = [a, b, c, d, e, f, g, h];
    std::array::from_fn(|k| after[k] ^ v[k])
}

/// The digest in hexadecimal.
fn digest(message: Bits) -> String {
    let mut v = [
        0x7380166f, 0x4914b2b9, 0x172442d7, 0xda8a0600, 0xa96f30bc, 0x163138aa, 0xe38dee4d,
        0xb0fb0e4e,
    ];
    for block in padded(message).chunks(512) {
        v = compressed(v, block);
    }
    v.iter().map(|word| format!("{word:08x}")).collect()
}

fn judged(record: &Record) -> String {
    let bytes = sm3::hash(record);
    bytes.iter().map(|byte| format!("{byte:02x}")).collect()
}

#[test]
fn the_second_sm3_has_the_examples_of_the_standard() {
    assert_eq!(
        digest(bits_of(b"abc", 24)),
        "66c7f0f462eeedd9d1f2d46bdc10e4e24167c4875cf2f7a2297da02b8f4ba8e0"
    );
    assert_eq!(
        digest(bits_of(&b"abcd".repeat(16), 512)),
        "debe9ff92275b8a138604889c18e5a4d6fdb70e5387e5765293dcba39c0c5732"
    );
}

#[test]
fn every_bit_count_has_the_digest_of_the_second_sm3() {
    for bits in 0..=8127 {
        for seed in [20, 21] {
            let record = record(bits, seed);
            let second = digest(bits_of(record.bytes(), bits as usize));
            assert_eq!(judged(&record), second, "{bits} bits");
        }
    }
}

/// Digests that a third SM3 printed, a script on strings of the digits 0 and 1
/// that gave OpenSSL's digests of whole bytes: the bits 0 and 1; the first bits
/// of "abc"; the first bits of the bytes k mod 251 for k from 0 on.
const PRINTED: [(&str, usize, &str); 10] = [
    (
        "zero",
        1,
        "c69de7b7f87f8211f8c0aeaccfd4fe05ecab364e9414040075aeb2046eb7f8ed",
    ),
    (
        "one",
        1,
        "985ffe9568be96328729b1c16631e9328d356432413d7556a646b9eefe479b9e",
    ),
    (
        "abc",
        23,
        "7d9776575c0d637e448a7999f627852f232f0d28cd9f323dff0c6546c5947dce",
    ),
    (
        "abc",
        22,
        "769027a7ffcbb965fbf5139a91c84740947f7f1beac747d16d8f8359050140f0",
    ),
    (
        "count",
        447,
        "1cb34f202cc66fc04509125c3e66b0e13c39b22acb3a93f9894fb04d53f70350",
    ),
    (
        "count",
        449,
        "b90ebea09775ce685ca2e1d7d6e44365a5d4eacd24dc2883d038d7f99567abce",
    ),
    (
        "count",
        511,
        "f15bb146ed5199e2382a01eda3f2f1c61351abdb9bfa84e1ba41ff3c44078c61",
    ),
    (
        "count",
        513,
        "edefc06bc297bbe0044a76687863a7e5b94c393e14023167f2f34936df432b4a",
    ),
    (
        "count",
        4093,
        "653ffe403507456824d6fd4cc892ad89276a1957db8545514e0e5a4fb0a9d5ff",
    ),
    (
        "count",
        8127,
        "8fc79a04667ee0816a34ef8bb9a6634c4226e5fb0741be8305ff74c8a4073174",
    ),
];

#[test]
fn digests_that_a_third_sm3_printed() {
    for (name, bits, expected) in PRINTED {
        let bytes: Vec<u8> = match name {
            "zero" => vec![0x00],
            "one" => vec![0x80],
            "abc" => b"abc".to_vec(),
            _ => (0..1016).map(|k| (k % 251) as u8).collect(),
        };
        let record = Record::front(bits as u64, &bytes).unwrap();
        assert_eq!(judged(&record), expected, "{bits} bits of {name}");
    }
}

#[test]
fn the_same_bits_at_another_length_have_another_digest() {
    // Zeros, and a bit 1 with zeros: the bytes that hold them are the same.
    for byte in [0x00, 0x80] {
        let digests: Vec<String> = (1..=8)
            .map(|bits| judged(&Record::new(bits, &[byte]).unwrap()))
            .collect();
        for (k, one) in digests.iter().enumerate() {
            assert!(!digests[k + 1..].contains(one), "{} bits", k + 1);
        }
    }
}
