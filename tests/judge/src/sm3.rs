//! "SM3 as used", sentence by sentence.
//!
//! A block's compression keeps every word that the paper names, so that the
//! layout can lay the words out without computing anything a second time.

use crate::record::Record;

pub type Words = [u32; 8];

/// "Start words (hexadecimal)".
pub const START: Words = [
    0x7380166f, 0x4914b2b9, 0x172442d7, 0xda8a0600, 0xa96f30bc, 0x163138aa, 0xe38dee4d, 0xb0fb0e4e,
];

/// "T is 79cc4519 in rounds 0 to 15 and 7a879d8a in 16 to 63", turned left
/// by j mod 32 as the round uses it.
pub fn turned_t(round: usize) -> u32 {
    let t: u32 = if round < 16 { 0x79cc4519 } else { 0x7a879d8a };
    t.rotate_left((round % 32) as u32)
}

/// "P0(X) = X xor X<<<9 xor X<<<17."
pub fn p0(x: u32) -> u32 {
    x ^ x.rotate_left(9) ^ x.rotate_left(17)
}

/// "P1(X) = X xor X<<<15 xor X<<<23."
pub fn p1(x: u32) -> u32 {
    x ^ x.rotate_left(15) ^ x.rotate_left(23)
}

/// The record with its padding: "one bit 1, zeros, then the bit length in 64
/// bits, highest first", which fills n blocks of 64 bytes. The bit 1 follows
/// the last record bit at once, in the same byte where that has room.
pub fn pad(record: &Record) -> Vec<u8> {
    let (bits, blocks) = (record.bits(), record.length().blocks());
    let mut message = record.bytes().to_vec();
    message.resize(64 * blocks - 8, 0);
    message[bits / 8] |= 0x80 >> (bits % 8);
    message.extend_from_slice(&(bits as u64).to_be_bytes());
    message
}

/// A sum with nothing dropped, s, in two parts.
#[derive(Clone, Copy, Debug)]
pub struct Sum {
    /// "Additions drop what passes 2^32": s modulo 2^32.
    pub word: u32,
    /// floor(s / 2^32), a number of two bits.
    pub carries: u32,
}

impl Sum {
    fn of(addends: &[u32]) -> Sum {
        let s: u64 = addends.iter().map(|&addend| u64::from(addend)).sum();
        Sum {
            word: s as u32,
            carries: (s >> 32) as u32,
        }
    }
}

/// The words that a block computes before its rounds.
#[derive(Clone, Debug)]
pub struct Expansion {
    /// q and P1(q) for j = 16 to 67; entry 0 belongs to j = 16.
    pub q: Vec<u32>,
    pub p1_q: Vec<u32>,
    /// W0 to W67 and W'0 to W'63.
    pub w: Vec<u32>,
    pub w_prime: Vec<u32>,
}

/// The words that one round computes.
#[derive(Clone, Debug)]
pub struct Round {
    pub u: Sum,
    pub ss2: u32,
    pub ff: u32,
    pub gg: u32,
    pub tt1: Sum,
    pub tt2: Sum,
    pub p0_tt2: u32,
}

/// All words of one block.
#[derive(Clone, Debug)]
pub struct Block {
    pub expansion: Expansion,
    pub rounds: Vec<Round>,
    pub result: Words,
}

/// "W0 to W15 are the block", the highest byte of a word first.
fn block_words(block: &[u8]) -> Vec<u32> {
    let word = |four: &[u8]| u32::from_be_bytes([four[0], four[1], four[2], four[3]]);
    block.chunks_exact(4).map(word).collect()
}

fn expand(block: &[u8]) -> Expansion {
    let mut w = block_words(block);
    let (mut all_q, mut all_p1_q) = (Vec::new(), Vec::new());
    for j in 16..68 {
        // "q = W(j-16) xor W(j-9) xor W(j-3)<<<15"
        let q = w[j - 16] ^ w[j - 9] ^ w[j - 3].rotate_left(15);
        // "Wj = P1(q) xor W(j-13)<<<7 xor W(j-6)"
        let p1_q = p1(q);
        w.push(p1_q ^ w[j - 13].rotate_left(7) ^ w[j - 6]);
        all_q.push(q);
        all_p1_q.push(p1_q);
    }
    // "For j = 0 to 63: W'j = Wj xor W(j+4)."
    let w_prime = (0..64).map(|j| w[j] ^ w[j + 4]).collect();
    Expansion {
        q: all_q,
        p1_q: all_p1_q,
        w,
        w_prime,
    }
}

/// "FF of A, B, C: xor of three in rounds 0 to 15; then FF is the majority."
pub fn ff(round: usize, a: u32, b: u32, c: u32) -> u32 {
    if round < 16 {
        a ^ b ^ c
    } else {
        (a & b) | (a & c) | (b & c)
    }
}

/// "GG of E, F, G: xor of three in rounds 0 to 15; then GG picks F where E
/// is 1, else G."
pub fn gg(round: usize, e: u32, f: u32, g: u32) -> u32 {
    if round < 16 {
        e ^ f ^ g
    } else {
        (e & f) | (!e & g)
    }
}

/// "Round j on A to H": the words it computes from the state.
fn compute_round(j: usize, state: &Words, w: u32, w_prime: u32) -> Round {
    let [a, b, c, d, e, f, g, h] = *state;
    let u = Sum::of(&[a.rotate_left(12), e, turned_t(j)]);
    let ss1 = u.word.rotate_left(7);
    let ss2 = ss1 ^ a.rotate_left(12);
    let (ff, gg) = (ff(j, a, b, c), gg(j, e, f, g));
    let tt1 = Sum::of(&[ff, d, ss2, w_prime]);
    let tt2 = Sum::of(&[gg, h, ss1, w]);
    Round {
        u,
        ss2,
        ff,
        gg,
        tt1,
        tt2,
        p0_tt2: p0(tt2.word),
    }
}

/// "Then D = C, C = B<<<9, B = A, A = TT1, H = G, G = F<<<19, F = E,
/// E = P0(TT2)."
fn next_state(state: &Words, round: &Round) -> Words {
    let [a, b, c, _, e, f, g, _] = *state;
    [
        round.tt1.word,
        a,
        b.rotate_left(9),
        c,
        round.p0_tt2,
        e,
        f.rotate_left(19),
        g,
    ]
}

/// One block of 64 bytes, begun with the given words.
pub fn compress(begin: &Words, block: &[u8]) -> Block {
    let expansion = expand(block);
    let mut state = *begin;
    let mut rounds = Vec::with_capacity(64);
    for j in 0..64 {
        let round = compute_round(j, &state, expansion.w[j], expansion.w_prime[j]);
        state = next_state(&state, &round);
        rounds.push(round);
    }
    // "The block's result is A to H xor the words it began with."
    let result = std::array::from_fn(|k| state[k] ^ begin[k]);
    Block {
        expansion,
        rounds,
        result,
    }
}

/// All blocks of a padded message. "Block 0 begins with the start words, each
/// later block with the result of the one before."
pub fn blocks(message: &[u8]) -> Vec<Block> {
    let mut begin = START;
    let mut done = Vec::new();
    for block in message.chunks_exact(64) {
        let computed = compress(&begin, block);
        begin = computed.result;
        done.push(computed);
    }
    done
}

/// Words as bytes, "the highest byte of a word first".
pub fn words_to_bytes(words: &Words) -> [u8; 32] {
    std::array::from_fn(|k| words[k / 4].to_be_bytes()[k % 4])
}

/// The digest of a record: "the last result is the digest".
pub fn hash(record: &Record) -> [u8; 32] {
    let mut state = START;
    for block in pad(record).chunks_exact(64) {
        state = compress(&state, block).result;
    }
    words_to_bytes(&state)
}

#[cfg(test)]
mod tests {
    use super::*;
    use crate::bits::bit;

    fn hex(bytes: &[u8]) -> String {
        bytes.iter().map(|byte| format!("{byte:02x}")).collect()
    }

    #[test]
    fn first_example_of_the_standard() {
        let expected = "66c7f0f462eeedd9d1f2d46bdc10e4e24167c4875cf2f7a2297da02b8f4ba8e0";
        let record = Record::new(24, b"abc").unwrap();
        assert_eq!(hex(&hash(&record)), expected);
    }

    #[test]
    fn second_example_of_the_standard() {
        let expected = "debe9ff92275b8a138604889c18e5a4d6fdb70e5387e5765293dcba39c0c5732";
        let record = Record::new(512, &b"abcd".repeat(16)).unwrap();
        assert_eq!(hex(&hash(&record)), expected);
    }

    /// All bits of a message, from the first.
    fn bits_of(message: &[u8]) -> Vec<u64> {
        (0..8 * message.len()).map(|k| bit(message, k)).collect()
    }

    #[test]
    fn padding_fills_whole_blocks() {
        for bits in 0..=8127 {
            let message = pad(&Record::front(bits as u64, &[0xff; 1016]).unwrap());
            assert_eq!(message.len(), 64 * ((bits + 64) / 512 + 1));
            let end = message.len() - 8;
            assert_eq!(message[end..], (bits as u64).to_be_bytes());
            let before = bits_of(&message[..end]);
            assert!(before[..bits].iter().all(|&bit| bit == 1));
            assert_eq!(before[bits], 1);
            assert!(before[bits + 1..].iter().all(|&bit| bit == 0));
            // Shorter by a block, the padding would not have found room.
            assert!(8 * message.len() < bits + 1 + 64 + 512);
        }
    }

    #[test]
    fn padding_begins_inside_a_byte() {
        let message = pad(&Record::new(3, &[0xa0]).unwrap());
        assert_eq!(message[..2], [0xb0, 0x00]);
        assert_eq!(message[56..], [0, 0, 0, 0, 0, 0, 0, 3]);
        let message = pad(&Record::new(7, &[0x00]).unwrap());
        assert_eq!(message[..2], [0x01, 0x00]);
        let message = pad(&Record::new(8, &[0x00]).unwrap());
        assert_eq!(message[..2], [0x00, 0x80]);
    }
}
