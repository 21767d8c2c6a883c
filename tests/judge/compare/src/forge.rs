//! An assignment computed forward as the layout says, but with chosen wires
//! turned over on the way. All that is computed later uses the turned wires.
//! So only the rows that tie a turned wire to what came before it fail: a
//! check that leaves out one row is found out by a wire turned there.

use judge::bits::bit;
use judge::record::Record;
use judge::sm3::{self, Words};

use crate::claim::Claim;

struct Forge<'a> {
    wires: Vec<bool>,
    turned: &'a [usize],
}

impl Forge<'_> {
    /// Puts the next wire and returns what it became.
    fn bit(&mut self, bit: bool) -> bool {
        let bit = bit ^ self.turned.contains(&self.wires.len());
        self.wires.push(bit);
        bit
    }

    fn word(&mut self, word: u32) -> u32 {
        (0..32).fold(0, |value, position| {
            let bit = self.bit(word >> (31 - position) & 1 == 1);
            value << 1 | u32::from(bit)
        })
    }

    fn words(&mut self, words: &Words) -> Words {
        words.map(|word| self.word(word))
    }

    fn sum(&mut self, addends: &[u32]) -> u32 {
        let sum: u64 = addends.iter().map(|&addend| u64::from(addend)).sum();
        let word = self.word(sum as u32);
        self.bit(sum >> 33 & 1 == 1);
        self.bit(sum >> 32 & 1 == 1);
        word
    }

    fn round(&mut self, j: usize, state: &Words, w: u32, w_prime: u32) -> Words {
        let [a, b, c, d, e, f, g, h] = *state;
        let u = self.sum(&[a.rotate_left(12), e, sm3::turned_t(j)]);
        let ss1 = u.rotate_left(7);
        let ss2 = self.word(ss1 ^ a.rotate_left(12));
        let ff = self.word(sm3::ff(j, a, b, c));
        let gg = self.word(sm3::gg(j, e, f, g));
        let tt1 = self.sum(&[ff, d, ss2, w_prime]);
        let tt2 = self.sum(&[gg, h, ss1, w]);
        let p0_tt2 = self.word(sm3::p0(tt2));
        [tt1, a, b.rotate_left(9), c, p0_tt2, e, f.rotate_left(19), g]
    }

    fn block(&mut self, begin: &Words, block: &[u8]) -> Words {
        let mut w = Vec::with_capacity(68);
        for four in block.chunks_exact(4) {
            w.push(self.word(u32::from_be_bytes(four.try_into().expect("four bytes"))));
        }
        for j in 16..68 {
            let q = self.word(w[j - 16] ^ w[j - 9] ^ w[j - 3].rotate_left(15));
            let p1_q = self.word(sm3::p1(q));
            w.push(self.word(p1_q ^ w[j - 13].rotate_left(7) ^ w[j - 6]));
        }
        let w_prime: Vec<u32> = (0..64).map(|j| self.word(w[j] ^ w[j + 4])).collect();
        let mut state = *begin;
        for j in 0..64 {
            state = self.round(j, &state, w[j], w_prime[j]);
        }
        let result = std::array::from_fn(|k| state[k] ^ begin[k]);
        self.words(&result)
    }
}

/// The claim of a record with these wires turned over on the way. A turned
/// digest wire is turned in the digest too.
pub fn forge(record: &Record, turned: &[usize]) -> Claim {
    let mut forge = Forge {
        wires: Vec::with_capacity(record.length().wires()),
        turned,
    };
    // Wire 0, and room for the digest, which is known at the end.
    forge.wires.resize(257, true);
    let mut state = forge.words(&sm3::START);
    for block in sm3::pad(record).chunks_exact(64) {
        state = forge.block(&state, block);
    }
    let mut digest = sm3::words_to_bytes(&state);
    for &wire in turned.iter().filter(|wire| (1..=256).contains(*wire)) {
        digest[(wire - 1) / 8] ^= 0x80 >> ((wire - 1) % 8);
    }
    for number in 0..256 {
        forge.wires[1 + number] = bit(&digest, number) == 1;
    }
    let entry = |&wire: &bool| u64::from(wire).to_le_bytes();
    Claim {
        digest,
        assignment: forge.wires.iter().flat_map(entry).collect(),
        note: format!("wires {turned:?} turned over on the way"),
    }
}

#[cfg(test)]
mod tests {
    use super::*;

    #[test]
    fn with_no_wire_turned_it_is_the_layout() {
        let bytes: Vec<u8> = (0..1016).map(|k| (k * k) as u8).collect();
        for bits in [0, 3, 440, 447, 448, 513, 8120, 8127] {
            let record = Record::front(bits, &bytes).unwrap();
            let (forged, right) = (forge(&record, &[]), Claim::of(&record));
            assert_eq!(forged.digest, right.digest);
            assert!(forged.assignment == right.assignment, "{bits} bits");
        }
    }
}
