//! All rows of a length. The blocks are walked in wire order: each word takes
//! the next free wires and puts its rows behind the rows already there. So
//! wire and row numbers come out by counting alone.

use crate::forms::{RowTable, Wire, Word};
use crate::length::Length;
use crate::sm3;

type WireWords = [Word; 8];

/// A turned word "is the same wires in another order": `<<<` turns left.
fn turn(word: &Word, by: usize) -> Word {
    std::array::from_fn(|position| word[(position + by) % 32])
}

/// A bit of the message: `None` for a bit of the record, else its value by
/// "one bit 1, zeros, then the bit length in 64 bits, highest first".
fn padding_bit(length: Length, bit: usize) -> Option<bool> {
    let record_bits = length.bits();
    let length_field = 512 * length.blocks() - 64;
    if bit < record_bits {
        None
    } else if bit < length_field {
        Some(bit == record_bits)
    } else {
        Some(record_bits >> (63 - (bit - length_field)) & 1 == 1)
    }
}

/// The walk: rows so far and the next wire that is still free.
struct Walk {
    table: RowTable,
    next: u32,
}

impl Walk {
    fn wire(&mut self) -> Wire {
        let wire = Wire(self.next);
        self.next += 1;
        wire
    }

    fn word(&mut self) -> Word {
        std::array::from_fn(|_| self.wire())
    }

    fn words(&mut self) -> WireWords {
        std::array::from_fn(|_| self.word())
    }

    // "Word rows go position by position from the highest bit."

    fn xor_of_two(&mut self, x: &Word, y: &Word) -> Word {
        let r = self.word();
        for i in 0..32 {
            self.table.xor_of_two(x[i], y[i], r[i]);
        }
        r
    }

    fn xor_of_three(&mut self, x: &Word, y: &Word, z: &Word) -> Word {
        let r = self.word();
        for i in 0..32 {
            self.table.xor_of_three(x[i], y[i], z[i], r[i]);
        }
        r
    }

    fn majority(&mut self, x: &Word, y: &Word, z: &Word) -> Word {
        let r = self.word();
        for i in 0..32 {
            self.table.majority(x[i], y[i], z[i], r[i]);
        }
        r
    }

    fn choice(&mut self, x: &Word, y: &Word, z: &Word) -> Word {
        let r = self.word();
        for i in 0..32 {
            self.table.choice(x[i], y[i], z[i], r[i]);
        }
        r
    }

    fn sum(&mut self, addends: &[Word], constant: u32) -> Word {
        let result = self.word();
        let carries = [self.wire(), self.wire()];
        self.table.sum(addends, constant, &result, carries);
        result
    }

    /// "256 fixed start rows".
    fn start_words(&mut self) -> WireWords {
        let start = self.words();
        for (wires, word) in start.iter().zip(sm3::START) {
            for (position, &wire) in wires.iter().enumerate() {
                self.table.fixed(wire, word >> (31 - position) & 1 == 1);
            }
        }
        start
    }

    /// "512 block bits": "its record wires by bit rows and its padding wires
    /// by fixed rows".
    fn block_bits(&mut self, length: Length, block: usize) -> Vec<Word> {
        let words: Vec<Word> = (0..16).map(|_| self.word()).collect();
        for (bit, &wire) in words.iter().flatten().enumerate() {
            match padding_bit(length, 512 * block + bit) {
                None => self.table.bit(wire),
                Some(value) => self.table.fixed(wire, value),
            }
        }
        words
    }

    /// "For each j from 16 to 67: q, P1(q), Wj." W0 to W15 come in, W0 to
    /// W67 go out.
    fn expand(&mut self, mut w: Vec<Word>) -> Vec<Word> {
        for j in 16..68 {
            let q = self.xor_of_three(&w[j - 16], &w[j - 9], &turn(&w[j - 3], 15));
            let p1_q = self.xor_of_three(&q, &turn(&q, 15), &turn(&q, 23));
            w.push(self.xor_of_three(&p1_q, &turn(&w[j - 13], 7), &w[j - 6]));
        }
        w
    }

    /// FF: "xor of three in rounds 0 to 15; then FF is the majority".
    fn ff(&mut self, j: usize, a: &Word, b: &Word, c: &Word) -> Word {
        if j < 16 {
            self.xor_of_three(a, b, c)
        } else {
            self.majority(a, b, c)
        }
    }

    /// GG: "xor of three in rounds 0 to 15; then GG picks F where E is 1,
    /// else G".
    fn gg(&mut self, j: usize, e: &Word, f: &Word, g: &Word) -> Word {
        if j < 16 {
            self.xor_of_three(e, f, g)
        } else {
            self.choice(e, f, g)
        }
    }

    /// "For each round: u and its 2 carries, SS2, FF, GG, TT1 and 2 carries,
    /// TT2 and 2 carries, P0(TT2)." Returns A to H after the round.
    fn round(&mut self, j: usize, state: &WireWords, w: &Word, w_prime: &Word) -> WireWords {
        let [a, b, c, d, e, f, g, h] = *state;
        let a_12 = turn(&a, 12);
        let u = self.sum(&[a_12, e], sm3::turned_t(j));
        let ss1 = turn(&u, 7);
        let ss2 = self.xor_of_two(&ss1, &a_12);
        let ff = self.ff(j, &a, &b, &c);
        let gg = self.gg(j, &e, &f, &g);
        let tt1 = self.sum(&[ff, d, ss2, *w_prime], 0);
        let tt2 = self.sum(&[gg, h, ss1, *w], 0);
        let p0_tt2 = self.xor_of_three(&tt2, &turn(&tt2, 9), &turn(&tt2, 17));
        [tt1, a, turn(&b, 9), c, p0_tt2, e, turn(&f, 19), g]
    }

    /// One block "in wire order". Returns its 8 result words.
    fn block(&mut self, length: Length, block: usize, begin: &WireWords) -> WireWords {
        let bits = self.block_bits(length, block);
        let w = self.expand(bits);
        let w_prime: Vec<Word> = (0..64).map(|j| self.xor_of_two(&w[j], &w[j + 4])).collect();
        let mut state = *begin;
        for j in 0..64 {
            state = self.round(j, &state, &w[j], &w_prime[j]);
        }
        // "The block's result is A to H xor the words it began with."
        std::array::from_fn(|k| self.xor_of_two(&state[k], &begin[k]))
    }
}

/// A walk's yield: the rows, and how many wires it handed out.
pub struct Walked {
    pub table: RowTable,
    pub wires: usize,
}

/// "Order: 256 fixed start rows; each block in wire order; 256 rows (digest
/// wire - last result wire) × 1 = 0."
pub fn walk(length: Length) -> Walked {
    // Wire 0 is the constant, so the digest takes wires from 1 on.
    let mut walk = Walk {
        table: RowTable::default(),
        next: 1,
    };
    let digest = walk.words();
    let mut words = walk.start_words();
    for block in 0..length.blocks() {
        words = walk.block(length, block, &words);
    }
    for (&wire, &result) in digest.iter().flatten().zip(words.iter().flatten()) {
        walk.table.same(wire, result);
    }
    Walked {
        table: walk.table,
        wires: walk.next as usize,
    }
}

/// All rows of a length, in order.
pub fn rows(length: Length) -> RowTable {
    walk(length).table
}

/// The rows of one block's 512 bits alone, in order. Only they depend on more
/// of a length than its number of blocks, so they are enough to judge the
/// padding of many lengths quickly.
pub fn block_bit_rows(length: Length, block: usize) -> RowTable {
    let mut walk = Walk {
        table: RowTable::default(),
        next: (513 + 22_528 * block) as u32,
    };
    walk.block_bits(length, block);
    walk.table
}

#[cfg(test)]
mod tests {
    use super::*;
    use crate::forms::RowNumber;
    use crate::record::Record;

    #[test]
    fn block_bit_rows_are_rows_of_the_table() {
        for bits in [0, 1, 104, 440, 447, 448, 959, 4001, 8120, 8127] {
            let length = Length::new(bits).unwrap();
            let all = rows(length);
            for block in 0..length.blocks() {
                let first = 256 + 32_320 * block as u32;
                for (number, row) in block_bit_rows(length, block).iter() {
                    assert_eq!(row, all.row(RowNumber(first + number.0)), "{bits} bits");
                }
            }
        }
    }

    #[test]
    fn padding_bits_are_those_of_the_padded_message() {
        for bits in 0..=8127 {
            let record = Record::front(bits as u64, &[0xff; 1016]).unwrap();
            let message = sm3::pad(&record);
            for bit in 0..8 * message.len() {
                let of_message = message[bit / 8] >> (7 - bit % 8) & 1 == 1;
                let expected = (bit >= bits).then_some(of_message);
                let padding = padding_bit(record.length(), bit);
                assert_eq!(padding, expected, "{bits} bits, bit {bit}");
            }
        }
    }

    #[test]
    fn a_turned_word_is_turned_left() {
        let word: Word = std::array::from_fn(|position| Wire(position as u32));
        assert_eq!(turn(&word, 9)[0], Wire(9));
        assert_eq!(turn(&word, 9)[31], Wire(8));
        // As numbers: bit 31 - position of the word stands at each wire.
        let value = |word: &Word, x: u32| {
            word.iter()
                .fold(0, |v, wire| 2 * v + (x >> (31 - wire.0) & 1))
        };
        assert_eq!(
            value(&turn(&word, 9), 0x89abcdef),
            0x89abcdefu32.rotate_left(9)
        );
    }
}
