//! "A record's wires by the layout are numbers 0 and 1, worked out from the
//! record alone and from no row." Nothing here looks at the rows.

use crate::record::Record;
use crate::sm3::{self, Block, Round, Sum, Words};

/// Wires written so far, in rising order; the next one goes to the end.
struct Wires(Vec<u8>);

impl Wires {
    fn bit(&mut self, bit: bool) {
        self.0.push(u8::from(bit));
    }

    /// "A word's wires run from the highest bit."
    fn word(&mut self, word: u32) {
        for position in 0..32 {
            self.bit(word >> (31 - position) & 1 == 1);
        }
    }

    fn words(&mut self, words: &[u32]) {
        for &word in words {
            self.word(word);
        }
    }

    /// A word, then "the two bits of floor(s / 2^32), the higher first".
    fn sum(&mut self, sum: Sum) {
        self.word(sum.word);
        self.bit(sum.carries >> 1 & 1 == 1);
        self.bit(sum.carries & 1 == 1);
    }

    /// "For each round: u and its 2 carries, SS2, FF, GG, TT1 and 2 carries,
    /// TT2 and 2 carries, P0(TT2)."
    fn round(&mut self, round: &Round) {
        self.sum(round.u);
        self.words(&[round.ss2, round.ff, round.gg]);
        self.sum(round.tt1);
        self.sum(round.tt2);
        self.word(round.p0_tt2);
    }

    /// The 22,528 wires of one block in the order of the list in "Wires".
    fn block(&mut self, block: &Block) {
        let expansion = &block.expansion;
        self.words(&expansion.w[..16]);
        for j in 16..68 {
            self.words(&[expansion.q[j - 16], expansion.p1_q[j - 16], expansion.w[j]]);
        }
        self.words(&expansion.w_prime);
        for round in &block.rounds {
            self.round(round);
        }
        self.words(&block.result);
    }
}

/// The value, 0 or 1, of every wire of a record.
pub fn wires(record: &Record) -> Vec<u8> {
    let blocks = sm3::blocks(&sm3::pad(record));
    let digest: Words = blocks[blocks.len() - 1].result;
    let mut wires = Wires(Vec::with_capacity(record.length().wires()));
    // "Wire 0 is the constant 1. Wires 1 to 256: digest. 257 to 512: start
    // words. Then 22,528 a block."
    wires.bit(true);
    wires.words(&digest);
    wires.words(&sm3::START);
    for block in &blocks {
        wires.block(block);
    }
    wires.0
}

/// "8 bytes a wire, least byte first"; "our producer writes every entry as
/// the number 0 or 1". The buffer is long enough; bytes past them stay.
pub fn write_assignment(record: &Record, buffer: &mut [u8]) {
    write_wires(&wires(record), buffer);
}

/// Wires of any circuit, into a buffer that is long enough.
pub(crate) fn write_wires(wires: &[u8], buffer: &mut [u8]) {
    for (entry, &wire) in buffer.chunks_exact_mut(8).zip(wires) {
        entry.copy_from_slice(&u64::from(wire).to_le_bytes());
    }
}

/// The same in bytes of its own.
pub fn assignment(record: &Record) -> Vec<u8> {
    let mut assignment = vec![0; record.length().assignment_bytes()];
    write_assignment(record, &mut assignment);
    assignment
}
