//! A slice as it is lent to the library: at any alignment, with guard bytes
//! on both sides. Two of them are equal when the guards are equal too.

use crate::random::Random;

const GUARD: usize = 64;

#[derive(Clone, PartialEq, Eq)]
pub struct Lent {
    memory: Vec<u8>,
    begin: usize,
    len: usize,
}

impl Lent {
    /// A slice of that length; all memory holds bytes without a pattern.
    pub fn buffer(len: usize, random: &mut Random) -> Lent {
        let begin = GUARD + random.below(8);
        let memory = random.bytes(begin + len + GUARD);
        Lent { memory, begin, len }
    }

    /// A slice that holds the bytes given.
    pub fn holding(bytes: &[u8], random: &mut Random) -> Lent {
        let begin = GUARD + random.below(8);
        let mut memory = random.bytes(begin);
        memory.extend_from_slice(bytes);
        memory.extend(random.bytes(GUARD));
        Lent {
            memory,
            begin,
            len: bytes.len(),
        }
    }

    pub fn slice(&self) -> &[u8] {
        &self.memory[self.begin..self.begin + self.len]
    }

    pub fn slice_mut(&mut self) -> &mut [u8] {
        &mut self.memory[self.begin..self.begin + self.len]
    }

    /// Where two of them first differ, counted from the slice's first byte.
    pub fn first_difference(&self, other: &Lent) -> Option<isize> {
        let mut pairs = self.memory.iter().zip(&other.memory);
        let index = pairs.position(|(x, y)| x != y)?;
        Some(index as isize - self.begin as isize)
    }
}
