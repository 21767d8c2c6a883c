//! Terms, a table of rows, and the row forms of the list in "Rows".

use crate::field::{self, P};

/// A wire number. "A row number and a wire number both count from 0 and are
/// never taken for each other."
#[derive(Clone, Copy, Debug, PartialEq, Eq, PartialOrd, Ord)]
pub struct Wire(pub u32);

/// A row number.
#[derive(Clone, Copy, Debug, PartialEq, Eq, PartialOrd, Ord)]
pub struct RowNumber(pub u32);

/// One wire with its coefficient, signed: from -(p - 1) / 2 to (p - 1) / 2 and
/// not 0.
#[derive(Clone, Copy, Debug, PartialEq, Eq)]
pub struct Term {
    pub wire: Wire,
    pub coefficient: i64,
}

impl Term {
    /// The coefficient modulo p, from 1 to p - 1.
    pub fn residue(&self) -> u64 {
        field::from_signed(self.coefficient)
    }
}

/// "A coefficient above (p - 1) / 2 is given minus p", any other as it is: from
/// a coefficient below p to the signed number.
fn signed(residue: u64) -> i64 {
    if residue > (P - 1) / 2 {
        residue as i64 - P as i64
    } else {
        residue as i64
    }
}

/// "A row is three weighted sums of wires A, B, C."
#[derive(Clone, Copy, Debug, PartialEq, Eq)]
pub struct Row<'a> {
    pub a: &'a [Term],
    pub b: &'a [Term],
    pub c: &'a [Term],
}

impl Row<'_> {
    /// How many terms the three sums have together.
    pub fn terms(&self) -> usize {
        self.a.len() + self.b.len() + self.c.len()
    }
}

/// "Wire 0 is the constant 1."
pub const ONE: Wire = Wire(0);

/// The 32 wires of a word, from the highest bit.
pub type Word = [Wire; 32];

/// A wire with a small whole coefficient, as the equations write it.
pub type Weighted = (Wire, i64);

/// Rows in order. All terms lie in one list; a row remembers where each of
/// its three sums ends, and begins where the row before it ended.
#[derive(Clone, Debug, Default)]
pub struct RowTable {
    terms: Vec<Term>,
    ends: Vec<[usize; 3]>,
}

impl RowTable {
    /// How many rows there are.
    pub fn count(&self) -> usize {
        self.ends.len()
    }

    /// The row of that number; it must be below the count.
    pub fn row(&self, number: RowNumber) -> Row<'_> {
        self.at(number.0 as usize)
    }

    /// All rows with their numbers, from the lowest.
    pub fn iter(&self) -> impl Iterator<Item = (RowNumber, Row<'_>)> {
        (0..self.count()).map(|index| (RowNumber(index as u32), self.at(index)))
    }

    /// Drops all rows but so many of the first.
    pub fn truncate(&mut self, count: usize) {
        self.ends.truncate(count);
        let end = self.ends.last().map_or(0, |ends| ends[2]);
        self.terms.truncate(end);
    }

    fn at(&self, index: usize) -> Row<'_> {
        let begin = if index == 0 {
            0
        } else {
            self.ends[index - 1][2]
        };
        let [end_a, end_b, end_c] = self.ends[index];
        Row {
            a: &self.terms[begin..end_a],
            b: &self.terms[end_a..end_b],
            c: &self.terms[end_b..end_c],
        }
    }

    /// Appends A × B = C.
    fn push(&mut self, a: &[Weighted], b: &[Weighted], c: &[Weighted]) {
        let ends = [self.push_sum(a), self.push_sum(b), self.push_sum(c)];
        self.ends.push(ends);
    }

    /// "Terms stand by rising wire, coefficients from 1 to p - 1, zero ones
    /// omitted"; each is then given signed. A wire that came twice would have
    /// its coefficients added. Returns where the sum ends.
    fn push_sum(&mut self, sum: &[Weighted]) -> usize {
        let begin = self.terms.len();
        for &(wire, weight) in sum {
            self.terms.push(Term {
                wire,
                coefficient: signed(field::from_signed(weight)),
            });
        }
        self.terms[begin..].sort_by_key(|term| term.wire);
        self.merge_from(begin);
        self.terms.len()
    }

    /// Adds up neighbours of the same wire, then drops zero coefficients.
    fn merge_from(&mut self, begin: usize) {
        let mut kept = begin;
        for index in begin..self.terms.len() {
            let term = self.terms[index];
            if kept > begin && self.terms[kept - 1].wire == term.wire {
                let sum = field::add(self.terms[kept - 1].residue(), term.residue());
                self.terms[kept - 1].coefficient = signed(sum);
            } else {
                self.terms[kept] = term;
                kept += 1;
            }
            if self.terms[kept - 1].coefficient == 0 {
                kept -= 1;
            }
        }
        self.terms.truncate(kept);
    }

    /// "fixed: w × 1 = bit"
    pub fn fixed(&mut self, w: Wire, bit: bool) {
        self.push(&[(w, 1)], &[(ONE, 1)], &[(ONE, i64::from(bit))]);
    }

    /// "bit: w × (w - 1) = 0"
    pub fn bit(&mut self, w: Wire) {
        self.push(&[(w, 1)], &[(w, 1), (ONE, -1)], &[]);
    }

    /// "xor of two: 2x × y = x + y - r"
    pub fn xor_of_two(&mut self, x: Wire, y: Wire, r: Wire) {
        self.push(&[(x, 2)], &[(y, 1)], &[(x, 1), (y, 1), (r, -1)]);
    }

    /// "xor of three: bit row of r, then
    /// (x + y + z - r) × (x + y + z - r - 2) = 0"
    pub fn xor_of_three(&mut self, x: Wire, y: Wire, z: Wire, r: Wire) {
        self.bit(r);
        self.push(
            &[(x, 1), (y, 1), (z, 1), (r, -1)],
            &[(x, 1), (y, 1), (z, 1), (r, -1), (ONE, -2)],
            &[],
        );
    }

    /// "majority: bit row of r, then
    /// (x + y + z - 2r) × (1 - x - y - z + 2r) = 0"
    pub fn majority(&mut self, x: Wire, y: Wire, z: Wire, r: Wire) {
        self.bit(r);
        self.push(
            &[(x, 1), (y, 1), (z, 1), (r, -2)],
            &[(ONE, 1), (x, -1), (y, -1), (z, -1), (r, 2)],
            &[],
        );
    }

    /// "choice by x of y or z: x × (y - z) = r - z"
    pub fn choice(&mut self, x: Wire, y: Wire, z: Wire, r: Wire) {
        self.push(&[(x, 1)], &[(y, 1), (z, -1)], &[(r, 1), (z, -1)]);
    }

    /// "sum: bit rows of 32 result wires and 2 carries, then
    /// (addends + constant - result - carries) × 1 = 0, with weights".
    /// "Carries weigh 2^33, then 2^32."
    pub fn sum(&mut self, addends: &[Word], constant: u32, result: &Word, carries: [Wire; 2]) {
        for &w in result.iter().chain(&carries) {
            self.bit(w);
        }
        let mut sum = vec![(ONE, i64::from(constant))];
        for addend in addends {
            sum.extend(weighted(addend, 1));
        }
        sum.extend(weighted(result, -1));
        sum.extend([(carries[0], -(1 << 33)), (carries[1], -(1 << 32))]);
        self.push(&sum, &[(ONE, 1)], &[]);
    }

    /// A number of so many bits, which is worth that sum: "its bit rows and a
    /// sum row of value minus bits".
    pub fn number(&mut self, value: &[Weighted], bits: &[Wire]) {
        for &w in bits {
            self.bit(w);
        }
        let sum: Vec<Weighted> = value.iter().copied().chain(weighted(bits, -1)).collect();
        self.push(&sum, &[(ONE, 1)], &[]);
    }

    /// The closing rows: "(digest wire - last result wire) × 1 = 0".
    pub fn same(&mut self, digest: Wire, result: Wire) {
        self.push(&[(digest, 1), (result, -1)], &[(ONE, 1)], &[]);
    }
}

/// A number's wires, "highest bit first", with the weights of its bits, times a
/// factor: a word's first wire weighs 2^31.
pub fn weighted(bits: &[Wire], factor: i64) -> impl Iterator<Item = Weighted> + '_ {
    let places = (0..bits.len()).rev();
    bits.iter()
        .zip(places)
        .map(move |(&w, place)| (w, factor << place))
}

#[cfg(test)]
mod tests {
    use super::*;

    #[test]
    fn coefficients_above_half_of_the_prime_are_given_minus_it() {
        const HALF: i64 = (1 << 60) - 1;
        assert_eq!(signed(1), 1);
        assert_eq!(signed((P - 1) / 2), HALF);
        assert_eq!(signed((P - 1) / 2 + 1), -HALF);
        assert_eq!(signed(P - 1), -1);
    }

    #[test]
    fn a_residue_is_the_coefficient_before_it_was_signed() {
        let half = (P - 1) / 2;
        for residue in [1, 2, half - 1, half, half + 1, half + 2, P - 2, P - 1] {
            let (wire, coefficient) = (ONE, signed(residue));
            assert_eq!(Term { wire, coefficient }.residue(), residue);
        }
    }
}
