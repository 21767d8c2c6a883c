//! The program `steps`: which step of the hash each row stands for. The paper
//! does not have this program; its format is docs/STEPS.md. Both are quoted
//! below.
//!
//! The steps are walked in row order, row by row. So row numbers come out by
//! counting alone, and nothing here looks at the rows themselves.

use std::ops::Range;

use crate::length::Length;
use crate::listing::{accept, refused};

/// "The row form, by its name in document 01"; "a digest row is `equal`".
#[derive(Clone, Copy)]
pub(crate) enum Form {
    Fixed,
    Bit,
    XorOfTwo,
    XorOfThree,
    Majority,
    Choice,
    Sum,
    Equal,
}

impl Form {
    fn name(self) -> &'static str {
        match self {
            Form::Fixed => "fixed",
            Form::Bit => "bit",
            Form::XorOfTwo => "xor of two",
            Form::XorOfThree => "xor of three",
            Form::Majority => "majority",
            Form::Choice => "choice",
            Form::Sum => "sum",
            Form::Equal => "equal",
        }
    }
}

/// "A field is empty where there is nothing to say."
fn field(number: Option<usize>) -> String {
    number.map_or_else(String::new, |number| number.to_string())
}

/// The walk: the number of the next row, the block that it is in, the rows
/// that were asked for, and the lines of those that it has passed.
struct Walk {
    next: usize,
    block: Option<usize>,
    asked: Range<usize>,
    lines: String,
}

impl Walk {
    /// The next row, with its line `row,block,step,index,bit,form`.
    fn row(&mut self, step: &str, index: usize, bit: Option<usize>, form: Form) {
        let row = self.next;
        if self.asked.contains(&row) {
            let (block, bit, form) = (field(self.block), field(bit), form.name());
            let line = format!("{row},{block},{step},{index},{bit},{form}\n");
            self.lines.push_str(&line);
        }
        self.next += 1;
    }

    /// A word with one row a position.
    fn word(&mut self, step: &str, index: usize, form: Form) {
        for position in 0..32 {
            self.row(step, index, Some(position), form);
        }
    }

    /// A word with two rows a position: "32 times bit", then the form.
    fn word_with_bit_rows(&mut self, step: &str, index: usize, form: Form) {
        for position in 0..32 {
            self.row(step, index, Some(position), Form::Bit);
            self.row(step, index, Some(position), form);
        }
    }

    /// "34 bit, 1 sum": the carries are positions 32 and 33, and the equation
    /// is "of all positions".
    fn sum(&mut self, step: &str, index: usize) {
        for position in 0..34 {
            self.row(step, index, Some(position), Form::Bit);
        }
        self.row(step, index, None, Form::Sum);
    }

    /// "The block's words W0 to W15: record bits, then padding." The record's
    /// are those before the message's bit that has the length's number.
    fn message(&mut self, length: Length, block: usize) {
        for bit in 0..512 {
            let of_record = 512 * block + bit < length.bits();
            let form = if of_record { Form::Bit } else { Form::Fixed };
            self.row("message", bit / 32, Some(bit % 32), form);
        }
    }

    /// "For each j from 16 to 67: q, P1(q), Wj."
    fn expansion(&mut self) {
        for j in 16..68 {
            self.word_with_bit_rows("q", j, Form::XorOfThree);
            self.word_with_bit_rows("p1", j, Form::XorOfThree);
            self.word_with_bit_rows("w", j, Form::XorOfThree);
        }
    }

    /// "Xor of three below round 16, majority from there on."
    fn ff(&mut self, j: usize) {
        if j < 16 {
            self.word_with_bit_rows("ff", j, Form::XorOfThree);
        } else {
            self.word_with_bit_rows("ff", j, Form::Majority);
        }
    }

    /// "32 times bit, xor of three below round 16; 32 choice from there on."
    fn gg(&mut self, j: usize) {
        if j < 16 {
            self.word_with_bit_rows("gg", j, Form::XorOfThree);
        } else {
            self.word("gg", j, Form::Choice);
        }
    }

    /// "For each round: u and its 2 carries, SS2, FF, GG, TT1 and 2 carries,
    /// TT2 and 2 carries, P0(TT2)."
    fn round(&mut self, j: usize) {
        self.sum("u", j);
        self.word("ss2", j, Form::XorOfTwo);
        self.ff(j);
        self.gg(j);
        self.sum("tt1", j);
        self.sum("tt2", j);
        self.word_with_bit_rows("p0", j, Form::XorOfThree);
    }

    /// So many words with one row a position, numbered from 0.
    fn words(&mut self, step: &str, count: usize, form: Form) {
        for index in 0..count {
            self.word(step, index, form);
        }
    }

    /// One block "in wire order".
    fn block(&mut self, length: Length, block: usize) {
        self.block = Some(block);
        self.message(length, block);
        self.expansion();
        self.words("wprime", 64, Form::XorOfTwo);
        for j in 0..64 {
            self.round(j);
        }
        self.words("result", 8, Form::XorOfTwo);
        self.block = None;
    }

    /// "What a circuit has behind the digest's rows": of each row "its number
    /// among these", and position 0.
    fn appended(&mut self, forms: &[Form]) {
        for (index, &form) in forms.iter().enumerate() {
            self.row("appended", index, Some(0), form);
        }
    }
}

/// The lines of the rows asked for. "Order: 256 fixed start rows; each block";
/// "256 rows (digest wire - last result wire) × 1 = 0"; then those appended.
fn lines(length: Length, appended: &[Form], asked: Range<usize>) -> String {
    let mut walk = Walk {
        next: 0,
        block: None,
        asked,
        lines: String::new(),
    };
    walk.words("start", 8, Form::Fixed);
    for block in 0..length.blocks() {
        walk.block(length, block);
    }
    walk.words("digest", 8, Form::Equal);
    walk.appended(appended);
    walk.lines
}

/// What is printed of these rows of a record's circuit with rows of such forms
/// appended.
pub(crate) fn print_steps(length: Length, appended: &[Form], asked: Range<usize>) -> String {
    String::from("row,block,step,index,bit,form\n") + &lines(length, appended, asked)
}

/// All that the program `steps` prints for what stood on standard input: it
/// "reads the same line as `rows`" and "refuses the same lines in the same
/// way".
pub fn listing(input: &[u8]) -> String {
    match accept(input) {
        // A record has nothing appended.
        Ok((length, asked)) => print_steps(length, &[], asked),
        Err(refusal) => refused(refusal),
    }
}
