//! Bounds with axles on both sides of each: what the producer writes, and the
//! check of it.

use host::axles::Pair;
use judge::axles::{assignment_bytes, rows};
use judge::entries;

use super::bounds::all_pairs;
use super::calls::{Room, What};
use super::claims::{
    appended_answer, bits_modulo, bounds, digits, fill, numbers, record, right_entries, some_axles,
    some_pair, unfilled, unsatisfied, NUMBERS, WIRES,
};
use super::damages::check;
use crate::answers;
use crate::calls::Calls;
use crate::claim::Claim;
use crate::lent::Lent;
use crate::prime;
use crate::sections::enough;
use crate::tally::Operation;

/// What a buffer holds before the producer writes it.
const OLD: u8 = 0xa5;

/// A record of so many axles, with the memory that call after call uses.
struct Stage {
    axles: u8,
    record: Vec<u8>,
    claim: Claim,
    entries: Vec<u64>,
    room: Room,
    out: Lent,
    must: Lent,
}

impl Stage {
    fn new(calls: &mut Calls, axles: u8) -> Stage {
        let record = record(digits(axles), &mut calls.random);
        let claim = unfilled(&record);
        let entries = entries::read(&claim.assignment).expect("entries that are bits");
        let mut must = Lent::buffer(claim.assignment.len() + 9, &mut calls.random);
        must.slice_mut().fill(OLD);
        let out = must.clone();
        must.slice_mut()[..claim.assignment.len()].copy_from_slice(&claim.assignment);
        Stage {
            axles,
            record,
            claim,
            entries,
            room: Room::new(&mut calls.random),
            out,
            must,
        }
    }

    /// Puts the appended entries, into what must be written too.
    fn fill(&mut self, appended: &[u64]) {
        self.entries[WIRES..].copy_from_slice(appended);
        fill(&mut self.claim, appended);
        let end = self.claim.assignment.len();
        self.must.slice_mut()[8 * WIRES..end].copy_from_slice(&self.claim.assignment[8 * WIRES..]);
    }

    /// Axles within the bounds: produced, and what the library wrote accepted,
    /// and under other bounds now and then.
    fn within(&mut self, calls: &mut Calls, pair: Pair) {
        self.fill(&right_entries(pair, self.axles));
        let end = self.claim.assignment.len();
        self.out.slice_mut().fill(OLD);
        let (empty, out) = (calls.empty(), self.out.slice_mut());
        let answer = host::axles::produce(empty, pair, &self.record, out);
        let what = What(pair, format_args!("{} axles", self.axles));
        calls.answers(Operation::AxlesProduce, 0, answer, &what);
        calls.memory(
            Operation::AxlesProduce,
            "buffer",
            &self.must,
            &self.out,
            &what,
        );
        let judged = appended_answer(pair, &self.entries);
        calls.must_be(0, judged, "axles within the bounds");
        self.check(calls, pair, end);
        if calls.random.one_in(4) {
            let other = some_pair(&mut calls.random);
            self.check(calls, other, end);
            calls.tally.count("claims of another band", 1);
        }
    }

    /// The check of what the library wrote.
    fn check(&mut self, calls: &mut Calls, pair: Pair, end: usize) {
        let known = answers::plain(appended_answer(pair, &self.entries));
        let (empty, written) = (calls.empty(), &self.out.slice()[..end]);
        let answer = host::axles::check(empty, pair, &self.claim.digest, written);
        let what = What(pair, format_args!("what was written for {}", self.axles));
        calls.answers(Operation::AxlesCheck, known, answer, &what);
        calls.memory(
            Operation::AxlesCheck,
            "assignment",
            &self.must,
            &self.out,
            &what,
        );
    }

    /// Axles outside the bounds: refused by the producer.
    fn outside(&mut self, calls: &mut Calls, pair: Pair) {
        let note = format_args!("{} axles", self.axles);
        let judged = calls.axles_produce_nothing(pair, &self.record, &mut self.room, note);
        calls.must_be(19, judged, "axles outside the bounds");
    }

    /// And by the check, with bits that write the four numbers modulo 2^4 and
    /// 2^7: the number that is negative has none.
    fn outside_forged(&mut self, calls: &mut Calls, pair: Pair) {
        let axles = self.axles;
        let bits = bits_modulo(numbers(pair, [axles / 10, axles % 10]));
        self.fill(&bits);
        let judged = appended_answer(pair, &self.entries);
        let below = u64::from(axles) < pair[0];
        let known = Err(unsatisfied(NUMBERS[if below { 2 } else { 3 }].sum_row()));
        calls.must_answer(
            answers::plain(known),
            answers::plain(judged),
            "axles outside",
        );
        self.claim.note = format!("{axles} axles, which lie outside");
        calls.axles_check(judged, pair, &self.claim);
        calls.tally.count("claims of axles outside the bounds", 1);
    }
}

/// Bounds of which one stands at the axles or beside them; for 0 and for 99
/// axles all bounds.
fn at_an_end([lower, upper]: Pair, axles: u64) -> bool {
    let beside = [axles, axles + 1].contains(&lower) || [axles, axles + 1].contains(&(upper + 1));
    beside || axles == 0 || axles == 99
}

/// So many axles under these bounds, or under all.
pub fn axles(calls: &mut Calls, axles: u8, every_pair: bool) {
    let mut stage = Stage::new(calls, axles);
    let number = u64::from(axles);
    let forged_one_in = if every_pair { 4 } else { 20 };
    for pair in all_pairs().filter(|&pair| every_pair || at_an_end(pair, number)) {
        let [lower, upper] = pair;
        if (lower..=upper).contains(&number) {
            stage.within(calls, pair);
        } else {
            stage.outside(calls, pair);
            if calls.random.one_in(forged_one_in) {
                stage.outside_forged(calls, pair);
            }
        }
        calls.tally.count("bounds with axles inside or outside", 1);
    }
}

/// So many records produced and checked by the judge's own whole functions, as
/// they are and shifted by multiples of p.
pub fn produced(calls: &mut Calls, count: usize) {
    let mut table = rows::all(bounds([2, 99]));
    for _ in 0..count {
        let pair = some_pair(&mut calls.random);
        let axles = some_axles(pair, &mut calls.random);
        let record = record(digits(axles), &mut calls.random);
        let out_len = enough(calls, assignment_bytes());
        let judged = calls.axles_produce(pair, &record, out_len, "a right record");
        calls.must_be(0, judged, "a right record");
        let mut claim = unfilled(&record);
        fill(&mut claim, &right_entries(pair, axles));
        rows::rebind(&mut table, bounds(pair));
        let ask = |calls: &mut Calls, claim: &Claim| check(calls, &table, pair, claim);
        let judged = ask(calls, &claim);
        calls.must_be(0, judged, "what a producer writes");
        prime::shifted(calls, claim, &ask);
        calls.tally.count("axle records produced and accepted", 1);
    }
}
