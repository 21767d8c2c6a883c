//! What is measured of the passage product. Before a time is taken, all sides
//! must agree, on refusals too.

use std::cell::RefCell;

use host::passage::{self, Numbers};
use host::Empty;
use judge::field::P;
use judge::length::Length;
use judge::record::Record;
use judge::{layout, sm3};

use crate::baseline;
use crate::measures::{figures, put_entry, LIMIT, OURS};
use crate::timing::{best, side, Figure, Side};

/// Our side where a function of the passage product is called.
pub const PASSAGE: &str = "passage";

/// A line's length in bits.
const BITS: u64 = 504;

/// So many different lines in a batch, gone through one after the other. With
/// some hundreds the processor learns by heart where each line's wrong byte is.
const LINES: usize = 4093;

/// Bytes that no place of a line allows.
const WRONG: [u8; 6] = [b'/', b':', b'@', b'g', b' ', 0xff];

type Line = [u8; 63];

// ---- The calls of the C library ----

fn read_ours(line: &[u8]) -> u64 {
    passage::read(Empty::Null, line)
}

fn write_ours(numbers: [u64; 4], plate: &[u8], blind: &[u8], out: &mut [u8]) -> u64 {
    let [lane, time, class, axles] = numbers;
    let numbers = Numbers {
        lane,
        time,
        class,
        axles,
    };
    passage::write(Empty::Null, numbers, plate, blind, out)
}

fn seal_ours(line: &[u8], digest: &mut [u8], assignment: &mut [u8]) -> u64 {
    passage::seal(Empty::Null, line, digest, assignment)
}

fn check_ours(digest: &[u8], assignment: &[u8]) -> u64 {
    passage::check(Empty::Null, digest, assignment)
}

// ---- Lines ----

/// Numbers by chance, the same in every run.
struct Random(u64);

impl Random {
    fn below(&mut self, bound: u64) -> u64 {
        self.0 = self.0.wrapping_mul(6364136223846793005);
        self.0 = self.0.wrapping_add(1442695040888963407);
        (self.0 >> 29) % bound
    }

    fn one_of(&mut self, bytes: &[u8]) -> u8 {
        bytes[self.below(bytes.len() as u64) as usize]
    }
}

/// The fields of a line: lane, time, class and axles, then the plate and the
/// blind.
#[derive(Clone)]
struct Fields {
    numbers: [u64; 4],
    plate: [u8; 10],
    blind: [u8; 32],
}

impl Fields {
    fn new(random: &mut Random) -> Fields {
        let numbers = [
            1 + random.below(999),
            random.below(10_000_000_000),
            1 + random.below(9),
            2 + random.below(98),
        ];
        let mut fields = Fields {
            numbers,
            plate: [b'-'; 10],
            blind: [0; 32],
        };
        let end = 1 + random.below(10) as usize;
        for byte in &mut fields.plate[..end] {
            *byte = random.one_of(b"ABCDEFGHIJKLMNOPQRSTUVWXYZ0123456789");
        }
        for byte in &mut fields.blind {
            *byte = random.one_of(b"0123456789abcdef");
        }
        fields
    }

    fn line(&self) -> Line {
        let [lane, time, class, axles] = self.numbers;
        let numbers = format!("{lane:03},{time:010},{class},{axles:02},");
        let parts = [numbers.as_bytes(), &self.plate, b",", &self.blind];
        parts.concat().try_into().expect("63 bytes")
    }

    /// One field made wrong, the one that has this place of the line or the
    /// comma before it; the byte that is then refused.
    fn spoil(&mut self, place: usize, wrong: u8) -> usize {
        let [lane, time, class, axles] = &mut self.numbers;
        let (number, more, first) = match place {
            0..=2 => (lane, 1000, 0),
            3..=13 => (time, 10_000_000_000, 4),
            14..=15 => (class, 256, 15),
            16..=18 => (axles, 98, 17),
            19..=29 => {
                self.plate[place.max(20) - 20] = wrong;
                return place.max(20);
            }
            _ => {
                self.blind[place.max(31) - 31] = wrong;
                return place.max(31);
            }
        };
        *number += more;
        first
    }
}

/// The batch of right lines.
fn batch() -> Vec<Fields> {
    let mut random = Random(7);
    (0..LINES).map(|_| Fields::new(&mut random)).collect()
}

fn refused(byte: usize) -> u64 {
    16 | (byte as u64) << 8
}

/// What reading a right line answers.
fn answer(fields: &Fields) -> u64 {
    let [lane, time, class, axles] = fields.numbers;
    lane << 8 | time << 18 | class << 52 | axles << 56
}

// ---- Both sides held against each other ----

/// Bytes that some places allow, and bytes beside them.
const BORDERS: &[u8] = b"-,/09:@AZ[`afg";

/// Numbers of any size in places, and up to two other bytes in the plate and up
/// to two in the blind.
fn disturb(fields: &mut Fields, random: &mut Random) {
    for number in &mut fields.numbers {
        match random.below(12) {
            0 => *number = random.below(3),
            1 => *number += 1 << random.below(63),
            _ => (),
        }
    }
    for bytes in [&mut fields.plate[..], &mut fields.blind[..]] {
        for _ in 0..random.below(6).saturating_sub(3) {
            bytes[random.below(bytes.len() as u64) as usize] = random.one_of(BORDERS);
        }
    }
}

/// Reading lines with up to three other bytes, one in eight of another length.
fn agree_on_reading() {
    let mut random = Random(11);
    for mut fields in batch() {
        fields.numbers[0] *= random.below(8).min(1);
        fields.numbers[3] -= if random.below(8) == 0 { 2 } else { 0 };
        let mut line = [fields.line().as_slice(), b"0"].concat();
        for _ in 0..random.below(4) {
            line[random.below(63) as usize] = random.one_of(BORDERS);
        }
        let lent = &line[..63 + random.below(8).saturating_sub(6) as usize];
        assert_eq!(read_ours(lent), baseline::read(lent), "{lent:?}");
    }
}

/// Writing fields that may be wrong in several ways, into buffers of which some
/// are short.
fn agree_on_writing() {
    let mut random = Random(12);
    for mut fields in batch() {
        disturb(&mut fields, &mut random);
        let Fields {
            numbers,
            plate,
            blind,
        } = &fields;
        let (room, plate) = (60 + random.below(6), &plate[random.below(8) as usize / 7..]);
        let (mut ours, mut theirs) = ([0xa5; 66], [0xa5; 66]);
        let both = [
            write_ours(*numbers, plate, blind, &mut ours[..room as usize]),
            baseline::write(*numbers, plate, blind, &mut theirs[..room as usize]),
        ];
        assert!(both[0] == both[1] && ours == theirs, "{numbers:?} {both:?}");
    }
}

// ---- Reading and writing ----

/// A measure whose sides go through a batch in each call: the times of a line.
fn of_a_line(measure: &'static str, sides: Vec<Side<'_>>, runs: u32) -> Vec<Figure> {
    let a_line = |(name, time)| (name, time / LINES as f64);
    let times: Vec<_> = best(sides, runs).into_iter().map(a_line).collect();
    figures(measure, BITS, &times)
}

/// One call of a side of reading: all lines, one after the other.
fn read_all(lines: &[(Line, u64)], read: impl Fn(&[u8]) -> u64) -> u64 {
    lines.iter().fold(0, |sum, (line, _)| sum ^ read(line))
}

/// Reading these lines, each with what must be answered, beside the C loop.
fn reading(measure: &'static str, lines: &[(Line, u64)], runs: u32) -> Vec<Figure> {
    for (line, right) in lines {
        assert_eq!([read_ours(line), baseline::read(line)], [*right; 2]);
        let short = &line[1..];
        assert_eq!([read_ours(short), baseline::read(short)], [15; 2]);
    }
    let sides = vec![
        side(PASSAGE, || read_all(lines, read_ours)),
        side("c-loop", || read_all(lines, baseline::read)),
    ];
    of_a_line(measure, sides, runs)
}

/// Reading right lines.
pub fn read(runs: u32) -> Vec<Figure> {
    agree_on_reading();
    let right = |fields: &Fields| (fields.line(), answer(fields));
    let lines: Vec<_> = batch().iter().map(right).collect();
    reading("passage-read", &lines, runs)
}

/// Reading lines of which each has one wrong byte, at any place.
pub fn read_wrong(runs: u32) -> Vec<Figure> {
    let mut random = Random(8);
    let spoiled = |fields: Fields| {
        let (mut line, place) = (fields.line(), random.below(63) as usize);
        line[place] = random.one_of(&WRONG);
        (line, refused(place))
    };
    let lines: Vec<_> = batch().into_iter().map(spoiled).collect();
    reading("passage-read-wrong", &lines, runs)
}

/// One side of writing, with a buffer of its own for each line.
fn writer<'a, W>(name: &'static str, write: W, lines: &'a [(Fields, u64)]) -> Side<'a>
where
    W: Fn([u64; 4], &[u8], &[u8], &mut [u8]) -> u64 + 'a,
{
    let write =
        move |line: &Fields, out: &mut [u8]| write(line.numbers, &line.plate, &line.blind, out);
    for (fields, right) in lines {
        let mut out = [0xa5; 64];
        assert_eq!(write(fields, &mut out), *right, "{name}");
        match right {
            0 => assert!(out[..63] == fields.line() && out[63] == 0xa5, "{name}"),
            _ => assert!(out == [0xa5; 64], "{name} wrote"),
        }
        let short = if *right == 0 { 4 } else { *right };
        assert_eq!(write(fields, &mut out[1..63]), short, "{name}");
    }
    let mut out = vec![[0u8; 63]; lines.len()];
    side(name, move || {
        let each = lines.iter().zip(&mut out);
        each.fold(0, |sum, ((fields, _), out)| sum ^ write(fields, out))
    })
}

fn writing(measure: &'static str, lines: &[(Fields, u64)], runs: u32) -> Vec<Figure> {
    let sides = vec![
        writer(PASSAGE, write_ours, lines),
        writer("c-loop", baseline::write, lines),
    ];
    of_a_line(measure, sides, runs)
}

/// Writing right lines.
pub fn write(runs: u32) -> Vec<Figure> {
    agree_on_writing();
    let lines: Vec<_> = batch().into_iter().map(|fields| (fields, 0)).collect();
    writing("passage-write", &lines, runs)
}

/// Writing lines of which each has one wrong field.
pub fn write_wrong(runs: u32) -> Vec<Figure> {
    let mut random = Random(9);
    let spoiled = |mut fields: Fields| {
        let place = random.below(63) as usize;
        let byte = fields.spoil(place, random.one_of(&WRONG));
        (fields, refused(byte))
    };
    let lines: Vec<_> = batch().into_iter().map(spoiled).collect();
    writing("passage-write-wrong", &lines, runs)
}

// ---- Sealing and checking ----

/// What a line is sealed into.
struct Sealed {
    digest: [u8; 32],
    assignment: Vec<u8>,
}

impl Sealed {
    /// Room for it.
    fn room() -> Sealed {
        let bytes = Length::new(BITS).map_or(0, Length::assignment_bytes);
        Sealed {
            digest: [0; 32],
            assignment: vec![0; bytes],
        }
    }

    /// By the judge.
    fn right(line: &Line) -> Sealed {
        let record = Record::new(BITS, line).expect("a record of 504 bits");
        Sealed {
            digest: sm3::hash(&record),
            assignment: layout::assignment(&record),
        }
    }
}

fn seal_by_passage(line: &Line, out: &mut Sealed) -> u64 {
    seal_ours(line, &mut out.digest, &mut out.assignment)
}

fn produce_alone(line: &Line, out: &mut Sealed) -> u64 {
    host::produce(Empty::Null, LIMIT, BITS, line, &mut out.assignment)
}

fn digest_and_produce(line: &Line, out: &mut Sealed) -> u64 {
    let digest = host::digest(Empty::Null, LIMIT, BITS, line, &mut out.digest);
    digest | produce_alone(line, out)
}

/// Sealing beside the row library's digest and producer, both together and the
/// producer alone. All sides write into the same memory, so that the caches
/// serve them alike.
pub fn seal(runs: u32) -> Vec<Figure> {
    let lines: Vec<Line> = batch().iter().map(Fields::line).collect();
    for line in &lines[..16] {
        let right = Sealed::right(line);
        for seal in [seal_by_passage, digest_and_produce] {
            let mut out = Sealed::room();
            assert_eq!(seal(line, &mut out), 0);
            assert!(out.digest == right.digest && out.assignment == right.assignment);
        }
    }
    let memory = RefCell::new(Sealed::room());
    let by = |name, seal: fn(&Line, &mut Sealed) -> u64| {
        let (mut next, memory) = (lines.iter().cycle(), &memory);
        side(name, move || {
            let line = next.next().expect("lines without end");
            seal(line, &mut memory.borrow_mut())
        })
    };
    let sides = vec![
        by(PASSAGE, seal_by_passage),
        by("digest+produce", digest_and_produce),
        by("produce", produce_alone),
    ];
    figures("passage-seal", BITS, &best(sides, runs))
}

/// The check of a sealed line beside the row library's for 504 bits.
pub fn check(runs: u32) -> Vec<Figure> {
    let mut random = Random(10);
    let mut sealed = Sealed::right(&Fields::new(&mut random).line());
    let both = |sealed: &Sealed| {
        let Sealed { digest, assignment } = sealed;
        let theirs = host::check(Empty::Null, LIMIT, BITS, digest, assignment);
        [check_ours(digest, assignment), theirs]
    };
    let last = sealed.assignment.len() - 8;
    sealed.assignment[last] ^= 1;
    let [ours, theirs] = both(&sealed);
    assert!(ours == theirs && ours & 0xff == 9);
    let (wire, own) = (last / 8, u64::from(sealed.assignment[last] ^ 1));
    put_entry(&mut sealed.assignment, wire, P);
    assert_eq!(both(&sealed), [20 | (wire as u64) << 8; 2]);
    put_entry(&mut sealed.assignment, wire, own);
    assert_eq!(both(&sealed), [0; 2]);
    let Sealed { digest, assignment } = &sealed;
    let sides = vec![
        side(PASSAGE, || check_ours(digest, assignment)),
        side(OURS, || {
            host::check(Empty::Null, LIMIT, BITS, digest, assignment)
        }),
    ];
    figures("passage-check", BITS, &best(sides, runs))
}

/// Lines a second of each side, for the measures of reading and writing.
pub fn print_rates(figures: &[Figure]) {
    let measures = [
        "passage-read",
        "passage-read-wrong",
        "passage-write",
        "passage-write-wrong",
    ];
    for measure in measures {
        print!("{measure}, million lines a second:");
        for figure in figures.iter().filter(|figure| figure.measure == measure) {
            print!(" {} {:.2}", figure.side, 1000.0 / figure.nanoseconds);
        }
        println!();
    }
}
