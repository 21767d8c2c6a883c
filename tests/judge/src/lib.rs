//! An outside judge for the paper "SM3 record rows over the prime 2^61 - 1".
//!
//! Everything here was written from that paper alone and from the first eight of
//! its change requests, "Packed assignments", "Lengths in bits", "Passage
//! records", "Sealing in one pass", which asks for no other answer, "Axles
//! between two bounds", "Entries below the prime", "Signed coefficients" and "The
//! partner's two blocks"; but the programs `steps`, `axle_rows` and `axle_steps`
//! have their formats from docs/STEPS.md. Sentences of the papers are quoted in the
//! comments beside the code that follows them.
//!
//! * `sm3`: the hash, and every word it computes on the way ("SM3 as used").
//! * `length`: lengths in range and the counts of blocks, wires and rows.
//! * `record`: bit strings, and the bytes that they are handed over in.
//! * `limit`: the caller's limit in blocks, and which lengths and records it allows.
//! * `layout`: the wires of a record, from the record alone ("Wires",
//!   "The words of demand 3").
//! * `forms`: terms with signed coefficients, and the row forms ("Rows", its list
//!   of equations).
//! * `rows`: all rows of a length, by walking the blocks in wire order.
//! * `entries`: the entries of an assignment, each below p.
//! * `check`: the check of an assignment against a digest.
//! * `operations`: digest, row and produce on lent buffers.
//! * `packing`: pack and unpack on lent buffers.
//! * `packed`: the input and the output of the program `packed`.
//! * `listing`: the input line and the output of the program `rows`.
//! * `steps`: the output of the program `steps`, which step a row stands for.
//! * `passage`: the lines of the passage product: read, write, seal, check.
//! * `axles`: the circuit of axles between two bounds: its wires, rows, produce
//!   and check, and its two programs.
//! * `refusal`: the twenty-two refusals. `field`: numbers modulo p. `bits`: the
//!   bits of bytes.

#![forbid(unsafe_code)]

pub mod axles;
pub mod bits;
pub mod check;
pub mod entries;
pub mod field;
pub mod forms;
pub mod layout;
pub mod length;
pub mod limit;
pub mod listing;
pub mod operations;
pub mod packed;
pub mod packing;
pub mod passage;
pub mod record;
pub mod refusal;
pub mod rows;
pub mod sm3;
pub mod steps;
