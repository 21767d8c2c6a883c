//! The judge's digests beside OpenSSL's, which takes whole bytes alone.

use host::openssl::one_call;
use judge::record::Record;
use judge::sm3;

/// What pads a message of so many whole blocks: one block more.
fn padding_block(blocks: usize) -> [u8; 64] {
    let mut block = [0; 64];
    block[0] = 0x80;
    block[56..].copy_from_slice(&(512 * blocks as u64).to_be_bytes());
    block
}

/// Whether the digest of a record of whole bytes is OpenSSL's.
pub fn agrees(record: &Record) -> bool {
    one_call(record.bytes()) == sm3::hash(record)
}

/// For a record that ends inside a byte OpenSSL is given the padded message,
/// which is whole bytes. It goes through the same blocks, on which the digest
/// stands, and then through a block of its own padding. With that block the
/// digest must become OpenSSL's.
pub fn agrees_a_block_later(record: &Record) -> bool {
    let message = sm3::pad(record);
    let blocks = sm3::blocks(&message);
    let last = blocks.last().expect("a message has a block");
    let later = sm3::compress(&last.result, &padding_block(blocks.len()));
    one_call(&message) == sm3::words_to_bytes(&later.result)
}
