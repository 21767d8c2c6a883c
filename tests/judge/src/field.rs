//! "p = 2^61 - 1 = 2305843009213693951."

pub const P: u64 = 2305843009213693951;

/// A whole number, negative ones too, as a number from 0 to p - 1.
pub fn from_signed(number: i64) -> u64 {
    number.rem_euclid(P as i64) as u64
}

/// Both arguments below p, the result too.
pub fn add(x: u64, y: u64) -> u64 {
    (x + y) % P
}

/// The same of a product.
pub fn multiply(x: u64, y: u64) -> u64 {
    (u128::from(x) * u128::from(y) % u128::from(P)) as u64
}
