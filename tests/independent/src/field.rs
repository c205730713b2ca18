//! The field of 256 symbols, by shifting. No table anywhere.

/// 1 + x^2 + x^3 + x^4 + x^8 without its highest term.
const REDUCTION: u8 = 0x1d;

/// All ones where the lowest bit is set, else zero.
#[inline(always)]
fn spread(bit: u8) -> u8 {
    0u8.wrapping_sub(bit & 1)
}

/// Without branches, so that a row times one factor is quick.
#[inline(always)]
pub fn product(a: u8, b: u8) -> u8 {
    let (mut shifted, mut total) = (a, 0);
    for bit in 0..8 {
        total ^= shifted & spread(b >> bit);
        shifted = (shifted << 1) ^ (REDUCTION & spread(shifted >> 7));
    }
    total
}

/// b^254 is the inverse of b, and zero for zero: so a quotient by zero is zero.
pub fn quotient(a: u8, b: u8) -> u8 {
    let (mut square, mut inverse) = (b, 1);
    for _ in 0..7 {
        square = product(square, square);
        inverse = product(inverse, square);
    }
    product(a, inverse)
}

/// By repeated product; x^0 is 1 for every x.
pub fn power(x: u8, n: usize) -> u8 {
    (0..n).fold(1, |total, _| product(total, x))
}

/// Adds `factor` times `from` to `to`, entry by entry.
pub fn add_times(to: &mut [u8], factor: u8, from: &[u8]) {
    for (entry, other) in to.iter_mut().zip(from) {
        *entry ^= product(*other, factor);
    }
}

/// The sum of the products of two runs, entry by entry.
pub fn dot(a: &[u8], b: &[u8]) -> u8 {
    a.iter().zip(b).fold(0, |total, (x, y)| total ^ product(*x, *y))
}
