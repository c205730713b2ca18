//! The inverse of a system whose rows are the powers of distinct points, by Lagrange's polynomials, in s^2 steps.

use super::code::MOST;
use super::field::{over, times};

pub type Square = [[u8; MOST]; MOST];

/// The product of all z - x, lowest power first; its highest factor, one, is left out.
fn whole(points: &[u8]) -> [u8; MOST] {
    let mut factors = [0; MOST];
    factors[0] = points[0];
    for (n, x) in points.iter().enumerate().skip(1) {
        factors[n] = factors[n - 1] ^ x;
        for i in (1..n).rev() {
            factors[i] = factors[i - 1] ^ times(factors[i], *x);
        }
        factors[0] = times(factors[0], *x);
    }
    factors
}

/// Row j has the polynomial that is 1 at point j and 0 at the others: entry i is the inverse's in row i and column j.
pub fn basis(points: &[u8]) -> Square {
    let s = points.len();
    let all = whole(points);
    let mut square = [[0; MOST]; MOST];
    for (x, row) in points.iter().zip(&mut square) {
        let (mut factor, mut at) = (1, 1);
        row[s - 1] = 1;
        for i in (0..s - 1).rev() {
            factor = all[i + 1] ^ times(factor, *x);
            row[i] = factor;
            at = factor ^ times(at, *x);
        }
        let scale = over(1, at);
        row[..s].iter_mut().for_each(|entry| *entry = times(scale, *entry));
    }
    square
}
