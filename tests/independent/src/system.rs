//! Elimination on a whole system of equations, in one flat array.

use crate::field::{add_times, product, quotient};

/// Solves `unknowns` equations. Each row of `cells` has `width` entries: first the
/// factors of the unknowns, then a right side for each system solved at once.
/// Afterwards row i has the values of unknown i on its right sides.
/// Answers false where the equations depend on each other.
pub fn solve(cells: &mut [u8], unknowns: usize, width: usize) -> bool {
    for column in 0..unknowns {
        let Some(pivot) = (column..unknowns).find(|row| cells[row * width + column] != 0) else {
            return false;
        };
        swap_rows(cells, pivot, column, width);
        clear_column(cells, unknowns, column, width);
    }
    true
}

fn swap_rows(cells: &mut [u8], one: usize, other: usize, width: usize) {
    for i in 0..width {
        cells.swap(one * width + i, other * width + i);
    }
}

/// Makes the pivot one, and the other entries of its column zero.
fn clear_column(cells: &mut [u8], unknowns: usize, column: usize, width: usize) {
    let (above, from) = cells.split_at_mut(column * width);
    let (pivot, below) = from.split_at_mut(width);
    let inverse = quotient(1, pivot[column]);
    for entry in &mut pivot[column..] {
        *entry = product(*entry, inverse);
    }
    let rows = above.chunks_exact_mut(width).chain(below.chunks_exact_mut(width));
    for row in rows.take(unknowns - 1) {
        let factor = row[column];
        if factor != 0 {
            add_times(&mut row[column..], factor, &pivot[column..]);
        }
    }
}
