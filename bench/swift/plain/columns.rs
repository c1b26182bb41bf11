// What counts for a column that is not whole.

use crate::programs::{Frac, Program};

const MOST: i128 = 1 << 60;
const PARTS: i128 = 1 << 20;

// How far a number is from the nearest whole one, in parts of `PARTS`.
fn distance(x: Frac) -> i128 {
    let above = x.num.rem_euclid(x.den);
    let near = above.min(x.den - above);
    if x.den < MOST {
        return near * PARTS / x.den;
    }
    near / (x.den / PARTS)
}

// What a unit of a column's distance counts: one more than its cost, and 100 times that where the
// column is 0 or 1 in the program's box.
fn factor(p: &Program, j: usize) -> i128 {
    let cost = number(&p.costs, j).max(0).min(MOST);
    if number(&p.lower, j) == 0 && number(&p.upper, j) == 1 {
        return 100 * (1 + cost);
    }
    1 + cost
}

fn number(numbers: &[i128], j: usize) -> i128 {
    match numbers.get(j) {
        Some(number) => *number,
        None => 0,
    }
}

/// What a column's number counts: its factor times its distance from a whole number.
pub fn urgency(p: &Program, j: usize, x: Frac) -> i128 {
    factor(p, j).saturating_mul(distance(x))
}
