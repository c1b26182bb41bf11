//! Full tables that count which rows leave the bound of rows of whole numbers, and which come back.

use crate::frac::{Frac, gcd};
use crate::full::Full;
use crate::{Dictionary, Program};

const SHORT: i128 = 1 << 31;

// Whether the numbers of a row are short over their least common denominator, and it too.
fn is_short(row: &[Frac]) -> bool {
    let mut den = 1;
    for x in row {
        if x.den >= SHORT || x.num.abs() >= SHORT {
            return false;
        }
        den *= x.den / gcd(den, x.den);
        if den >= SHORT {
            return false;
        }
    }
    row.iter().all(|x| (x.num * (den / x.den)).abs() < SHORT)
}

pub struct Bound {
    table: Full,
    short: Vec<bool>,
    pub left: u32,
    pub back: u32,
}

impl Dictionary for Bound {
    fn start(p: &Program) -> Bound {
        let table = Full::start(p);
        let short = table.rows.iter().map(|row| is_short(row)).collect();
        Bound { table, short, left: 0, back: 0 }
    }

    fn nonbasic(&self) -> &[usize] {
        self.table.nonbasic()
    }

    fn constant(&self, i: usize) -> Frac {
        self.table.constant(i)
    }

    fn at(&self, i: usize, j: usize) -> Frac {
        self.table.at(i, j)
    }

    fn leaving(&self) -> Option<usize> {
        self.table.leaving()
    }

    fn rises(&self, i: usize) -> bool {
        self.table.rises(i)
    }

    fn entering(&self, i: usize) -> Option<Option<usize>> {
        self.table.entering(i)
    }

    fn pivot(&mut self, i: usize, j: usize) -> Option<()> {
        self.table.pivot(i, j)?;
        for (was, row) in self.short.iter_mut().zip(&self.table.rows) {
            let is = is_short(row);
            self.left += u32::from(*was && !is);
            self.back += u32::from(!*was && is);
            *was = is;
        }
        Some(())
    }
}
