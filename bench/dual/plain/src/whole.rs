//! Rows of whole numbers, one for each basic variable, as `Whole` of tetri_dictionary.

use crate::frac::Frac;
use crate::rows::{Held, Row, entering, leaving, objective_row, slack_rows};
use crate::{Dictionary, Program};

pub struct Whole {
    nonbasic: Vec<usize>,
    basic: Vec<usize>,
    held: Held,
    // whether the constant of each row is below 0
    below: Vec<bool>,
}

impl Dictionary for Whole {
    fn start(p: &Program) -> Whole {
        let columns = p.costs.len();
        let mut rows = slack_rows(p);
        rows.extend((0..columns).map(|j| Row::new(columns, p.upper[j] - p.lower[j], &[(j, -1)])));
        rows.push(objective_row(p));
        let below = rows.iter().map(|row| row.numbers[0] < 0).collect();
        let basic = (columns..2 * columns + p.rows.len()).collect();
        Whole { nonbasic: (0..columns).collect(), basic, held: Held::new(columns, rows), below }
    }

    fn nonbasic(&self) -> &[usize] {
        &self.nonbasic
    }

    fn constant(&self, i: usize) -> Frac {
        self.held.rows[i].at(0)
    }

    fn at(&self, i: usize, j: usize) -> Frac {
        self.held.rows[i].at(j + 1)
    }

    fn leaving(&self) -> Option<usize> {
        leaving(&self.basic, &self.below)
    }

    fn rises(&self, i: usize) -> bool {
        self.held.rows[i].numbers[1..].iter().any(|&x| x > 0)
    }

    fn entering(&self, i: usize) -> Option<Option<usize>> {
        let objective = &self.held.rows[self.basic.len()].numbers;
        Some(entering::<1>(&self.nonbasic, &self.held.rows[i].numbers, objective))
    }

    fn pivot(&mut self, i: usize, j: usize) -> Option<()> {
        let below = &mut self.below;
        self.held.pivot(i, j, |k, row| below[k] = row.numbers[0] < 0);
        self.below[i] = self.held.rows[i].numbers[0] < 0;
        std::mem::swap(&mut self.nonbasic[j], &mut self.basic[i]);
        Some(())
    }
}
