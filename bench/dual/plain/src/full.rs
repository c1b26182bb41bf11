//! Full tables in plain Rust.

use crate::frac::Frac;
use crate::{Dictionary, Program, entering, negated, quotient};

pub struct Full {
    nonbasic: Vec<usize>,
    basic: Vec<usize>,
    pub rows: Vec<Vec<Frac>>,
}

impl Dictionary for Full {
    fn start(p: &Program) -> Full {
        let columns = p.costs.len();
        let mut rows = Vec::new();
        for row in &p.rows {
            let mut slack = vec![Frac::whole(0); columns + 1];
            slack[0] = Frac::whole(row.right - p.left_at_start(row));
            for t in &row.terms {
                slack[t.column + 1] = Frac::whole(-t.by * p.direction(t.column));
            }
            rows.push(slack);
        }
        for j in 0..columns {
            let mut slack = vec![Frac::whole(0); columns + 1];
            slack[0] = Frac::whole(p.upper[j] - p.lower[j]);
            slack[j + 1] = Frac::whole(-1);
            rows.push(slack);
        }
        let mut objective = vec![Frac::whole(p.objective_at_start())];
        objective.extend((0..columns).map(|j| Frac::whole(p.costs[j] * p.direction(j))));
        rows.push(objective);
        Full { nonbasic: (0..columns).collect(), basic: (columns..2 * columns + p.rows.len()).collect(), rows }
    }

    fn nonbasic(&self) -> &[usize] {
        &self.nonbasic
    }

    fn constant(&self, i: usize) -> Frac {
        self.rows[i][0]
    }

    fn at(&self, i: usize, j: usize) -> Frac {
        self.rows[i][j + 1]
    }

    fn leaving(&self) -> Option<usize> {
        let below = (0..self.basic.len()).filter(|&i| self.rows[i][0].num < 0);
        below.min_by_key(|&i| self.basic[i])
    }

    fn rises(&self, i: usize) -> bool {
        self.rows[i][1..].iter().any(|x| x.num > 0)
    }

    fn entering(&self, i: usize) -> Option<Option<usize>> {
        let objective = &self.rows[self.basic.len()];
        let row = self.rows[i][1..].iter().copied().enumerate();
        entering(&self.nonbasic, row, |j| objective[j + 1])
    }

    fn pivot(&mut self, i: usize, j: usize) -> Option<()> {
        let mut solved = self.rows[i].clone();
        let pivot = solved[j + 1];
        solved[j + 1] = Frac::whole(-1);
        for x in &mut solved {
            *x = quotient(negated(*x), pivot)?;
        }
        for (k, row) in self.rows.iter_mut().enumerate() {
            let factor = row[j + 1];
            if k == i || factor.num == 0 {
                continue;
            }
            row[j + 1] = Frac::whole(0);
            for (x, y) in row.iter_mut().zip(&solved) {
                if y.num != 0 {
                    *x = x.add(factor.mul(*y).ok()?).ok()?;
                }
            }
        }
        self.rows[i] = solved;
        std::mem::swap(&mut self.nonbasic[j], &mut self.basic[i]);
        Some(())
    }
}
