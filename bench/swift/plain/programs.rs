// Programs, regions, fractions and marks as the engine sees them, and the tests of what it proposes.


pub struct Term {
    pub column: u32,
    pub by: i128,
}

pub struct Row {
    pub terms: Vec<Term>,
    pub right: i128,
}

pub struct Program {
    pub costs: Vec<i128>,
    pub lower: Vec<i128>,
    pub upper: Vec<i128>,
    pub rows: Vec<Row>,
}

#[derive(Clone)]
pub struct Region {
    pub lower: Vec<i128>,
    pub upper: Vec<i128>,
}

pub struct Weight {
    pub row: u32,
    pub by: i128,
}

#[derive(Clone, Copy)]
pub struct Frac {
    pub num: i128,
    pub den: i128,
}

#[derive(Clone, Copy)]
pub struct Branch {
    pub column: u32,
    pub at: i128,
}

pub enum Mark {
    Split { column: u32, at: i128 },
    Close {},
    Whole {},
    Rest {},
}

pub enum Proposal {
    Close {
        q: i128,
        weights: Vec<Weight>,
    },
    Whole {
        q: i128,
        weights: Vec<Weight>,
        point: Vec<i128>,
    },
    Split {
        column: u32,
        at: i128,
    },
}

pub trait Engine {
    fn propose(&mut self, p: &Program, r: &Region, best: u64) -> Option<Proposal>;
    fn follow(&mut self, p: &Program, r: &Region, mark: &Mark);
}

pub fn product(a: i128, b: i128) -> Option<i128> {
    a.checked_mul(b)
}

pub fn add_product(sum: i128, a: i128, b: i128) -> Option<i128> {
    a.checked_mul(b)?.checked_add(sum)
}

pub fn gcd(a: i128, b: i128) -> i128 {
    let (mut x, mut y) = (a.unsigned_abs(), b.unsigned_abs());
    while y != 0 {
        (x, y) = (y, x % y);
    }
    x as i128
}

impl Frac {
    pub fn new(num: i128, den: i128) -> Frac {
        let by = gcd(num, den).max(1);
        Frac {
            num: num / by,
            den: den / by,
        }
    }

    pub fn floor(self) -> i128 {
        self.num.div_euclid(self.den)
    }
}

pub fn of_point(branch: Option<Branch>, q: i128, weights: Vec<Weight>, point: Vec<Frac>) -> Proposal {
    match branch {
        Some(branch) => Proposal::Split {
            column: branch.column,
            at: branch.at,
        },
        None => Proposal::Whole {
            q,
            weights,
            point: point.iter().map(|x| x.num).collect(),
        },
    }
}

impl Program {
    pub fn worth(&self, point: &[i128]) -> i128 {
        self.costs.iter().zip(point).map(|(cost, x)| cost * x).sum()
    }

    pub fn holds(&self, r: &Region, point: &[i128]) -> bool {
        (0..point.len()).all(|j| r.lower[j] <= point[j] && point[j] <= r.upper[j])
            && self.rows.iter().all(|row| {
                row.terms
                    .iter()
                    .map(|t| t.by * point[t.column as usize])
                    .sum::<i128>()
                    <= row.right
            })
    }

    // The greatest value over the region of the objective so often less what the rows take from it.
    fn weigh(&self, r: &Region, q: i128, weights: &[Weight]) -> Option<i128> {
        let mut sum: i128 = 0;
        let mut factors = self
            .costs
            .iter()
            .map(|c| c.checked_mul(q))
            .collect::<Option<Vec<_>>>()?;
        for w in weights {
            let row = &self.rows[w.row as usize];
            sum = add_product(sum, w.by, row.right)?;
            for t in &row.terms {
                let factor = &mut factors[t.column as usize];
                *factor = factor.checked_sub(t.by.checked_mul(w.by)?)?;
            }
        }
        for (j, factor) in factors.iter().enumerate() {
            sum = add_product(
                sum,
                *factor,
                if *factor > 0 { r.upper[j] } else { r.lower[j] },
            )?;
        }
        Some(sum)
    }

    fn bounds(&self, r: &Region, q: i128, weights: &[Weight], most: i128) -> bool {
        let ascend = weights.windows(2).all(|pair| pair[0].row < pair[1].row);
        let plain = weights
            .iter()
            .all(|w| (w.row as usize) < self.rows.len() && w.by > 0);
        match (ascend && plain && q >= 0)
            .then(|| self.weigh(r, q, weights))
            .flatten()
        {
            Some(sum) if q == 0 => sum < 0,
            Some(sum) => sum.div_euclid(q) <= most,
            None => false,
        }
    }

    pub fn passes(&self, r: &Region, best: u64, proposal: &Proposal) -> bool {
        match proposal {
            Proposal::Close { q, weights } => self.bounds(r, *q, weights, best as i128),
            Proposal::Whole { q, weights, point } => {
                let worth = self.worth(point);
                self.holds(r, point) && worth > best as i128 && self.bounds(r, *q, weights, worth)
            }
            Proposal::Split { column, at, .. } => {
                let j = *column as usize;
                r.lower[j] <= *at && *at < r.upper[j]
            }
        }
    }
}
