//! Rows of whole numbers over one denominator, their constants first, as in tetri_rows. Where a number is not short,
//! this program fails, and the proved one goes on with fractions.

use crate::Program;
use crate::frac::{Frac, gcd};

pub const SHORT: i64 = 1 << 31;

pub struct Row {
    pub den: i64,
    pub numbers: Vec<i64>,
}

/// The places at which a row is not 0, and the numbers there.
#[derive(Default)]
pub struct Terms {
    pub places: Vec<usize>,
    numbers: Vec<i64>,
}

impl Terms {
    pub fn list(&mut self, row: &[i64]) {
        self.places.clear();
        self.numbers.clear();
        for (k, &number) in row.iter().enumerate() {
            if number != 0 {
                self.places.push(k);
                self.numbers.push(number);
            }
        }
    }
}

// A number within a row, which the proved program reads and writes without a test.
#[inline(always)]
fn get(row: &[i64], k: usize) -> i64 {
    debug_assert!(k < row.len());
    unsafe { *row.get_unchecked(k) }
}

#[inline(always)]
fn set(row: &mut [i64], k: usize, number: i64) {
    debug_assert!(k < row.len());
    unsafe { *row.get_unchecked_mut(k) = number }
}

#[inline(always)]
fn divided(n: i64, g: i64) -> i64 {
    if g == 1 { n } else { n / g }
}

fn divisor(numbers: impl Iterator<Item = i64>, den: i64) -> i64 {
    let mut g = den;
    for x in numbers {
        if g == 1 {
            return 1;
        }
        g = gcd(x as i128, g as i128) as i64;
    }
    g
}

impl Row {
    /// A row of whole numbers.
    pub fn new(columns: usize, constant: i128, entries: &[(usize, i128)]) -> Row {
        let mut numbers = vec![0; columns + 1];
        numbers[0] = constant as i64;
        for &(place, number) in entries {
            numbers[place + 1] = number as i64;
        }
        Row { den: 1, numbers }
    }

    pub fn at(&self, k: usize) -> Frac {
        Frac::new(self.numbers[k] as i128, self.den as i128)
    }

    /// Solved for the variable at place j.
    pub fn solved(&self, j: usize) -> Row {
        let mut numbers = self.numbers.clone();
        let pivot = numbers[j];
        numbers[j] = -self.den;
        if pivot > 0 {
            numbers.iter_mut().for_each(|x| *x = -*x);
        }
        let g = divisor(numbers.iter().copied(), pivot.abs());
        let mut solved = Row { den: pivot.abs(), numbers };
        if g != 1 {
            solved.divide(g);
        }
        solved
    }

    /// The width less the row.
    pub fn turn(&mut self, width: i64) {
        self.numbers.iter_mut().for_each(|x| *x = -*x);
        self.numbers[0] += width * self.den;
    }

    #[inline(always)]
    pub fn put_in(&mut self, j: usize, solved: &Row, terms: &Terms) {
        let scale = divided(solved.den, gcd(self.numbers[j] as i128, solved.den as i128) as i64);
        if self.scale(scale) {
            if self.add_terms(j, solved.den, terms) {
                return;
            }
            self.divide(scale);
        }
        self.add_multiple(j, solved);
    }

    fn divide(&mut self, by: i64) {
        self.numbers.iter_mut().for_each(|x| *x = divided(*x, by));
        self.den = divided(self.den, by);
    }

    fn scale(&mut self, scale: i64) -> bool {
        if scale == 1 {
            return true;
        }
        let wider = self.den * scale;
        if self.numbers.iter().fold(wider, |most, x| most.max((x * scale).abs())) >= SHORT {
            return false;
        }
        self.numbers.iter_mut().for_each(|x| *x *= scale);
        self.den = wider;
        true
    }

    fn add_terms(&mut self, j: usize, pivot_den: i64, terms: &Terms) -> bool {
        let f = self.numbers[j];
        let by = divided(f, pivot_den);
        self.numbers[j] = 0;
        if !fits(by, &self.numbers, &terms.places, &terms.numbers) {
            self.numbers[j] = f;
            return false;
        }
        write_terms(by, &mut self.numbers, &terms.places, &terms.numbers);
        true
    }

    // At each place, with the common divisor left out.
    #[cold]
    fn add_multiple(&mut self, j: usize, solved: &Row) {
        let (f, d) = (self.numbers[j], solved.den);
        self.numbers[j] = 0;
        self.numbers.iter_mut().zip(&solved.numbers).for_each(|(x, y)| *x = *x * d + f * y);
        self.den *= d;
        self.divide(divisor(self.numbers.iter().copied(), self.den));
        assert!(self.den < SHORT && self.numbers.iter().all(|x| x.abs() < SHORT), "a number that is not short");
    }
}

fn fits(f: i64, row: &[i64], places: &[usize], numbers: &[i64]) -> bool {
    for k in 0..places.len() {
        let new = get(row, places[k]) + f * get(numbers, k);
        if new <= -SHORT || new >= SHORT {
            return false;
        }
    }
    true
}

fn write_terms(f: i64, row: &mut [i64], places: &[usize], numbers: &[i64]) {
    for k in 0..places.len() {
        let place = places[k];
        set(row, place, get(row, place) + f * get(numbers, k));
    }
}

// Whether minus o over a is less than minus p over b.
#[inline(always)]
fn is_lesser_ratio(o: i64, a: i64, p: i64, b: i64) -> bool {
    -o * b < -p * a
}

/// The nonbasic place that enters for a leaving row, whose numbers have this sign.
#[inline(always)]
pub fn entering<const SIGN: i64>(nonbasic: &[usize], row: &[i64], objective: &[i64]) -> Option<usize> {
    let mut best: Option<usize> = None;
    for k in 0..nonbasic.len() {
        let a = SIGN * row[k + 1];
        if a <= 0 {
            continue;
        }
        let Some(b) = best else {
            best = Some(k);
            continue;
        };
        let (o, p, other) = (objective[k + 1], objective[b + 1], SIGN * row[b + 1]);
        let ties = || !is_lesser_ratio(p, other, o, a) && nonbasic[k] < nonbasic[b];
        if is_lesser_ratio(o, a, p, other) || ties() {
            best = Some(k);
        }
    }
    best
}

/// The basic place that leaves: of those whose constants are below 0 the one with the least variable.
pub fn leaving(basic: &[usize], below: &[bool]) -> Option<usize> {
    let mut best: Option<usize> = None;
    for k in 0..basic.len() {
        if below[k] && best.is_none_or(|b| basic[k] < basic[b]) {
            best = Some(k);
        }
    }
    best
}

// The first set bit from one on, or `end`.
#[inline(always)]
fn next_set(words: &[u64], from: usize, end: usize) -> usize {
    let first = from / 64;
    let rest = words[first] >> (from % 64);
    if rest != 0 {
        return end.min(from + rest.trailing_zeros() as usize);
    }
    for place in first + 1..words.len() {
        if words[place] != 0 {
            return end.min(place * 64 + words[place].trailing_zeros() as usize);
        }
    }
    end
}

/// Rows with, for each column, a bit for each row that may have its variable.
pub struct Held {
    pub rows: Vec<Row>,
    holders: Vec<Vec<u64>>,
    terms: Terms,
}

impl Held {
    pub fn new(columns: usize, rows: Vec<Row>) -> Held {
        let mut holders = vec![vec![0; rows.len() / 64 + 1]; columns];
        for (k, row) in rows.iter().enumerate() {
            for (words, _) in holders.iter_mut().zip(&row.numbers[1..]).filter(|(_, x)| **x != 0) {
                words[k / 64] |= 1 << (k % 64);
            }
        }
        Held { rows, holders, terms: Terms::default() }
    }

    /// Exchanges the variable of row i and that of column j. Tells of each other row that changes.
    #[inline(always)]
    pub fn pivot(&mut self, i: usize, j: usize, mut changed: impl FnMut(usize, &Row)) {
        let mut own = self.holders[j].clone();
        let solved = self.rows[i].solved(j + 1);
        self.terms.list(&solved.numbers);
        let mut k = next_set(&own, 0, self.rows.len());
        while k < self.rows.len() {
            let row = &mut self.rows[k];
            if row.numbers[j + 1] == 0 {
                own[k / 64] &= !(1 << (k % 64));
            } else if k != i {
                row.put_in(j + 1, &solved, &self.terms);
                changed(k, row);
            }
            k = next_set(&own, k + 1, self.rows.len());
        }
        self.rows[i] = solved;
        for &place in self.terms.places.iter().filter(|place| **place != 0) {
            for (word, more) in self.holders[place - 1].iter_mut().zip(&own) {
                *word |= more;
            }
        }
        self.holders[j] = own;
    }
}

/// The rows of the rows' slacks.
pub fn slack_rows(p: &Program) -> Vec<Row> {
    let entries = |row: &crate::Row| row.terms.iter().map(|t| (t.column, -t.by * p.direction(t.column))).collect::<Vec<_>>();
    p.rows.iter().map(|row| Row::new(p.costs.len(), row.right - p.left_at_start(row), &entries(row))).collect()
}

/// The objective's row.
pub fn objective_row(p: &Program) -> Row {
    let entries: Vec<_> = (0..p.costs.len()).map(|j| (j, p.costs[j] * p.direction(j))).collect();
    Row::new(p.costs.len(), p.objective_at_start(), &entries)
}
