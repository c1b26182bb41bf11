//! Rows by their entries in plain Rust. `SHORT` says whether products with 1 and -1 and sums of a number
//! and its negative take the short ways of the proved program.

use crate::frac::Frac;
use crate::{Dictionary, Program, entering, negated, quotient};

#[derive(Clone, Copy)]
struct Entry {
    place: u32,
    number: Frac,
}

struct Line {
    constant: Frac,
    entries: Vec<Entry>,
}

pub struct Sparse<const SHORT: bool> {
    nonbasic: Vec<usize>,
    basic: Vec<usize>,
    lines: Vec<Line>,
    scratch: Vec<Entry>,
}

fn number_of(entries: &[Entry], place: usize) -> Frac {
    match entries.binary_search_by_key(&(place as u32), |e| e.place) {
        Ok(k) => entries[k].number,
        Err(_) => Frac::whole(0),
    }
}

fn entry(place: usize, number: i128) -> Entry {
    Entry { place: place as u32, number: Frac::whole(number) }
}

fn is_whole(x: Frac, n: i128) -> bool {
    x.num == n && x.den == 1
}

#[inline(always)]
fn product<const SHORT: bool>(x: Frac, y: Frac) -> Option<Frac> {
    if SHORT {
        if is_whole(x, 1) {
            return Some(y);
        }
        if is_whole(x, -1) {
            return Some(negated(y));
        }
        if is_whole(y, 1) {
            return Some(x);
        }
        if is_whole(y, -1) {
            return Some(negated(x));
        }
    }
    x.mul(y).ok()
}

#[inline(always)]
fn sum<const SHORT: bool>(x: Frac, y: Frac) -> Option<Frac> {
    if SHORT && y.num == -x.num && y.den == x.den {
        return Some(Frac::whole(0));
    }
    x.add(y).ok()
}

// x + a * y for each place, into `merged`.
fn merge<const SHORT: bool>(a: Frac, xs: &[Entry], ys: &[Entry], merged: &mut Vec<Entry>) -> Option<()> {
    merged.clear();
    let (mut x, mut y) = (0, 0);
    while x < xs.len() && y < ys.len() {
        let (left, right) = (xs[x], ys[y]);
        if left.place < right.place {
            merged.push(left);
            x += 1;
            continue;
        }
        let part = product::<SHORT>(a, right.number)?;
        y += 1;
        if right.place < left.place {
            merged.push(Entry { place: right.place, number: part });
            continue;
        }
        x += 1;
        let number = sum::<SHORT>(left.number, part)?;
        if number.num != 0 {
            merged.push(Entry { place: right.place, number });
        }
    }
    merged.extend_from_slice(&xs[x..]);
    for right in &ys[y..] {
        merged.push(Entry { place: right.place, number: product::<SHORT>(a, right.number)? });
    }
    Some(())
}

impl<const SHORT: bool> Dictionary for Sparse<SHORT> {
    fn start(p: &Program) -> Self {
        let columns = p.costs.len();
        let mut lines = Vec::new();
        for row in &p.rows {
            let entries = row.terms.iter().map(|t| entry(t.column, -t.by * p.direction(t.column))).collect();
            lines.push(Line { constant: Frac::whole(row.right - p.left_at_start(row)), entries });
        }
        for j in 0..columns {
            lines.push(Line { constant: Frac::whole(p.upper[j] - p.lower[j]), entries: vec![entry(j, -1)] });
        }
        let costs = (0..columns).filter(|&j| p.costs[j] != 0);
        let entries = costs.map(|j| entry(j, p.costs[j] * p.direction(j))).collect();
        lines.push(Line { constant: Frac::whole(p.objective_at_start()), entries });
        let basic = (columns..2 * columns + p.rows.len()).collect();
        Sparse { nonbasic: (0..columns).collect(), basic, lines, scratch: Vec::new() }
    }

    fn nonbasic(&self) -> &[usize] {
        &self.nonbasic
    }

    fn constant(&self, i: usize) -> Frac {
        self.lines[i].constant
    }

    fn at(&self, i: usize, j: usize) -> Frac {
        number_of(&self.lines[i].entries, j)
    }

    fn leaving(&self) -> Option<usize> {
        let below = (0..self.basic.len()).filter(|&i| self.lines[i].constant.num < 0);
        below.min_by_key(|&i| self.basic[i])
    }

    fn rises(&self, i: usize) -> bool {
        self.lines[i].entries.iter().any(|e| e.number.num > 0)
    }

    fn entering(&self, i: usize) -> Option<Option<usize>> {
        let objective = &self.lines[self.basic.len()].entries;
        let row = self.lines[i].entries.iter().map(|e| (e.place as usize, e.number));
        entering(&self.nonbasic, row, |j| number_of(objective, j))
    }

    fn pivot(&mut self, i: usize, j: usize) -> Option<()> {
        let line = &self.lines[i];
        let pivot = number_of(&line.entries, j);
        let mut solved = Line { constant: quotient(negated(line.constant), pivot)?, entries: line.entries.clone() };
        for e in &mut solved.entries {
            let old = if e.place as usize == j { Frac::whole(-1) } else { e.number };
            e.number = quotient(negated(old), pivot)?;
        }
        for (k, line) in self.lines.iter_mut().enumerate() {
            if k == i {
                continue;
            }
            let Ok(place) = line.entries.binary_search_by_key(&(j as u32), |e| e.place) else {
                continue;
            };
            let factor = line.entries[place].number;
            line.constant = line.constant.add(factor.mul(solved.constant).ok()?).ok()?;
            line.entries[place].number = Frac::whole(0);
            merge::<SHORT>(factor, &line.entries, &solved.entries, &mut self.scratch)?;
            std::mem::swap(&mut line.entries, &mut self.scratch);
        }
        self.lines[i] = solved;
        std::mem::swap(&mut self.nonbasic[j], &mut self.basic[i]);
        Some(())
    }
}
