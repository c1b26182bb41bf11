//! Rows of whole numbers with one row for a column's variable and the slack of its bound. Where both are basic, one of
//! their rows is kept and the other is the width less it. Where one is nonbasic, the row of the other is the width less that variable, and is not kept.

use crate::frac::Frac;
use crate::rows::{Held, Row, SHORT, entering, leaving, objective_row, slack_rows};
use crate::{Dictionary, Program};

/// What the row of a basic place is.
#[derive(Clone, Copy)]
enum Kept {
    /// a row that is kept
    Own(usize),
    /// the width less a row that is kept
    Mirror(usize),
    /// the width less the variable of a nonbasic place
    Unit(usize),
}

/// The basic place of the other of two variables, and the width that they add up to.
#[derive(Clone, Copy)]
struct Twin {
    place: usize,
    width: i64,
}

pub struct Mirror {
    nonbasic: Vec<usize>,
    basic: Vec<usize>,
    held: Held,
    // for each basic place
    kept: Vec<Kept>,
    below: Vec<bool>,
    // for each kept row its basic place, and its mirror
    own: Vec<usize>,
    mirrors: Vec<Option<Twin>>,
    // for each nonbasic place the other of its variable
    units: Vec<Option<Twin>>,
}

// Tells whether the constants of a kept row and of its mirror are below 0.
#[inline(always)]
fn tell(below: &mut [bool], own: usize, mirror: Option<Twin>, row: &Row) {
    let constant = row.numbers[0];
    below[own] = constant < 0;
    if let Some(mirror) = mirror {
        let other = mirror.width * row.den - constant;
        assert!(-SHORT < other && other < SHORT, "a number that is not short");
        below[mirror.place] = other < 0;
    }
}

impl Mirror {
    // Keeps the row of a mirror in place of the row that it mirrors.
    fn turn(&mut self, r: usize) {
        let mirror = self.mirrors[r].as_mut().expect("a mirror");
        self.held.rows[r].turn(mirror.width);
        std::mem::swap(&mut self.own[r], &mut mirror.place);
        self.kept[self.own[r]] = Kept::Own(r);
        self.kept[mirror.place] = Kept::Mirror(r);
    }

    // The number at place k of a basic place's row.
    fn number(&self, i: usize, k: usize) -> Frac {
        match self.kept[i] {
            Kept::Own(r) => self.held.rows[r].at(k),
            Kept::Mirror(r) => {
                let Row { den, numbers } = &self.held.rows[r];
                let width = if k == 0 { self.mirrors[r].expect("a mirror").width * den } else { 0 };
                Frac::new((width - numbers[k]) as i128, *den as i128)
            }
            Kept::Unit(j) if k == 0 => Frac::whole(self.units[j].expect("another").width as i128),
            Kept::Unit(j) => Frac::whole(-i128::from(j + 1 == k)),
        }
    }
}

impl Dictionary for Mirror {
    fn start(p: &Program) -> Mirror {
        let (columns, count) = (p.costs.len(), p.rows.len());
        let mut rows = slack_rows(p);
        let mut below: Vec<bool> = rows.iter().map(|row| row.numbers[0] < 0).collect();
        below.resize(count + columns + 1, false);
        rows.push(objective_row(p));
        let unit = |j| Some(Twin { place: count + j, width: (p.upper[j] - p.lower[j]) as i64 });
        Mirror {
            nonbasic: (0..columns).collect(),
            basic: (columns..2 * columns + count).collect(),
            held: Held::new(columns, rows),
            kept: (0..count).map(Kept::Own).chain((0..columns).map(Kept::Unit)).chain([Kept::Own(count)]).collect(),
            below,
            own: (0..count).chain([count + columns]).collect(),
            mirrors: vec![None; count + 1],
            units: (0..columns).map(unit).collect(),
        }
    }

    fn nonbasic(&self) -> &[usize] {
        &self.nonbasic
    }

    fn constant(&self, i: usize) -> Frac {
        self.number(i, 0)
    }

    fn at(&self, i: usize, j: usize) -> Frac {
        self.number(i, j + 1)
    }

    fn leaving(&self) -> Option<usize> {
        leaving(&self.basic, &self.below)
    }

    fn rises(&self, i: usize) -> bool {
        match self.kept[i] {
            Kept::Own(r) => self.held.rows[r].numbers[1..].iter().any(|&x| x > 0),
            Kept::Mirror(r) => self.held.rows[r].numbers[1..].iter().any(|&x| x < 0),
            Kept::Unit(_) => false,
        }
    }

    fn entering(&self, i: usize) -> Option<Option<usize>> {
        let objective = &self.held.rows[self.held.rows.len() - 1].numbers;
        match self.kept[i] {
            Kept::Own(r) => Some(entering::<1>(&self.nonbasic, &self.held.rows[r].numbers, objective)),
            Kept::Mirror(r) => Some(entering::<-1>(&self.nonbasic, &self.held.rows[r].numbers, objective)),
            Kept::Unit(_) => Some(None),
        }
    }

    fn pivot(&mut self, i: usize, j: usize) -> Option<()> {
        if let Kept::Mirror(r) = self.kept[i] {
            self.turn(r);
        }
        let Kept::Own(r) = self.kept[i] else { panic!("a width below 0") };
        let (below, own, mirrors) = (&mut self.below, &self.own, &self.mirrors);
        self.held.pivot(r, j, |k, row| tell(below, own[k], mirrors[k], row));
        if let Some(mirror) = self.mirrors[r] {
            self.kept[mirror.place] = Kept::Unit(j);
            self.below[mirror.place] = false;
        }
        std::mem::swap(&mut self.units[j], &mut self.mirrors[r]);
        if let Some(mirror) = self.mirrors[r] {
            self.kept[mirror.place] = Kept::Mirror(r);
        }
        tell(&mut self.below, i, self.mirrors[r], &self.held.rows[r]);
        std::mem::swap(&mut self.nonbasic[j], &mut self.basic[i]);
        Some(())
    }
}
