//! The program tetri_bench dual in plain Rust: the same programs, rules and output.
//!
//! `plain full|sparse|general|whole|mirror SIDE KINDS` runs a square of columns, `plain full|sparse|general|whole|mirror FILE` the
//! program of a file by bench/dual/cycle. `general` is sparse rows without the short ways for 1 and -1, `whole` rows of whole numbers as the proved
//! program has them, and `mirror` the same with one row for a column's variable and the slack of its bound. `plain bound ..` runs
//! the full table and writes how often a row leaves the bound of rows of whole numbers, and how often one comes back.
//! `plain sparse|general|whole|mirror tree FILE TREE` makes the runs of the nodes of a search of that program, whose lines
//! stand in the file TREE as tetri_bench writes them, and tells how many runs and pivots they are.

mod bound;
mod frac;
mod full;
mod mirror;
mod rows;
mod sparse;
mod tree;
mod whole;

use std::cmp::Ordering;
use std::time::Duration;

use bound::Bound;
use frac::{Frac, gcd};
use full::Full;
use mirror::Mirror;
use sparse::Sparse;
use whole::Whole;

struct Term {
    column: usize,
    by: i128,
}

struct Row {
    terms: Vec<Term>,
    right: i128,
}

struct Program {
    costs: Vec<i128>,
    lower: Vec<i128>,
    upper: Vec<i128>,
    rows: Vec<Row>,
}

impl Program {
    // What the variable of a column adds to it: -1 from its upper bound, 1 from its lower one.
    fn direction(&self, column: usize) -> i128 {
        if self.costs[column] > 0 { -1 } else { 1 }
    }

    fn start_of(&self, column: usize) -> i128 {
        if self.costs[column] > 0 { self.upper[column] } else { self.lower[column] }
    }

    fn left_at_start(&self, row: &Row) -> i128 {
        row.terms.iter().map(|t| t.by * self.start_of(t.column)).sum()
    }

    fn objective_at_start(&self) -> i128 {
        (0..self.costs.len()).map(|j| self.costs[j] * self.start_of(j)).sum()
    }
}

fn spread_row(base: u32, gap: u32, side: u32, kinds: u32, right: i128) -> Row {
    let terms = (0..side)
        .map(|k| Term { column: (k * gap + base) as usize, by: 1 + ((k + base) % kinds) as i128 })
        .collect();
    Row { terms, right }
}

/// Columns from 0 to 1 in a square, and a limit for each row and each column of the square.
fn square(side: u32, kinds: u32) -> Program {
    let costs: Vec<i128> = (0..side * side).map(|j| 1 + (j * 37 % 101) as i128).collect();
    let along = (0..side).map(|i| spread_row(i * side, 1, side, kinds, (side / 2) as i128));
    let across = (0..side).map(|j| spread_row(j, side, side, kinds, (side / 3) as i128));
    Program { lower: vec![0; costs.len()], upper: vec![1; costs.len()], costs, rows: along.chain(across).collect() }
}

/// The numbers of a file: columns and rows; the costs; the upper bounds; of each row its right side, how many terms it has, and their columns and coefficients.
fn read(path: &str) -> Program {
    let text = std::fs::read_to_string(path).expect("a file to read");
    let mut numbers = text.split_whitespace().map(|word| word.parse::<i128>().expect("a number"));
    let mut next = || numbers.next().expect("a number more");
    let (columns, rows) = (next(), next());
    let costs: Vec<i128> = (0..columns).map(|_| next()).collect();
    let upper = (0..columns).map(|_| next()).collect();
    let mut row = || {
        let (right, terms) = (next(), next());
        Row { right, terms: (0..terms).map(|_| Term { column: next() as usize, by: next() }).collect() }
    };
    Program { lower: vec![0; costs.len()], costs, upper, rows: (0..rows).map(|_| row()).collect() }
}

fn negated(x: Frac) -> Frac {
    Frac { num: -x.num, den: x.den }
}

fn quotient(x: Frac, by: Frac) -> Option<Frac> {
    let sign = by.num.signum();
    x.mul(Frac { num: by.den * sign, den: by.num * sign }).ok()
}

fn compare(x: Frac, y: Frac) -> Ordering {
    if x.den == y.den {
        return x.num.cmp(&y.num);
    }
    match (x.num.checked_mul(y.den), y.num.checked_mul(x.den)) {
        (Some(a), Some(b)) => a.cmp(&b),
        _ => panic!("a comparison outside the range"),
    }
}

trait Dictionary {
    fn start(p: &Program) -> Self;
    fn nonbasic(&self) -> &[usize];
    fn constant(&self, i: usize) -> Frac;
    fn at(&self, i: usize, j: usize) -> Frac;
    fn leaving(&self) -> Option<usize>;
    fn rises(&self, i: usize) -> bool;
    fn entering(&self, i: usize) -> Option<Option<usize>>;
    fn pivot(&mut self, i: usize, j: usize) -> Option<()>;
}

fn entering(
    nonbasic: &[usize],
    row: impl Iterator<Item = (usize, Frac)>,
    objective: impl Fn(usize) -> Frac,
) -> Option<Option<usize>> {
    let mut best: Option<(usize, Frac)> = None;
    for (j, coefficient) in row {
        if coefficient.num > 0 {
            let ratio = quotient(negated(objective(j)), coefficient)?;
            best = match best {
                Some((b, least)) => match compare(ratio, least) {
                    Ordering::Less => Some((j, ratio)),
                    Ordering::Equal if nonbasic[j] < nonbasic[b] => Some((j, ratio)),
                    _ => best,
                },
                None => Some((j, ratio)),
            };
        }
    }
    Some(best.map(|(j, _)| j))
}

enum End {
    Cut { q: i128, sum: i128 },
    Best { q: i128, sum: i128 },
    Empty,
    Past,
    Long,
}

fn weighed<D: Dictionary>(p: &Program, d: &D) -> Option<(i128, i128)> {
    let first = p.costs.len();
    let objective = p.rows.len() + first;
    let at = |variable| d.nonbasic().iter().position(|&v| v == variable);
    let weights: Vec<Frac> =
        (0..p.rows.len()).map(|i| at(first + i).map_or(Frac::whole(0), |j| negated(d.at(objective, j)))).collect();
    let mut q: i128 = 1;
    for w in &weights {
        q = (q / gcd(q, w.den)).checked_mul(w.den)?;
    }
    let mut sum: i128 = 0;
    for w in &weights {
        sum = sum.wrapping_add(w.num.checked_mul(q / w.den)?);
    }
    Some((q, sum))
}

#[inline(never)]
fn dual_run<D: Dictionary>(p: &Program, best: i128) -> (End, u32) {
    run_over(&mut D::start(p), p, best)
}

#[inline(always)]
fn run_over<D: Dictionary>(d: &mut D, p: &Program, best: i128) -> (End, u32) {
    let objective = p.rows.len() + p.costs.len();
    for step in 0.. {
        let worth = d.constant(objective);
        if worth.num.div_euclid(worth.den) <= best {
            return (weighed(p, d).map_or(End::Past, |(q, sum)| End::Cut { q, sum }), step);
        }
        let Some(i) = d.leaving() else {
            return (weighed(p, d).map_or(End::Past, |(q, sum)| End::Best { q, sum }), step);
        };
        if !d.rises(i) {
            return (End::Empty, step);
        }
        if step == 10_000 {
            return (End::Long, step);
        }
        match d.entering(i) {
            None => return (End::Past, step),
            Some(None) => {}
            Some(Some(j)) => {
                if d.pivot(i, j).is_none() {
                    return (End::Past, step);
                }
            }
        }
    }
    (End::Long, 0)
}

#[repr(C)]
struct Timespec {
    seconds: i64,
    nanoseconds: i64,
}

unsafe extern "C" {
    fn clock_gettime(clock: i32, time: *mut Timespec) -> i32;
}

// The processor's time of this thread, as the proved program tells it.
fn thread_time() -> Duration {
    const THREAD: i32 = 3;
    let mut time = Timespec { seconds: 0, nanoseconds: 0 };
    let told = unsafe { clock_gettime(THREAD, &mut time) };
    assert_eq!(told, 0, "a clock of the thread");
    Duration::new(time.seconds as u64, time.nanoseconds as u32)
}

// Runs the full table and tells of the rows that leave the bound and come back.
fn count(p: &Program) -> (End, u32) {
    let mut table = Bound::start(p);
    let end = run_over(&mut table, p, 0);
    eprintln!("left {} back {}", table.left, table.back);
    end
}

fn main() {
    let words: Vec<String> = std::env::args().skip(1).collect();
    if let [kind, mode, file, lines] = &words[..]
        && mode == "tree"
    {
        return match kind.as_str() {
            "general" => tree::runs::<Sparse<false>>(&mut read(file), lines),
            "whole" => tree::runs::<Whole>(&mut read(file), lines),
            "mirror" => tree::runs::<Mirror>(&mut read(file), lines),
            _ => tree::runs::<Sparse<true>>(&mut read(file), lines),
        };
    }
    let p = match &words[1..] {
        [side, kinds] => square(side.parse().expect("a side"), kinds.parse().expect("kinds")),
        [path] => read(path),
        _ => panic!("usage: plain full|sparse|general|whole|mirror|bound SIDE KINDS, plain full|sparse|general|whole|mirror|bound FILE, or plain sparse|general|whole|mirror tree FILE TREE"),
    };
    let start = thread_time();
    let (end, pivots) = match words[0].as_str() {
        "bound" => count(&p),
        "full" => dual_run::<Full>(&p, 0),
        "general" => dual_run::<Sparse<false>>(&p, 0),
        "whole" => dual_run::<Whole>(&p, 0),
        "mirror" => dual_run::<Mirror>(&p, 0),
        _ => dual_run::<Sparse<true>>(&p, 0),
    };
    let time = thread_time() - start;
    match end {
        End::Cut { .. } => println!("cut"),
        End::Best { q, sum } => println!("best {q} {sum}"),
        End::Empty => println!("empty"),
        End::Past => println!("past"),
        End::Long => println!("long"),
    }
    eprintln!("{pivots} {}", time.as_nanos());
}
