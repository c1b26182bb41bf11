//! Times three ways to make the first dictionary with one row for the two variables of a column, in plain Rust: by lists of entries, which
//! become rows and then bits; straight as rows, with the bits read from all numbers of the rows; and as rows, with the bits set as the
//! terms of the program are gone through. Prints for each file of bench/dual/square or bench/dual/cycle the milliseconds of the thread,
//! each the least of 140, and the ratios to the first; it fails where the dictionaries differ.
//!
//! usage: rustc -O --edition 2021 bench/dual/first.rs -o first && ./first FILE ..
use std::hint::black_box;

struct Term {
    column: usize,
    by: i128,
}

struct Row {
    terms: Vec<Term>,
    right: i128,
}

struct Program {
    costs: Vec<i128>,
    upper: Vec<i128>,
    rows: Vec<Row>,
}

#[derive(Clone, Copy, PartialEq)]
enum Origin {
    Kept(usize),
    Column { place: usize, width: i64 },
}

/// Rows over the denominator 1, where their other variables are, and for each column the rows that have it.
#[derive(Default, PartialEq)]
struct Pairs {
    nonbasic: Vec<usize>,
    basic: Vec<usize>,
    origins: Vec<Origin>,
    below: Vec<bool>,
    rows: Vec<Vec<i64>>,
    row_below: Vec<bool>,
    homes: Vec<usize>,
    mirrors: Vec<Option<usize>>,
    columns: Vec<Option<usize>>,
    holders: Vec<Vec<u64>>,
}

#[derive(Clone, Copy)]
struct Frac {
    num: i128,
    den: i128,
}

struct Entry {
    place: usize,
    number: Frac,
}

struct Line {
    constant: Frac,
    entries: Vec<Entry>,
}

const WIDE: i64 = 1024;

fn short(x: i128) -> Option<i64> {
    (x.unsigned_abs() < 1 << 31).then_some(x as i64)
}

fn short_fraction(x: Frac) -> Option<i64> {
    if x.den == 1 {
        short(x.num)
    } else {
        None
    }
}

fn whole(num: i128) -> Frac {
    Frac { num, den: 1 }
}

fn directed(by: i128, cost: i128) -> i128 {
    if cost > 0 {
        -by
    } else {
        by
    }
}

impl Program {
    fn corner(&self) -> Vec<i128> {
        self.costs
            .iter()
            .zip(&self.upper)
            .map(|(&cost, &upper)| if cost > 0 { upper } else { 0 })
            .collect()
    }

    fn objective_at(&self, point: &[i128]) -> i128 {
        self.costs.iter().zip(point).map(|(cost, x)| cost * x).sum()
    }
}

fn slack_at(row: &Row, point: &[i128]) -> i128 {
    row.right
        - row
            .terms
            .iter()
            .map(|term| term.by * point[term.column])
            .sum::<i128>()
}

fn set_bit(words: &mut [u64], row: usize) {
    words[row / 64] |= 1 << (row % 64);
}

impl Pairs {
    fn of(p: &Program) -> Pairs {
        let columns = p.costs.len();
        Pairs {
            nonbasic: (0..columns).collect(),
            basic: (columns..2 * columns + p.rows.len()).collect(),
            columns: vec![None; columns],
            ..Pairs::default()
        }
    }

    fn keep(&mut self, row: Vec<i64>) {
        self.homes.push(self.origins.len());
        self.origins.push(Origin::Kept(self.rows.len()));
        self.rows.push(row);
    }

    fn mirror(&mut self, place: usize, width: i64) {
        self.columns[place] = Some(self.origins.len());
        self.origins.push(Origin::Column { place, width });
    }

    /// What stands beside the rows: their signs, and no bit yet.
    fn end(&mut self) {
        self.row_below = self.rows.iter().map(|row| row[0] < 0).collect();
        let words = self.rows.len() / 64 + 1;
        self.holders = self.nonbasic.iter().map(|_| vec![0; words]).collect();
        self.mirrors = vec![None; self.rows.len()];
    }
}

fn lines_of(p: &Program) -> Vec<Line> {
    let start = p.corner();
    let mut lines = Vec::new();
    for row in &p.rows {
        let number = |term: &Term| whole(-directed(term.by, p.costs[term.column]));
        let entries = row
            .terms
            .iter()
            .map(|term| Entry {
                place: term.column,
                number: number(term),
            })
            .collect();
        lines.push(Line {
            constant: whole(slack_at(row, &start)),
            entries,
        });
    }
    for (place, &width) in p.upper.iter().enumerate() {
        lines.push(Line {
            constant: whole(width),
            entries: vec![Entry {
                place,
                number: whole(-1),
            }],
        });
    }
    let mut entries = Vec::new();
    for (place, &cost) in p.costs.iter().enumerate() {
        if cost != 0 {
            entries.push(Entry {
                place,
                number: whole(directed(cost, cost)),
            });
        }
    }
    lines.push(Line {
        constant: whole(p.objective_at(&start)),
        entries,
    });
    lines
}

fn column_line(line: &Line) -> Option<(usize, i64)> {
    match line.entries.as_slice() {
        [entry] if entry.number.num == -1 && entry.number.den == 1 => short_fraction(line.constant)
            .filter(|width| (0..WIDE).contains(width))
            .map(|width| (entry.place, width)),
        _ => None,
    }
}

fn row_of_line(columns: usize, line: &Line) -> Option<Vec<i64>> {
    let mut row = vec![0; columns + 1];
    row[0] = short_fraction(line.constant)?;
    for entry in &line.entries {
        row[entry.place + 1] = short_fraction(entry.number)?;
    }
    Some(row)
}

/// By lists of entries.
fn by_entries(p: &Program) -> Option<Pairs> {
    let mut pairs = Pairs::of(p);
    let mut lines = lines_of(p);
    pairs.below = lines.iter().map(|line| line.constant.num < 0).collect();
    let objective = lines.pop()?;
    let mut kept = Vec::new();
    for line in lines {
        match column_line(&line) {
            Some((place, width)) if pairs.columns[place].is_none() => pairs.mirror(place, width),
            _ => {
                pairs.homes.push(pairs.origins.len());
                pairs.origins.push(Origin::Kept(kept.len()));
                kept.push(line);
            }
        }
    }
    pairs.homes.push(pairs.origins.len());
    pairs.origins.push(Origin::Kept(kept.len()));
    kept.push(objective);
    for line in &kept {
        pairs.rows.push(row_of_line(p.costs.len(), line)?);
    }
    pairs.end();
    for (k, line) in kept.iter().enumerate() {
        for entry in &line.entries {
            set_bit(&mut pairs.holders[entry.place], k);
        }
    }
    Some(pairs)
}

/// The rows straight from the program, without bits.
fn rows_alone(p: &Program) -> Option<Pairs> {
    let mut pairs = Pairs::of(p);
    let start = p.corner();
    for row in &p.rows {
        let mut numbers = vec![0; p.costs.len() + 1];
        numbers[0] = short(slack_at(row, &start))?;
        for term in &row.terms {
            numbers[term.column + 1] = short(-directed(term.by, p.costs[term.column]))?;
        }
        pairs.below.push(numbers[0] < 0);
        pairs.keep(numbers);
    }
    for (place, &width) in p.upper.iter().enumerate() {
        let width = short(width)?;
        pairs.below.push(false);
        if width < WIDE {
            pairs.mirror(place, width);
        } else {
            let mut numbers = vec![0; p.costs.len() + 1];
            numbers[0] = width;
            numbers[place + 1] = -1;
            pairs.keep(numbers);
        }
    }
    let mut numbers = Vec::with_capacity(p.costs.len() + 1);
    numbers.push(short(p.objective_at(&start))?);
    for &cost in &p.costs {
        numbers.push(short(directed(cost, cost))?);
    }
    pairs.below.push(numbers[0] < 0);
    pairs.keep(numbers);
    pairs.end();
    Some(pairs)
}

/// The bits from all numbers of the rows.
fn by_numbers(p: &Program) -> Option<Pairs> {
    let mut pairs = rows_alone(p)?;
    for (k, row) in pairs.rows.iter().enumerate() {
        for (place, holder) in pairs.holders.iter_mut().enumerate() {
            if row[place + 1] != 0 {
                set_bit(holder, k);
            }
        }
    }
    Some(pairs)
}

/// The bits from the terms of the program.
fn by_terms(p: &Program) -> Option<Pairs> {
    let mut pairs = rows_alone(p)?;
    for (k, row) in p.rows.iter().enumerate() {
        for term in &row.terms {
            set_bit(&mut pairs.holders[term.column], k);
        }
    }
    for &home in &pairs.homes[p.rows.len()..] {
        let Origin::Kept(k) = pairs.origins[home] else {
            continue;
        };
        for (place, holder) in pairs.holders.iter_mut().enumerate() {
            if pairs.rows[k][place + 1] != 0 {
                set_bit(holder, k);
            }
        }
    }
    Some(pairs)
}

fn read(path: &str) -> Program {
    let text = std::fs::read_to_string(path).unwrap();
    let mut numbers = text
        .split_whitespace()
        .map(|word| word.parse::<i128>().unwrap());
    let mut next = || numbers.next().unwrap();
    let (columns, rows) = (next(), next());
    let costs = (0..columns).map(|_| next()).collect();
    let upper = (0..columns).map(|_| next()).collect();
    let mut row = |_| {
        let (right, count) = (next(), next());
        Row {
            right,
            terms: (0..count)
                .map(|_| Term {
                    column: next() as usize,
                    by: next(),
                })
                .collect(),
        }
    };
    Program {
        costs,
        upper,
        rows: (0..rows).map(&mut row).collect(),
    }
}

#[repr(C)]
struct Time {
    seconds: i64,
    nanoseconds: i64,
}

unsafe extern "C" {
    fn clock_gettime(clock: i32, to: *mut Time) -> i32;
}

/// The nanoseconds that the thread has run.
fn now() -> u64 {
    let mut time = Time {
        seconds: 0,
        nanoseconds: 0,
    };
    unsafe { clock_gettime(3, &mut time) };
    (time.seconds * 1_000_000_000 + time.nanoseconds) as u64
}

fn main() {
    println!(
        "{:24} {:>10} {:>10} {:>6} {:>10} {:>6}",
        "program", "entries ms", "numbers ms", "ratio", "terms ms", "ratio"
    );
    for path in std::env::args().skip(1) {
        let p = read(&path);
        let ways = [by_entries, by_numbers, by_terms];
        let first = by_entries(&p);
        assert!(
            first.is_some() && ways.iter().all(|way| way(&p) == first),
            "the dictionaries differ"
        );
        let mut least = [u64::MAX; 3];
        for turn in 0..140 {
            for k in (0..3).map(|k| (k + turn) % 3) {
                let start = now();
                let pairs = ways[k](&p);
                least[k] = least[k].min(now() - start);
                black_box(&pairs);
            }
        }
        let [entries, numbers, terms] = least.map(|it| it as f64 / 1e6);
        println!(
            "{path:24} {entries:10.4} {numbers:10.4} {:6.2} {terms:10.4} {:6.2}",
            numbers / entries,
            terms / entries
        );
    }
}
