//! The program tetri_bench num in plain Rust, with the same operands and output.

mod frac;

use std::time::{Duration, Instant};

use frac::{Frac, Past};

const PAIRS: u64 = 1000;

#[derive(Clone, Copy)]
enum Kind {
    Whole,
    Small,
    Word,
    Wide,
}

fn next(state: u64) -> u64 {
    state.wrapping_mul(6364136223846793005).wrapping_add(1442695040888963407)
}

fn mixed(state: u64) -> u64 {
    state ^ (state >> 32)
}

fn numerator(word: u64, limit: u64) -> i128 {
    let size = (word / 2 % limit) as i128;
    if word % 2 == 0 { size } else { -size }
}

fn denominator(word: u64, limit: u64) -> i128 {
    (word % limit) as i128 + 1
}

fn operand(kind: Kind, upper: u64, lower: u64) -> Frac {
    match kind {
        Kind::Whole => Frac::whole(numerator(upper, 1_001)),
        Kind::Small => Frac::new(numerator(upper, 1_001), denominator(lower, 60)),
        Kind::Word => Frac::new(numerator(upper, 1 << 40), denominator(lower, 1 << 30)),
        Kind::Wide => Frac::new(numerator(upper, 1 << 62) * 8 + 1, denominator(lower, 1 << 62) * 2),
    }
}

fn pairs(kind: Kind, count: u64) -> (Vec<Frac>, Vec<Frac>) {
    let (mut left, mut right) = (Vec::new(), Vec::new());
    let mut state = 2026;
    for _ in 0..count {
        let first = next(state);
        let second = next(first);
        let third = next(second);
        state = next(third);
        left.push(operand(kind, mixed(first), mixed(second)));
        right.push(operand(kind, mixed(third), mixed(state)));
    }
    (left, right)
}

#[derive(Clone, Copy)]
struct Tally {
    past: u64,
    checksum: u64,
}

fn low_word(n: i128) -> u64 {
    n.unsigned_abs() as u64
}

impl Tally {
    fn with(self, outcome: Result<Frac, Past>) -> Tally {
        match outcome {
            Ok(x) => Tally {
                past: self.past,
                checksum: self.checksum.wrapping_mul(31).wrapping_add(low_word(x.num) ^ low_word(x.den)),
            },
            Err(_) => Tally { past: self.past.wrapping_add(1), ..self },
        }
    }
}

#[inline(never)]
fn run(left: &[Frac], right: &[Frac], rounds: u64, operation: impl Fn(Frac, Frac) -> Result<Frac, Past>) -> Tally {
    let mut tally = Tally { past: 0, checksum: 0 };
    for _ in 0..rounds {
        for (x, y) in left.iter().zip(right) {
            tally = tally.with(operation(*x, *y));
        }
    }
    tally
}

fn report(name: &str, what: &str, size: u64, tally: Tally, time: Duration) {
    println!("{name} {what} {size}: {} past, checksum {:016x}", tally.past, tally.checksum);
    eprintln!("{name} {what} {}", time.as_nanos());
}

fn main() {
    for size in std::env::args().skip(1).filter_map(|argument| argument.parse::<u64>().ok()) {
        for (kind, name) in [(Kind::Whole, "whole"), (Kind::Small, "small"), (Kind::Word, "word"), (Kind::Wide, "wide")] {
            let (left, right) = pairs(kind, PAIRS);
            let start = Instant::now();
            let added = run(&left, &right, size / PAIRS, Frac::add);
            let between = Instant::now();
            let multiplied = run(&left, &right, size / PAIRS, Frac::mul);
            let end = Instant::now();
            report(name, "sums", size, added, between - start);
            report(name, "products", size, multiplied, end - between);
        }
    }
}
