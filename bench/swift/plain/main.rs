// The search by an engine that goes on from the dictionary of the node above, in plain Rust: the same
// rules as tetri_swift. It reads a program of numbers from standard input, whose lower bounds are 0.
// It prints the best objective, the nodes and the nanoseconds of the processor, and where LOW is given, which is known at first, the last whole point.
// usage: plain BUDGET BYTES [LOW]

mod columns;
mod dictionary;
mod goal;
mod lines;
mod losses;
mod numbers;
mod programs;
mod proposing;
mod repair;
mod swift;

use programs::{Engine, Mark, Program, Proposal, Region, Row, Term};
use std::io::Read;
use swift::Swift;

fn read() -> Program {
    let mut text = String::new();
    std::io::stdin().read_to_string(&mut text).unwrap();
    let mut numbers = text
        .split_whitespace()
        .map(|word| word.parse::<i128>().unwrap());
    let mut next = || numbers.next().unwrap();
    let (columns, rows) = (next() as usize, next() as usize);
    let costs = (0..columns).map(|_| next()).collect();
    let upper = (0..columns).map(|_| next()).collect();
    let mut row = || {
        let (right, count) = (next(), next());
        let terms = (0..count)
            .map(|_| Term {
                column: next() as u32,
                by: next(),
            })
            .collect();
        Row { terms, right }
    };
    let rows = (0..rows).map(|_| row()).collect();
    Program {
        costs,
        lower: vec![0; columns],
        upper,
        rows,
    }
}

// The mark of a region, whose whole point counts at once; where nothing passes, a split in the middle.
fn mark_of(
    p: &Program,
    r: &Region,
    best: &mut u64,
    last: &mut Vec<i128>,
    engine: &mut Swift,
) -> Mark {
    let Some(j) = (0..r.lower.len()).find(|&j| r.lower[j] < r.upper[j]) else {
        if p.holds(r, &r.lower) && *best < p.worth(&r.lower) as u64 {
            *best = p.worth(&r.lower) as u64;
            *last = r.lower.clone();
        }
        return Mark::Close {};
    };
    match engine
        .propose(p, r, *best)
        .filter(|proposal| p.passes(r, *best, proposal))
    {
        Some(Proposal::Close { .. }) => Mark::Close {},
        Some(Proposal::Whole { point, .. }) => {
            *best = p.worth(&point) as u64;
            *last = point;
            Mark::Whole {}
        }
        Some(Proposal::Split { column, at }) => Mark::Split { column, at },
        None => {
            let at = r.lower[j] + (r.upper[j] - r.lower[j]).div_euclid(2);
            Mark::Split {
                column: j as u32,
                at,
            }
        }
    }
}

// The best objective, how many nodes are no rests, and the last whole point.
fn search(p: &Program, budget: u32, keep: usize, low: u64) -> (u64, u32, Vec<i128>) {
    let (mut best, mut used, mut last) = (low, 0, vec![]);
    let mut engine = Swift::new(keep);
    let mut open = vec![Region {
        lower: p.lower.clone(),
        upper: p.upper.clone(),
    }];
    while let Some(r) = open.pop() {
        let mark = if used < budget {
            mark_of(p, &r, &mut best, &mut last, &mut engine)
        } else {
            Mark::Rest {}
        };
        used += u32::from(used < budget);
        engine.follow(p, &r, &mark);
        if let Mark::Split { column, at } = mark {
            let j = column as usize;
            let (mut low, mut high) = (r.clone(), r);
            low.upper[j] = at;
            high.lower[j] = at + 1;
            open.extend([low, high]);
        }
    }
    (best, used, last)
}

#[repr(C)]
struct Time {
    seconds: i64,
    nanoseconds: i64,
}

extern "C" {
    fn clock_gettime(clock: i32, time: *mut Time) -> i32;
}

// The nanoseconds of the processor that the process took (CLOCK_PROCESS_CPUTIME_ID of Linux).
fn processor() -> i64 {
    let mut time = Time {
        seconds: 0,
        nanoseconds: 0,
    };
    unsafe { clock_gettime(2, &mut time) };
    time.seconds * 1_000_000_000 + time.nanoseconds
}

fn main() {
    let words: Vec<usize> = std::env::args()
        .skip(1)
        .map(|word| word.parse().unwrap())
        .collect();
    let p = read();
    let begun = processor();
    let low = words.get(2).copied();
    let (best, nodes, last) = search(&p, words[0] as u32, words[1], low.unwrap_or(0) as u64);
    println!("{best} {nodes} {}", processor() - begun);
    if low.is_some() {
        let point: Vec<String> = last.iter().map(|x| x.to_string()).collect();
        println!("{}", point.join(" "));
    }
}
