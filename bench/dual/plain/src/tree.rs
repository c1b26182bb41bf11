//! The dual runs of the nodes of a search, one after another.

use std::time::Duration;

use crate::{Dictionary, End, Program, dual_run, thread_time};

/// A column's bounds that are put back, and those of the other side of its split.
struct Turn {
    column: usize,
    bounds: (i128, i128),
    other: Option<(i128, i128)>,
}

fn set(p: &mut Program, column: usize, (low, high): (i128, i128)) {
    p.lower[column] = low;
    p.upper[column] = high;
}

// Goes to the region of the next node: the other side of the last split that has one.
fn turn(p: &mut Program, trail: &mut Vec<Turn>) {
    while let Some(mut last) = trail.pop() {
        if let Some(other) = last.other.take() {
            set(p, last.column, other);
            trail.push(last);
            return;
        }
        set(p, last.column, last.bounds);
    }
}

// The multiplier and the sum of the weights of a line, as `3 2:1,5:2`.
fn weights_of(words: &[&str]) -> (i128, i128) {
    let number = |word: &str| word.parse::<i128>().expect("a number");
    let by = |pair: &str| number(pair.split_once(':').expect("a row and its weight").1);
    (number(words[1]), words[2].split(',').filter(|pair| pair.contains(':')).map(by).sum())
}

// Fails where the run of a node ends otherwise than its line says.
fn compare(end: &End, words: &[&str]) {
    match end {
        End::Cut { q, sum } => assert!(words[0] == "close" && weights_of(words) == (*q, *sum), "a cut other than {words:?}"),
        End::Best { q, sum } => assert!(words[0] == "split" || weights_of(words) == (*q, *sum), "a best point other than {words:?}"),
        End::Empty => assert_eq!(words[0], "close"),
        End::Past | End::Long => assert_eq!(words[0], "split"),
    }
}

pub fn runs<D: Dictionary>(p: &mut Program, path: &str) {
    let text = std::fs::read_to_string(path).expect("a tree to read");
    let (mut best, mut count, mut pivots, mut time) = (0, 0, 0, Duration::ZERO);
    let mut trail = Vec::new();
    for line in text.lines() {
        let words: Vec<&str> = line.split(' ').collect();
        if words[0] != "rest" && p.lower != p.upper {
            let start = thread_time();
            let (end, steps) = dual_run::<D>(p, best);
            time += thread_time() - start;
            compare(&end, &words);
            count += 1;
            pivots += u64::from(steps);
        }
        match words[0] {
            "split" => {
                let column: usize = words[1].parse().expect("a column");
                let at: i128 = words[2].parse().expect("a number");
                let bounds = (p.lower[column], p.upper[column]);
                trail.push(Turn { column, bounds, other: Some((bounds.0, at)) });
                set(p, column, (at + 1, bounds.1));
            }
            word => {
                if word == "whole" {
                    best = best.max(words[3].parse().expect("a worth"));
                }
                turn(p, &mut trail);
            }
        }
    }
    println!("{count} {pivots}");
    eprintln!("{}", time.as_nanos());
}
