// The engine that goes on from the dictionary of the node above.

use crate::dictionary::{bytes, copy, is_mirrored, shift, start, Dictionary};
use crate::numbers::wide_at;
use crate::programs::{Engine, Mark, Program, Proposal, Region};
use crate::proposing::of_end;
use crate::repair::{repair, End};

/// Goes on at each node from the dictionary of the one above, which a split changes by one bound, so
/// that some pivots of the dual simplex method repair it. The low side of a split keeps a copy while
/// all copies take no more than a number of bytes; a node without one starts from nothing.
pub struct Swift {
    // the next open region's, and those of the others, the last one next
    current: Option<Dictionary>,
    kept: Vec<Option<Dictionary>>,
    left: usize,
}

impl Swift {
    /// The engine before the first node, with so many bytes for copies of dictionaries.
    pub fn new(keep_bytes: usize) -> Swift {
        Swift {
            current: None,
            kept: Vec::new(),
            left: keep_bytes,
        }
    }

    // The dictionary of the low side of a split, where it is to be kept.
    fn low_side(&self, column: usize, down: i128) -> Option<Dictionary> {
        match &self.current {
            Some(d) if bytes(d) <= self.left => moved(copy(d), column, true, down),
            _ => None,
        }
    }

    // Keeps the low side of a split, and goes on to the high one.
    fn go_high(&mut self, r: &Region, column: usize, at: i128) {
        let up = at
            .saturating_add(1)
            .saturating_sub(wide_at(&r.lower, column));
        let down = wide_at(&r.upper, column).saturating_sub(at);
        let low = self.low_side(column, down);
        self.left = self.left.saturating_sub(bytes_of(&low));
        self.kept.push(low);
        self.current = match self.current.take() {
            Some(d) => moved(d, column, false, up),
            None => None,
        };
    }

    // Goes back to the next open region.
    fn go_back(&mut self) {
        self.current = match self.kept.pop() {
            Some(kept) => kept,
            None => None,
        };
        self.left = self.left.saturating_add(bytes_of(&self.current));
    }
}

fn bytes_of(kept: &Option<Dictionary>) -> usize {
    match kept {
        Some(d) => bytes(d),
        None => 0,
    }
}

// The dictionary with one bound of a column moved in, the upper or the lower one. None where a number
// is too long.
fn moved(d: Dictionary, column: usize, upper: bool, by: i128) -> Option<Dictionary> {
    let mut d = d;
    if is_mirrored(&d.mirrored, column) == upper {
        shift(&mut d, column, by)?;
    }
    Some(d)
}

impl Engine for Swift {
    fn propose(&mut self, p: &Program, r: &Region, best: u64) -> Option<Proposal> {
        let begun = match self.current.take() {
            Some(d) => Some(d),
            None => start(p, r),
        };
        let Some(mut d) = begun else {
            return None;
        };
        let end = repair(&mut d, r, best);
        let proposal = of_end(p, r, &d, end, best);
        if end != End::Spent {
            self.current = Some(d);
        }
        proposal
    }

    fn follow(&mut self, _p: &Program, r: &Region, mark: &Mark) {
        match mark {
            Mark::Split { column, at, .. } => self.go_high(r, *column as usize, *at),
            Mark::Close { .. } | Mark::Whole { .. } | Mark::Rest { .. } => {
                self.go_back();
            }
        }
    }
}
