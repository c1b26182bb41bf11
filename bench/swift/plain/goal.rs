// The objective of a dictionary, as whole numbers over one denominator, which are rounded where they get long.

use crate::lines::Line;
use crate::numbers::wide_at;
use crate::programs::{add_product, gcd, product};

// Above this size the numbers are shortened.
const LONG: i128 = 1 << 60;

// What a denominator is rounded to at least.
const FINE: i128 = 1 << 30;

/// The denominator of the first objective.
pub const ONE: i128 = 1 << 40;

/// What the numbers of the first objective are lessened by is together at most a unit over this.
pub const SHARE: i128 = 4;

/// The objective is the constant and the numbers times the nonbasic variables, all over `over`.
pub struct Goal {
    pub over: i128,
    pub constant: i128,
    pub numbers: Vec<i128>,
}

/// The greatest common divisor of two numbers that are not both 0, and 1 for 0 and 0.
pub fn divisor(a: i128, b: i128) -> i128 {
    if a == i128::MIN || b == i128::MIN {
        return 1;
    }
    gcd(a, b).max(1)
}

/// The quotient by a number above 0, towards 0.
pub fn part(x: i128, by: i128) -> i128 {
    if by <= 1 {
        x
    } else {
        x / by
    }
}

fn divide(goal: &mut Goal, by: i128) {
    if by <= 1 {
        return;
    }
    goal.over = part(goal.over, by);
    goal.constant = part(goal.constant, by);
    divide_all(&mut goal.numbers, by);
}

/// Divides each number by a number above 0, towards 0.
pub fn divide_all(numbers: &mut [i128], by: i128) {
    for x in numbers {
        *x = part(*x, by);
    }
}

// A divisor of all numbers.
fn goal_divisor(goal: &Goal) -> i128 {
    let mut found = divisor(goal.over, goal.constant);
    for x in &goal.numbers {
        if found == 1 {
            return 1;
        }
        found = divisor(found, *x);
    }
    found
}

// The numbers over a lower denominator: by their divisor, and rounded where they are still long.
fn shorten(goal: &mut Goal) {
    let by = goal_divisor(goal);
    divide(goal, by);
    if LONG < goal.over {
        let by = part(goal.over, FINE);
        divide(goal, by);
    }
}

fn multiply_all(numbers: &mut [i128], by: i128) -> Option<()> {
    for x in numbers {
        *x = product(*x, by)?;
    }
    Some(())
}

fn multiply(goal: &mut Goal, by: i128) -> Option<()> {
    if by == 1 {
        return Some(());
    }
    goal.over = product(goal.over, by)?;
    goal.constant = product(goal.constant, by)?;
    multiply_all(&mut goal.numbers, by)
}

fn add_at(numbers: &mut [i128], by: i128, others: &[i64], places: &[u32]) -> Option<()> {
    for place in places {
        let place = *place as usize;
        if place < numbers.len() && place < others.len() {
            let next = add_product(numbers[place], by, others[place] as i128)?;
            numbers[place] = next.min(0);
        }
    }
    Some(())
}

/// Puts a solved row in for the variable at a place. None where a number leaves the range.
pub fn put_in_goal(goal: &mut Goal, place: usize, solved: &Line, places: &[u32]) -> Option<()> {
    let number = wide_at(&goal.numbers, place);
    if number == 0 {
        return Some(());
    }
    let over = solved.over as i128;
    let common = divisor(number, over);
    let by = part(number, common);
    multiply(goal, part(over, common))?;
    if place < goal.numbers.len() {
        goal.numbers[place] = 0;
    }
    goal.constant = add_product(goal.constant, by, solved.constant as i128)?;
    add_at(&mut goal.numbers, by, &solved.numbers, places)?;
    if LONG < goal.over {
        shorten(goal);
    }
    Some(())
}
