//! The same fractions in plain Rust, by the same rules and the same short ways.

#[derive(Clone, Copy, PartialEq, Eq, Debug)]
pub enum Op {
    Add,
    Mul,
}

#[derive(Clone, Copy, PartialEq, Eq, Debug)]
pub struct Frac {
    pub num: i128,
    pub den: i128,
}

#[derive(Clone, Copy, PartialEq, Eq, Debug)]
pub struct Past {
    pub op: Op,
    pub left: Frac,
    pub right: Frac,
}

// Stein's binary algorithm.
fn gcd_word(a: u64, b: u64) -> u64 {
    if a == 0 || b == 0 {
        return a | b;
    }
    let twos = a.trailing_zeros().min(b.trailing_zeros());
    let (mut x, mut y) = (a >> a.trailing_zeros(), b >> b.trailing_zeros());
    while x != y {
        let least = x.min(y);
        let rest = x.max(y) - least;
        x = rest >> rest.trailing_zeros();
        y = least;
    }
    x << twos
}

pub fn gcd(a: i128, b: i128) -> i128 {
    if a == 1 || b == 1 {
        return 1;
    }
    let (mut x, mut y) = (a.unsigned_abs(), b.unsigned_abs());
    while y != 0 {
        if let (Ok(x), Ok(y)) = (u64::try_from(x), u64::try_from(y)) {
            return gcd_word(x, y) as i128;
        }
        (x, y) = (y, x % y);
    }
    x as i128
}

fn within(n: Option<i128>) -> Option<i128> {
    n.filter(|n| *n != i128::MIN)
}

fn is_word(n: i128) -> bool {
    -(1 << 63) < n && n < 1 << 63
}

fn product(a: i128, b: i128) -> Option<i128> {
    if is_word(a) && is_word(b) {
        return Some(a * b);
    }
    within(a.checked_mul(b))
}

fn total(a: i128, b: i128) -> Option<i128> {
    within(a.checked_add(b))
}

fn quotient(a: i128, by: i128) -> i128 {
    if by == 1 {
        a
    } else if is_word(a) && is_word(by) {
        (a as i64 / by as i64) as i128
    } else {
        a / by
    }
}

impl Frac {
    /// In lowest terms, over a denominator above 0.
    pub fn new(num: i128, den: i128) -> Frac {
        let g = gcd(num, den);
        Frac { num: quotient(num, g), den: quotient(den, g) }
    }

    pub fn whole(num: i128) -> Frac {
        Frac { num, den: 1 }
    }

    #[inline(always)]
    fn sum_of(self, other: Frac) -> Option<Frac> {
        if self.den == 1 && other.den == 1 {
            return Some(Frac::whole(total(self.num, other.num)?));
        }
        if self.num == 0 {
            return Some(other);
        }
        if other.num == 0 {
            return Some(self);
        }
        self.sum_by_parts(other)
    }

    #[inline(never)]
    fn sum_by_parts(self, other: Frac) -> Option<Frac> {
        let g = gcd(self.den, other.den);
        let part = quotient(self.den, g);
        let left = product(self.num, quotient(other.den, g))?;
        let right = product(other.num, part)?;
        let sum = total(left, right)?;
        let h = gcd(sum, g);
        let den = product(part, quotient(other.den, h))?;
        Some(Frac { num: quotient(sum, h), den })
    }

    #[inline(always)]
    fn product_of(self, other: Frac) -> Option<Frac> {
        if self.den == 1 && other.den == 1 {
            return Some(Frac::whole(product(self.num, other.num)?));
        }
        if self.num == 0 {
            return Some(self);
        }
        if other.num == 0 {
            return Some(other);
        }
        self.product_by_parts(other)
    }

    #[inline(never)]
    fn product_by_parts(self, other: Frac) -> Option<Frac> {
        let g = gcd(self.num, other.den);
        let h = gcd(other.num, self.den);
        let num = product(quotient(self.num, g), quotient(other.num, h))?;
        let den = product(quotient(self.den, h), quotient(other.den, g))?;
        Some(Frac { num, den })
    }

    #[inline(always)]
    pub fn add(self, other: Frac) -> Result<Frac, Past> {
        self.sum_of(other).ok_or(Past { op: Op::Add, left: self, right: other })
    }

    #[inline(always)]
    pub fn mul(self, other: Frac) -> Result<Frac, Past> {
        self.product_of(other).ok_or(Past { op: Op::Mul, left: self, right: other })
    }
}
