//! Fractions of whole numbers, compared by value.

use std::cmp::Ordering;

/// `n / d` with `d` at least 1, not reduced.
#[derive(Clone, Copy, Debug)]
pub struct Fraction {
    pub n: i128,
    pub d: i128,
}

impl Fraction {
    pub fn whole(n: i128) -> Self {
        Fraction { n, d: 1 }
    }

    /// `n / d` for any `d` but zero.
    pub fn over(n: i128, d: i128) -> Self {
        assert!(d != 0);
        if d < 0 {
            Fraction { n: -n, d: -d }
        } else {
            Fraction { n, d }
        }
    }

    /// A fraction strictly between two different ones. Unlike the middle it keeps numbers small.
    pub fn between(self, other: Self) -> Self {
        Fraction { n: self.n + other.n, d: self.d + other.d }
    }

    /// The greatest whole number that is at most `factor` times this.
    pub fn floor_of_times(self, factor: i128) -> i128 {
        (self.n * factor).div_euclid(self.d)
    }
}

impl Ord for Fraction {
    fn cmp(&self, other: &Self) -> Ordering {
        (self.n * other.d).cmp(&(other.n * self.d))
    }
}

impl PartialOrd for Fraction {
    fn partial_cmp(&self, other: &Self) -> Option<Ordering> {
        Some(self.cmp(other))
    }
}

impl PartialEq for Fraction {
    fn eq(&self, other: &Self) -> bool {
        self.cmp(other) == Ordering::Equal
    }
}

impl Eq for Fraction {}
