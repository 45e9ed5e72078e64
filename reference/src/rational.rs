//! Exact fractions, in lowest terms, of numbers of 128 bits. They are rounded nowhere but by `ceiling`.

use std::cmp::Ordering;
use std::ops::{Add, Div, Mul, Sub};

/// A fraction in lowest terms over a number above 0, so that equal ones have equal fields.
#[derive(Clone, Copy, PartialEq, Eq, Debug)]
pub struct Rational {
    numerator: i128,
    denominator: i128,
}

/// The greatest number that divides both, which are not both 0.
fn greatest_divisor(one: i128, other: i128) -> i128 {
    let (mut one, mut other) = (one.abs(), other.abs());
    while other != 0 {
        (one, other) = (other, one % other);
    }
    one
}

impl Rational {
    /// The fraction of these two, the second of which is not 0.
    pub fn new(numerator: i128, denominator: i128) -> Rational {
        assert!(denominator != 0, "{numerator} over 0");
        let divisor = greatest_divisor(numerator, denominator) * denominator.signum();
        Rational { numerator: numerator / divisor, denominator: denominator / divisor }
    }

    pub fn numerator(self) -> i128 {
        self.numerator
    }

    pub fn denominator(self) -> i128 {
        self.denominator
    }

    /// The number that it is, if it is a whole one.
    pub fn whole(self) -> Option<i128> {
        (self.denominator == 1).then_some(self.numerator)
    }

    /// The least whole number that is not below it.
    pub fn ceiling(self) -> Rational {
        // as much as lacks up to the next multiple of the denominator, 0 for a multiple
        let lacking = (-self.numerator).rem_euclid(self.denominator);
        Rational::new(self.numerator + lacking, self.denominator)
    }
}

impl From<u64> for Rational {
    fn from(number: u64) -> Rational {
        Rational::new(number.into(), 1)
    }
}

impl Add for Rational {
    type Output = Rational;

    fn add(self, other: Rational) -> Rational {
        let numerator = self.numerator * other.denominator + other.numerator * self.denominator;
        Rational::new(numerator, self.denominator * other.denominator)
    }
}

impl Sub for Rational {
    type Output = Rational;

    fn sub(self, other: Rational) -> Rational {
        self + Rational::new(-other.numerator, other.denominator)
    }
}

impl Mul for Rational {
    type Output = Rational;

    fn mul(self, other: Rational) -> Rational {
        Rational::new(self.numerator * other.numerator, self.denominator * other.denominator)
    }
}

/// By a fraction that is not 0.
impl Div for Rational {
    type Output = Rational;

    fn div(self, other: Rational) -> Rational {
        Rational::new(self.numerator * other.denominator, self.denominator * other.numerator)
    }
}

impl Ord for Rational {
    fn cmp(&self, other: &Rational) -> Ordering {
        (*self - *other).numerator.cmp(&0)
    }
}

impl PartialOrd for Rational {
    fn partial_cmp(&self, other: &Rational) -> Option<Ordering> {
        Some(self.cmp(other))
    }
}
