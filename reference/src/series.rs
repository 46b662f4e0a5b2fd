//! Enclosures of the logarithm and of the growth factor, in billionths.

use crate::enclosure::{div_down, div_up, Enclosure, Round, U};

/// The divisors of the logarithm's terms after the first.
const LATER_ODD_NUMBERS: [i128; 4] = [3, 5, 7, 9];

/// The growth series ends with this term.
const LAST_GROWTH_TERM: i128 = 7;

/// What is added to the high where the value is known: of G at U, which is 0, and of E at 0, which
/// is U. At every other argument it is 1.
#[derive(Clone, Copy, Debug, PartialEq, Eq)]
pub enum AtKnown {
    /// The rule: no term is rounded there and none is left out.
    Nothing,
    /// The earlier rule, to compare with.
    One,
}

impl AtKnown {
    /// What is added to the high at an argument whose value is known or not.
    fn slack(self, known: bool) -> i128 {
        match (self, known) {
            (AtKnown::Nothing, true) => 0,
            _ => 1,
        }
    }

    /// G(x) under this rule.
    pub fn neg_log(self, x: i128) -> Enclosure {
        let slack = self.slack(x == U);
        let size = Enclosure::new(log_sum(x, div_down), log_sum(x, div_up) + slack);
        if x > U {
            size.negated()
        } else {
            size
        }
    }

    /// E(y) under this rule.
    pub fn growth(self, y: i128) -> Enclosure {
        assert!(y >= 0);
        let slack = self.slack(y == 0);
        Enclosure::new(growth_sum(y, div_down), growth_sum(y, div_up) + slack)
    }
}

/// G(x), the enclosure of -ln(x / U) for `x` above 0.
pub fn neg_log(x: i128) -> Enclosure {
    AtKnown::Nothing.neg_log(x)
}

/// E(y), the enclosure of U × e^(y / U) for `y` from 0 up.
pub fn growth(y: i128) -> Enclosure {
    AtKnown::Nothing.growth(y)
}

/// 2 × (p1/1 + p2/3 + .. + p5/9) with every step and quotient under one rounding.
fn log_sum(x: i128, round: Round) -> i128 {
    let distance = (U - x).abs();
    let z = round(distance * U, U + x);
    let square = round(z * z, U);
    let mut power = z;
    let mut sum = power;
    for odd in LATER_ODD_NUMBERS {
        power = round(power * square, U);
        sum += round(power, odd);
    }
    2 * sum
}

/// t0 + .. + t7 with every step under one rounding.
fn growth_sum(y: i128, round: Round) -> i128 {
    let mut term = U;
    let mut sum = term;
    for i in 1..=LAST_GROWTH_TERM {
        term = round(term * y, i * U);
        sum += term;
    }
    sum
}
