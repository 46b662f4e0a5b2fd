//! Annuity sums: for each year t of a curve, the lows and the highs of years 1 to t summed apart.
//! The book holds them beside the curve, so that no quote adds up factors again.

use crate::curve::{Curve, Which, YEARS};
use crate::enclosure::Enclosure;

/// Which amount of a year a look-up asks for.
#[derive(Clone, Copy, Debug, PartialEq, Eq, PartialOrd, Ord)]
pub enum Wanted {
    /// The year's factor.
    Factor = 0,
    /// The sum of the factors of years 1 to that year.
    Sum = 1,
}

impl Wanted {
    /// Both amounts.
    pub const ALL: [Wanted; 2] = [Wanted::Factor, Wanted::Sum];

    /// The amount that a number of the C interface names: bit 1 names the sum, all other bits are
    /// ignored.
    pub fn named_by(kind: u64) -> Wanted {
        Wanted::ALL[(kind >> 1 & 1) as usize]
    }
}

/// The least number of the C interface that names both the curve and the amount.
pub fn kind_of(which: Which, wanted: Wanted) -> u64 {
    which as u64 | (wanted as u64) << 1
}

/// The sums of one curve, that of years 1 to t at index t - 1.
#[derive(Clone, Debug, PartialEq, Eq)]
pub struct Sums {
    lows: [i128; YEARS],
    highs: [i128; YEARS],
}

impl Sums {
    /// The curve's sums, each from the one before it.
    pub fn of(curve: &Curve) -> Sums {
        let mut sums = Sums {
            lows: [0; YEARS],
            highs: [0; YEARS],
        };
        let mut sum = Enclosure::ZERO;
        for year in 1..=YEARS {
            sum = sum.plus(curve.factor(year));
            sums.lows[year - 1] = sum.low;
            sums.highs[year - 1] = sum.high;
        }
        sums
    }

    /// The sum of years 1 to `year`, which is from 1 to 150.
    pub fn to(&self, year: usize) -> Enclosure {
        Enclosure::new(self.lows[year - 1], self.highs[year - 1])
    }
}
