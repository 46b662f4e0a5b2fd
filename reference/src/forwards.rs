//! The forwards of single years, over which LLFR takes its means.

use std::ops::RangeInclusive;

use crate::enclosure::Enclosure;
use crate::market::Market;

/// The forwards of the years before smoothing starts and of later ones, as far as the quotes reach.
#[derive(Clone, Debug, PartialEq, Eq)]
pub struct YearForwards {
    /// The first year whose forward is kept.
    first: usize,
    forwards: Vec<Enclosure>,
}

impl YearForwards {
    /// None yet.
    pub fn new(market: Market) -> Self {
        YearForwards {
            first: *market.years_before_smoothing().start(),
            forwards: Vec::new(),
        }
    }

    /// Appends years with the same forward.
    pub fn push_years(&mut self, years: usize, forward: Enclosure) {
        self.forwards.extend(std::iter::repeat_n(forward, years));
    }

    /// The same, with `gain` added to the forwards of `years`, all of which have one.
    pub fn with_gain(&self, years: RangeInclusive<usize>, gain: Enclosure) -> Self {
        let mut moved = self.clone();
        for forward in &mut moved.forwards[years.start() - self.first..=years.end() - self.first] {
            *forward = forward.plus(gain);
        }
        moved
    }

    /// The sum over `years`, all of which have a forward.
    pub fn sum(&self, years: RangeInclusive<usize>) -> Enclosure {
        years.fold(Enclosure::ZERO, |sum, year| {
            sum.plus(self.forwards[year - self.first])
        })
    }
}
