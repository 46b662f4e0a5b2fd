//! The value of a block of policies: a lent list of cash flows on the plain curve. Cents are
//! first gathered by year, in whatever order the entries come, so that a year's factor is met
//! once and the one quotient of each end is the last step.

use crate::curve::{Curve, YEARS};
use crate::enclosure::{div_down, div_up, Enclosure, U};
use crate::refusal::Refusal;

/// A list has at most so many entries.
pub const MOST_FLOWS: usize = 1_000;

/// An entry has at most so many cents.
pub const MOST_CENTS: u64 = 1_000_000_000;

/// A cash flow, as it is lent: neither number is checked.
#[derive(Clone, Copy, Debug, PartialEq, Eq)]
pub struct Flow {
    pub year: u64,
    pub cents: u64,
}

impl Flow {
    /// The ground of its own that it meets, 21 before 22.
    fn ground(self) -> Option<u8> {
        if !(1..=YEARS as u64).contains(&self.year) {
            Some(21)
        } else if self.cents > MOST_CENTS {
            Some(22)
        } else {
            None
        }
    }
}

/// The answer to a valuation.
#[derive(Clone, Copy, Debug, PartialEq, Eq)]
pub struct Valued {
    /// In cents.
    pub amount: Enclosure,
    /// Month of the sheet behind the curve.
    pub month: u16,
    /// Told month less sheet month.
    pub age: u16,
}

/// The cents of each year, year y at index y - 1.
pub struct Block {
    cents: [i128; YEARS],
}

impl Block {
    /// The list gathered, or the first of grounds 20 to 22: 20 is of the list as a whole, the
    /// others are tried entry by entry and name it, from 1.
    pub fn of(flows: &[Flow]) -> Result<Block, Refusal> {
        if !(1..=MOST_FLOWS).contains(&flows.len()) {
            return Err(Refusal::plain(20));
        }
        let mut cents = [0; YEARS];
        for (entry, flow) in (1..).zip(flows) {
            match flow.ground() {
                Some(number) => return Err(Refusal::at(number, entry)),
                None => cents[flow.year as usize - 1] += i128::from(flow.cents),
            }
        }
        Ok(Block { cents })
    }

    /// What the cents are worth on the curve, in whole cents: nothing is rounded before the end.
    pub fn worth(&self, curve: &Curve) -> Enclosure {
        let each = (1..).zip(self.cents);
        let parts = each.map(|(year, cents)| curve.factor(year).times(cents));
        let sum = parts.fold(Enclosure::ZERO, Enclosure::plus);
        Enclosure::new(div_down(sum.low, U), div_up(sum.high, U))
    }
}

/// The list that numbers of the C interface are, year and cents in turn. An odd count is no list,
/// and has the ground of the empty one.
pub fn flows_of(numbers: &[u64]) -> Vec<Flow> {
    let pairs = numbers.chunks_exact(2);
    if !pairs.remainder().is_empty() {
        return Vec::new();
    }
    let flow = |pair: &[u64]| Flow {
        year: pair[0],
        cents: pair[1],
    };
    pairs.map(flow).collect()
}

/// The numbers of a list, as the C interface has them.
pub fn numbers_of(flows: &[Flow]) -> Vec<u64> {
    let numbers = flows.iter().flat_map(|flow| [flow.year, flow.cents]);
    numbers.collect()
}
