//! The volatility adjustment: added to the forwards up to the smoothing year and, in LLFR, to the
//! last one before it alone.

use crate::bootstrap::checked_high;
use crate::enclosure::{Enclosure, RATE_STEP};
use crate::extrapolation::next_factor;
use crate::forwards::YearForwards;
use crate::market::Market;
use crate::refusal::Refusal;
use crate::series::AtKnown;

/// What a forward gains. Low and high are the same: an adjustment is exact.
fn gain(adjustment: i16) -> Enclosure {
    let gain = RATE_STEP * i128::from(adjustment);
    Enclosure::new(gain, gain)
}

/// The adjusted factors of year 1 on from the plain ones, or ground 8 in the first year that it
/// applies to.
pub fn adjusted_factors(plain: &[Enclosure], adjustment: i16) -> Result<Vec<Enclosure>, Refusal> {
    adjusted_factors_with(plain, adjustment, AtKnown::Nothing)
}

/// The same under either rule for known values: at an adjustment of 0 growth is known.
pub fn adjusted_factors_with(
    plain: &[Enclosure],
    adjustment: i16,
    at_known: AtKnown,
) -> Result<Vec<Enclosure>, Refusal> {
    // Each plain factor is taken once for each year through the step of extrapolated years.
    let next = |factor, _| next_factor(factor, gain(adjustment), at_known);
    let years = (1..).zip(plain);
    years
        .map(|(year, &plain)| checked_high((0..year).fold(plain, next), year))
        .collect()
}

/// The forwards from which the adjusted curve's LLFR comes.
pub fn adjusted_forwards(market: Market, plain: &YearForwards, adjustment: i16) -> YearForwards {
    plain.with_gain(market.years_before_smoothing(), gain(adjustment))
}
