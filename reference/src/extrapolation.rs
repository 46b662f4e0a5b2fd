//! Discount factors past the smoothing year from the LLFR and the ultimate forward rate.

use crate::bootstrap::checked_high;
use crate::curve::YEARS;
use crate::enclosure::{div_down, div_up, Enclosure, Round, RATE_STEP, U};
use crate::forwards::YearForwards;
use crate::market::Market;
use crate::refusal::Refusal;
use crate::series::AtKnown;
use crate::sheet::Sheet;
use crate::weights::weights;

/// The years from the one after the smoothing year to 150, from the smoothing year's factor, or
/// ground 8, under a rule for known values.
pub fn extrapolate(
    sheet: &Sheet,
    smoothing_factor: Enclosure,
    forwards: &YearForwards,
    at_known: AtKnown,
) -> Result<Vec<Enclosure>, Refusal> {
    let ultimate = log_ultimate_with(sheet.ufr, at_known);
    let market = sheet.market();
    let last_liquid = last_liquid_forward(market, sheet.carried_volumes(), forwards);
    let years = market.smoothing_year() + 1..=YEARS;
    let mut factor = smoothing_factor;
    let mut factors = Vec::new();
    for (year, weight) in years.zip(weights(sheet.convergence())) {
        let forward = year_forward(ultimate, last_liquid, weight);
        factor = next_factor(factor, forward, at_known);
        factors.push(checked_high(factor, year)?);
    }
    Ok(factors)
}

/// L, the enclosure of ln(1 + UFR).
pub fn log_ultimate(ufr: u16) -> Enclosure {
    log_ultimate_with(ufr, AtKnown::Nothing)
}

fn log_ultimate_with(ufr: u16, at_known: AtKnown) -> Enclosure {
    at_known.neg_log(U + RATE_STEP * i128::from(ufr)).negated()
}

/// A multiple of 1, 3, 5, 10, 20 and 30 years: with it every mean is a whole multiple of forwards,
/// and LLFR is rounded once.
const COMMON_MULTIPLE: i128 = 60;

/// LLFR, the volume-weighted mean forward, rounded once. A maturity without volume has no
/// weight; beyond the smoothing year its years may have no forward either. Where the sheet carries
/// one volume this is the last forward before smoothing starts, whatever the volume.
pub fn last_liquid_forward(market: Market, volumes: &[u32], forwards: &YearForwards) -> Enclosure {
    let mut sum = Enclosure::ZERO;
    let mut volume_sum = 0;
    let volumes = volumes.iter().copied().map(i128::from);
    for (volume, years) in volumes.zip(market.mean_years()) {
        if volume > 0 {
            let multiple = COMMON_MULTIPLE / years.clone().count() as i128;
            sum = sum.plus(forwards.sum(years).times(multiple * volume));
            volume_sum += volume;
        }
    }
    let divisor = COMMON_MULTIPLE * volume_sum;
    Enclosure::new(div_down(sum.low, divisor), div_up(sum.high, divisor))
}

/// The forward of one year, at the end of the weight that makes it lower or higher.
fn year_forward(ultimate: Enclosure, last_liquid: Enclosure, weight: Enclosure) -> Enclosure {
    let blend = |limit: i128, start: i128, weight: i128, round: Round| {
        round(limit * (U - weight) + start * weight, U)
    };
    let low = |weight| blend(ultimate.low, last_liquid.low, weight, div_down);
    let high = |weight| blend(ultimate.high, last_liquid.high, weight, div_up);
    Enclosure::new(
        low(weight.low).min(low(weight.high)),
        high(weight.low).max(high(weight.high)),
    )
}

/// The year's factor: the factor of the year before times e to minus the forward.
pub fn next_factor(before: Enclosure, forward: Enclosure, at_known: AtKnown) -> Enclosure {
    let growth = |y| at_known.growth(y);
    let low = if forward.high >= 0 {
        div_down(before.low * U, growth(forward.high).high)
    } else {
        div_down(before.low * growth(-forward.high).low, U)
    };
    let high = if forward.low >= 0 {
        div_up(before.high * U, growth(forward.low).low)
    } else {
        div_up(before.high * growth(-forward.low).high, U)
    };
    Enclosure::new(low, high)
}
