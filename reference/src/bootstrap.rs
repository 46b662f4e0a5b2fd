//! Discount factors from the par rates that are used, with grounds 7 to 9.

use crate::enclosure::{div_down, div_up, Enclosure, RATE_UNIT, U};
use crate::forwards::YearForwards;
use crate::market::Market;
use crate::refusal::Refusal;
use crate::series::AtKnown;
use crate::sheet::Sheet;

/// Value of a swap's fixed leg at par.
const PAR: i128 = RATE_UNIT * U;

/// The ends between which a gap's yearly factor is sought, and that of a single year must lie.
pub const LOWEST_YEARLY_FACTOR: i128 = 800_000_000;
pub const HIGHEST_YEARLY_FACTOR: i128 = 1_100_000_000;

/// The largest allowed high of a discount factor.
const LARGEST_HIGH: i128 = 2 * U;

/// The result of the bootstrap.
pub struct Bootstrap {
    pub market: Market,
    /// Discount factors of year 1 to the last maturity whose quote is used.
    pub factors: Vec<Enclosure>,
    /// Forwards of the same years from the last ones before smoothing starts on.
    pub forwards: YearForwards,
}

impl Bootstrap {
    /// The factors of years 1 to the smoothing year, which are on the curve.
    pub fn liquid(&self) -> &[Enclosure] {
        &self.factors[..self.market.smoothing_year()]
    }
}

/// A quote that is used.
#[derive(Clone, Copy, Debug, PartialEq, Eq)]
pub struct Quote {
    pub maturity: usize,
    pub rate: i128,
}

/// The quotes that are used, by maturity. Beyond the smoothing year one without volume is dropped;
/// that year itself never is, since its volume is no more than a weight.
pub fn used_quotes(sheet: &Sheet) -> impl Iterator<Item = Quote> + '_ {
    let market = sheet.market();
    let smoothing = market.smoothing_quote();
    let used = move |&i: &usize| i <= smoothing || sheet.volumes[i - smoothing] > 0;
    (0..market.maturities.len())
        .filter(used)
        .map(move |i| Quote {
            maturity: usize::from(market.maturities[i]),
            rate: i128::from(sheet.rates[i]),
        })
}

/// The years worked so far and the sum of their factors.
struct Years {
    factors: Vec<Enclosure>,
    annuity: Enclosure,
}

/// A gap of years between the maturities of two used quotes, one next to the other.
struct Gap {
    years: usize,
    rate: i128,
    start: Enclosure,
    annuity: Enclosure,
}

/// The gap's yearly factors at one trial: the sum of T1 to Tk, and Tk.
struct Trial {
    sum: Enclosure,
    last: Enclosure,
}

/// The discount factors and forwards of the sheet, or the first of grounds 7 to 9.
pub fn bootstrap(sheet: &Sheet) -> Result<Bootstrap, Refusal> {
    bootstrap_with(sheet, AtKnown::Nothing)
}

/// The same under either rule for known values, which only the forwards go by.
pub fn bootstrap_with(sheet: &Sheet, at_known: AtKnown) -> Result<Bootstrap, Refusal> {
    let market = sheet.market();
    let mut years = Years {
        factors: Vec::new(),
        annuity: Enclosure::ZERO,
    };
    let mut forwards = YearForwards::new(market);
    for Quote { maturity, rate } in used_quotes(sheet) {
        let more = maturity - years.factors.len();
        let yearly = years.push_quote(more, rate)?;
        if maturity >= market.smoothing_year() {
            // Only here, since no other single year's forward is used.
            let yearly = yearly.map_or_else(|| years.last_yearly_factor(), Ok)?;
            forwards.push_years(more, forward(yearly, at_known));
        }
    }
    Ok(Bootstrap {
        market,
        factors: years.factors,
        forwards,
    })
}

impl Years {
    /// Appends the next year's factor, or gives ground 7 or 8.
    fn push(&mut self, factor: Enclosure) -> Result<(), Refusal> {
        let year = self.factors.len() + 1;
        if factor.low < 1 {
            return Err(Refusal::at(7, year));
        }
        self.factors.push(checked_high(factor, year)?);
        self.annuity = self.annuity.plus(factor);
        Ok(())
    }

    /// Appends the years up to a quote, so many `more`, and hands back the yearly factor of the gap
    /// if they are one; a single year is no gap.
    fn push_quote(&mut self, more: usize, rate: i128) -> Result<Option<Enclosure>, Refusal> {
        let yearly = match more {
            1 => None,
            _ => Some(self.fill_gap(more, rate)?),
        };
        self.push(par_factor(rate, self.annuity))?;
        Ok(yearly)
    }

    /// The last year's factor over that of the year before it, or ground 9. It has no trial of its
    /// own, so that it must be seen to lie where a gap's is sought: there its logarithm is near.
    fn last_yearly_factor(&self) -> Result<Enclosure, Refusal> {
        let [.., before, last] = self.factors[..] else {
            panic!("no forward is asked for before year 2");
        };
        let yearly = yearly_factor(before, last);
        if yearly.low < LOWEST_YEARLY_FACTOR || yearly.high > HIGHEST_YEARLY_FACTOR {
            return Err(Refusal::at(9, self.factors.len()));
        }
        Ok(yearly)
    }

    /// Appends the years inside a gap and hands back its yearly factor. The gap's
    /// last year is left to par, since Tk would not reprice the quoted swap.
    fn fill_gap(&mut self, gap_years: usize, rate: i128) -> Result<Enclosure, Refusal> {
        let start = *self.factors.last().expect("no gap comes before year 1");
        let gap = Gap {
            years: gap_years,
            rate,
            start,
            annuity: self.annuity,
        };
        let end = self.factors.len() + gap_years;
        let yearly = gap.yearly_factor().ok_or(Refusal::at(9, end))?;
        let mut factor = start;
        for _ in 1..gap_years {
            factor = factor.product(yearly);
            self.push(factor)?;
        }
        Ok(yearly)
    }
}

/// The factor of `year`, or ground 8.
pub fn checked_high(factor: Enclosure, year: usize) -> Result<Enclosure, Refusal> {
    if factor.high > LARGEST_HIGH {
        return Err(Refusal::at(8, year));
    }
    Ok(factor)
}

/// The factor of a quoted year from its par rate and the earlier years' sum.
pub fn par_factor(rate: i128, annuity: Enclosure) -> Enclosure {
    // The larger product rate × A gives the smaller factor.
    let (for_low, for_high) = if rate >= 0 {
        (annuity.high, annuity.low)
    } else {
        (annuity.low, annuity.high)
    };
    Enclosure::new(
        div_down(PAR - rate * for_low, RATE_UNIT + rate),
        div_up(PAR - rate * for_high, RATE_UNIT + rate),
    )
}

/// The factors of the first years, each of which is quoted.
pub fn par_factors(rates: &[i16]) -> Vec<Enclosure> {
    let mut annuity = Enclosure::ZERO;
    let next = |&rate| {
        let factor = par_factor(i128::from(rate), annuity);
        annuity = annuity.plus(factor);
        factor
    };
    rates.iter().map(next).collect()
}

/// A year's factor over that of the year before it, which is above 0.
pub fn yearly_factor(before: Enclosure, year: Enclosure) -> Enclosure {
    Enclosure::new(
        div_down(year.low * U, before.high),
        div_up(year.high * U, before.low),
    )
}

/// The forward at a yearly factor; the logarithm falls as that rises.
fn forward(yearly: Enclosure, at_known: AtKnown) -> Enclosure {
    let [low, high] = [yearly.high, yearly.low].map(|x| at_known.neg_log(x));
    Enclosure::new(low.low, high.high)
}

impl Gap {
    /// The enclosure of the yearly factor, or none if an end fails its test.
    fn yearly_factor(&self) -> Option<Enclosure> {
        let (low, high) = (LOWEST_YEARLY_FACTOR, HIGHEST_YEARLY_FACTOR);
        if !self.surely_not_above_par(low) || !self.surely_not_below_par(high) {
            return None;
        }
        Some(Enclosure::new(
            self.halve_for_low(low, high),
            self.halve_for_high(low, high),
        ))
    }

    /// The lower end once the ends are 1 apart.
    fn halve_for_low(&self, low: i128, high: i128) -> i128 {
        if high - low <= 1 {
            return low;
        }
        let middle = div_down(low + high, 2);
        if self.surely_not_above_par(middle) {
            self.halve_for_low(middle, high)
        } else {
            self.halve_for_low(low, middle)
        }
    }

    /// The upper end once the ends are 1 apart.
    fn halve_for_high(&self, low: i128, high: i128) -> i128 {
        if high - low <= 1 {
            return high;
        }
        let middle = div_down(low + high, 2);
        if self.surely_not_below_par(middle) {
            self.halve_for_high(low, middle)
        } else {
            self.halve_for_high(middle, high)
        }
    }

    /// T1 to Tk at the trial yearly factor `x`.
    fn trial(&self, x: i128) -> Trial {
        let mut last = self.start;
        let mut sum = Enclosure::ZERO;
        for _ in 0..self.years {
            last = last.product(Enclosure::new(x, x));
            sum = sum.plus(last);
        }
        Trial { sum, last }
    }

    fn surely_not_above_par(&self, x: i128) -> bool {
        let trial = self.trial(x);
        let annuity = self.annuity.plus(trial.sum);
        if self.rate >= 0 {
            self.rate * annuity.high + RATE_UNIT * trial.last.high <= PAR
        } else {
            RATE_UNIT * trial.last.high <= PAR + self.rate.abs() * annuity.low
        }
    }

    fn surely_not_below_par(&self, x: i128) -> bool {
        let trial = self.trial(x);
        let annuity = self.annuity.plus(trial.sum);
        if self.rate >= 0 {
            self.rate * annuity.low + RATE_UNIT * trial.last.low >= PAR
        } else {
            RATE_UNIT * trial.last.low >= PAR + self.rate.abs() * annuity.high
        }
    }
}
