//! The curve in the words of the paper and in plain whole numbers, over a given list of quotes.
//! LLFR is the paper's formula on the forwards g1 to g5 of gaps 15-20, 20-25, 25-30, 30-40 and
//! 40-50: with every quote this is the rule from before quotes were dropped. Where a gap runs
//! on over dropped maturities, its forward stands for each of these gaps inside it. The adjusted
//! curve starts again from the same years and forwards. Of a smaller market LLFR is the forward just
//! before its smoothing year. Logarithm and growth are given, so that what another rule would make
//! of a sheet can be told.

use reference::enclosure::Enclosure;
use reference::market::MATURITIES;
use reference::series::{growth, neg_log};
use reference::sheet::Sheet;
use reference::weights::weights;

const U: i128 = 1_000_000_000;
const PAR: i128 = 100_000 * U;

/// The last years of the gaps of g1 to g5.
const GAP_ENDS: [usize; 5] = [20, 25, 30, 40, 50];

/// Number and place.
pub type Ground = (u8, u16);

/// The logarithm G and the growth E that a curve is worked with. (The weights of a sheet with an X
/// are always those of the rule: no growth in them is known.)
#[derive(Clone, Copy)]
pub struct Series {
    pub neg_log: fn(i128) -> Enclosure,
    pub growth: fn(i128) -> Enclosure,
}

/// Those of the rule.
pub const RULE: Series = Series { neg_log, growth };

fn down(n: i128, d: i128) -> i128 {
    n.div_euclid(d)
}

fn up(n: i128, d: i128) -> i128 {
    -(-n).div_euclid(d)
}

/// Factors of year 1 to 150, lows and highs apart, or the first of grounds 7 to 10.
#[derive(Clone, Debug, Default, PartialEq, Eq)]
pub struct Model {
    pub lows: Vec<i128>,
    pub highs: Vec<i128>,
}

impl Model {
    /// By the rule from before quotes were dropped: all seventeen are used.
    #[allow(dead_code)]
    pub fn of_all_quotes(sheet: &Sheet) -> Result<Model, Ground> {
        Model::over(sheet, &[25, 30, 40, 50])
    }

    /// Over the quotes up to 20 and those of `later` maturities.
    pub fn over(sheet: &Sheet, later: &[u8]) -> Result<Model, Ground> {
        Model::with(sheet, later, RULE)
    }

    /// The same with any logarithm and growth.
    pub fn with(sheet: &Sheet, later: &[u8], series: Series) -> Result<Model, Ground> {
        let (years, g) = Model::quoted(sheet, later, series)?;
        years.extrapolate(sheet, 20, llfr(sheet.volumes, g), series)
    }

    /// The plain curve and, with the sheet's adjustment, the adjusted one, or the first ground of
    /// either.
    #[allow(dead_code)]
    pub fn both_over(sheet: &Sheet, later: &[u8], adjustment: i16) -> Result<[Model; 2], Ground> {
        Model::both_with(sheet, later, adjustment, RULE)
    }

    /// The same with any logarithm and growth.
    pub fn both_with(
        sheet: &Sheet,
        later: &[u8],
        adjustment: i16,
        series: Series,
    ) -> Result<[Model; 2], Ground> {
        let plain = Model::with(sheet, later, series)?;
        let (mut years, mut g) = Model::quoted(sheet, later, series)?;
        let more = 10_000 * i128::from(adjustment);
        years.lows.truncate(20);
        years.highs.truncate(20);
        for t in 1..=20 {
            for _ in 0..t {
                let factor = (years.lows[t - 1], years.highs[t - 1]);
                (years.lows[t - 1], years.highs[t - 1]) = step(factor, (more, more), series);
            }
            if years.highs[t - 1] > 2 * U {
                return Err((8, t as u16));
            }
        }
        g[0] = (g[0].0 + more, g[0].1 + more);
        let adjusted = years.extrapolate(sheet, 20, llfr(sheet.volumes, g), series)?;
        Ok([plain, adjusted])
    }

    /// The years from the quotes, and g1 to g5.
    fn quoted(
        sheet: &Sheet,
        later: &[u8],
        series: Series,
    ) -> Result<(Model, [(i128, i128); 5]), Ground> {
        let mut years = Model::default();
        let mut g = [(0, 0); 5];
        for (maturity, rate) in MATURITIES.into_iter().zip(sheet.rates.map(i128::from)) {
            if maturity > 20 && !later.contains(&maturity) {
                continue;
            }
            let (start, end) = (years.lows.len(), usize::from(maturity));
            if end - start > 1 {
                let x = years.fill_gap(end, rate)?;
                let forward = ((series.neg_log)(x.1).low, (series.neg_log)(x.0).high);
                for (g, gap_end) in g.iter_mut().zip(GAP_ENDS) {
                    if start < gap_end && gap_end <= end {
                        *g = forward;
                    }
                }
            }
            years.push_by_par(rate)?;
        }
        Ok((years, g))
    }

    /// The curve of a sheet of profile 2 or 3.
    #[allow(dead_code)]
    pub fn of_smaller(sheet: &Sheet, profile: u8, series: Series) -> Result<Model, Ground> {
        let quotes = match profile {
            2 => &MATURITIES[..10],
            _ => &MATURITIES[..12],
        };
        let mut years = Model::default();
        let mut x = (0, 0);
        for (&maturity, rate) in quotes.iter().zip(sheet.rates.map(i128::from)) {
            if usize::from(maturity) > years.lows.len() + 1 {
                x = years.fill_gap(usize::from(maturity), rate)?;
            }
            years.push_by_par(rate)?;
        }
        if profile == 2 {
            let (low_9, high_9) = (years.lows[8], years.highs[8]);
            let (low_10, high_10) = (years.lows[9], years.highs[9]);
            x = (down(low_10 * U, high_9), up(high_10 * U, low_9));
            if x.0 < 800_000_000 || 1_100_000_000 < x.1 {
                return Err((9, 10));
            }
        }
        let llfr = ((series.neg_log)(x.1).low, (series.neg_log)(x.0).high);
        let smoothing_year = if profile == 2 { 10 } else { 15 };
        years.extrapolate(sheet, smoothing_year, llfr, series)
    }

    fn sums(&self) -> (i128, i128) {
        (self.lows.iter().sum(), self.highs.iter().sum())
    }

    fn push(&mut self, low: i128, high: i128) -> Result<(), Ground> {
        let year = self.lows.len() as u16 + 1;
        if low < 1 {
            return Err((7, year));
        }
        if high > 2 * U {
            return Err((8, year));
        }
        self.lows.push(low);
        self.highs.push(high);
        Ok(())
    }

    fn push_by_par(&mut self, r: i128) -> Result<(), Ground> {
        let (a_low, a_high) = self.sums();
        let (for_low, for_high) = if r >= 0 {
            (a_high, a_low)
        } else {
            (a_low, a_high)
        };
        let (low, high) = (PAR - r * for_low, PAR - r * for_high);
        self.push(down(low, 100_000 + r), up(high, 100_000 + r))
    }

    /// The low and the high x of the gap up to `end`, once its inner years are pushed.
    fn fill_gap(&mut self, end: usize, r: i128) -> Result<(i128, i128), Ground> {
        let years = end - self.lows.len();
        let not_above = |x| self.value_high(years, r, x) <= PAR;
        let not_below = |x| self.value_low(years, r, x) >= PAR;
        if !not_above(800_000_000) || !not_below(1_100_000_000) {
            return Err((9, end as u16));
        }
        let (low_x, _) = halve(not_above);
        let (_, high_x) = halve(|x| !not_below(x));
        for _ in 1..years {
            let (low, high) = (
                self.lows[self.lows.len() - 1],
                self.highs[self.lows.len() - 1],
            );
            self.push(down(low * low_x, U), up(high * high_x, U))?;
        }
        Ok((low_x, high_x))
    }

    /// T1 to Tk at x on lows and on highs: A + S and Tk of each.
    fn trials(&self, years: usize, x: i128) -> [(i128, i128); 2] {
        let (mut a_low, mut a_high) = self.sums();
        let (mut low, mut high) = (
            self.lows[self.lows.len() - 1],
            self.highs[self.lows.len() - 1],
        );
        for _ in 0..years {
            low = down(low * x, U);
            high = up(high * x, U);
            a_low += low;
            a_high += high;
        }
        [(a_low, low), (a_high, high)]
    }

    /// The swap's value at x is at most this.
    fn value_high(&self, years: usize, r: i128, x: i128) -> i128 {
        let [(a_low, _), (a_high, high)] = self.trials(years, x);
        r * if r >= 0 { a_high } else { a_low } + 100_000 * high
    }

    /// The swap's value at x is at least this.
    fn value_low(&self, years: usize, r: i128, x: i128) -> i128 {
        let [(a_low, low), (a_high, _)] = self.trials(years, x);
        r * if r >= 0 { a_low } else { a_high } + 100_000 * low
    }

    fn extrapolate(
        mut self,
        sheet: &Sheet,
        smoothing_year: usize,
        llfr: (i128, i128),
        series: Series,
    ) -> Result<Model, Ground> {
        self.lows.truncate(smoothing_year);
        self.highs.truncate(smoothing_year);
        let l = (series.neg_log)(U + 10_000 * i128::from(sheet.ufr));
        let l = (-l.high, -l.low);
        for (year, k) in (smoothing_year + 1..=150).zip(weights(sheet.convergence())) {
            let low = |k| down(l.0 * (U - k) + llfr.0 * k, U);
            let high = |k| up(l.1 * (U - k) + llfr.1 * k, U);
            let f = (low(k.low).min(low(k.high)), high(k.low).max(high(k.high)));
            let (low, high) = step((self.lows[year - 2], self.highs[year - 2]), f, series);
            if high > 2 * U {
                return Err((8, year as u16));
            }
            self.lows.push(low);
            self.highs.push(high);
        }
        let wide = |&i: &usize| self.highs[i] - self.lows[i] > i128::from(sheet.limit);
        match (0..150).find(wide) {
            Some(i) => Err((10, 1 + i as u16)),
            None => Ok(self),
        }
    }
}

/// The step of extrapolated years: from one year's low and high to the next one's.
fn step((low, high): (i128, i128), f: (i128, i128), series: Series) -> (i128, i128) {
    let growth = series.growth;
    let low = match f.1 {
        0.. => down(low * U, growth(f.1).high),
        _ => down(low * growth(-f.1).low, U),
    };
    let high = match f.0 {
        0.. => up(high * U, growth(f.0).low),
        _ => up(high * growth(-f.0).high, U),
    };
    (low, high)
}

/// From the ends of the halving: the last x at which `before` holds and the next one.
fn halve(before: impl Fn(i128) -> bool) -> (i128, i128) {
    let (mut low, mut high) = (800_000_000, 1_100_000_000);
    while high - low > 1 {
        let middle = down(low + high, 2);
        if before(middle) {
            low = middle;
        } else {
            high = middle;
        }
    }
    (low, high)
}

/// The paper's formula as it stands, lows and highs.
fn llfr(volumes: [u32; 5], g: [(i128, i128); 5]) -> (i128, i128) {
    let [v20, v25, v30, v40, v50] = volumes.map(i128::from);
    let weighed = |[g1, g2, g3, g4, g5]: [i128; 5]| {
        12 * v20 * g1
            + 12 * v25 * g2
            + 6 * v30 * (g2 + g3)
            + 3 * v40 * (g2 + g3 + 2 * g4)
            + 2 * v50 * (g2 + g3 + 2 * g4 + 2 * g5)
    };
    let divisor = 12 * (v20 + v25 + v30 + v40 + v50);
    let (low, high) = (weighed(g.map(|g| g.0)), weighed(g.map(|g| g.1)));
    (down(low, divisor), up(high, divisor))
}
