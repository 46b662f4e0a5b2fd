//! The curves of a sheet, each of 150 discount factors: the plain curve and, where the sheet has
//! an adjustment, the adjusted curve; with grounds 7 to 10.

use crate::adjustment::{adjusted_factors_with, adjusted_forwards};
use crate::bootstrap::{bootstrap_with, Bootstrap};
use crate::enclosure::Enclosure;
use crate::extrapolation::extrapolate;
use crate::forwards::YearForwards;
use crate::refusal::Refusal;
use crate::series::AtKnown;
use crate::sheet::Sheet;

/// Years on a curve.
pub const YEARS: usize = 150;

/// Which of a sheet's curves is meant.
#[derive(Clone, Copy, Debug, PartialEq, Eq, PartialOrd, Ord)]
pub enum Which {
    Plain = 0,
    Adjusted = 1,
}

impl Which {
    /// Both curves.
    pub const ALL: [Which; 2] = [Which::Plain, Which::Adjusted];

    /// The curve that a number of the C interface names: bit 0 names the adjusted one, all other
    /// bits are ignored.
    pub fn named_by(kind: u64) -> Which {
        Which::ALL[(kind & 1) as usize]
    }
}

/// The curves of a sheet.
#[derive(Clone, Debug, PartialEq, Eq)]
pub struct Curves {
    pub plain: Curve,
    /// Of a sheet with an adjustment, be it 0.
    pub adjusted: Option<Curve>,
}

impl Curves {
    /// The sheet's curves, or the first of grounds 7 to 10 that applies: on the plain curve, then
    /// 8 and 10 on the adjusted one.
    pub fn of(sheet: &Sheet) -> Result<Curves, Refusal> {
        Curves::with(sheet, AtKnown::Nothing)
    }

    /// The same under either rule for known values.
    pub fn with(sheet: &Sheet, at_known: AtKnown) -> Result<Curves, Refusal> {
        let quoted = bootstrap_with(sheet, at_known)?;
        Ok(Curves {
            plain: Curve::of_quotes(sheet, &quoted, at_known)?,
            adjusted: match sheet.adjustment {
                Some(adjustment) => Some(Curve::adjusted(sheet, &quoted, adjustment, at_known)?),
                None => None,
            },
        })
    }

    /// The named curve, if the sheet has it.
    pub fn get(&self, which: Which) -> Option<&Curve> {
        match which {
            Which::Plain => Some(&self.plain),
            Which::Adjusted => self.adjusted.as_ref(),
        }
    }
}

/// Discount factors of years 1 to 150, year y at index y - 1.
#[derive(Clone, Debug, PartialEq, Eq)]
pub struct Curve {
    lows: [i128; YEARS],
    highs: [i128; YEARS],
}

impl Curve {
    /// The sheet's plain curve, or the first of grounds 7 to 10 that applies to it.
    pub fn plain(sheet: &Sheet) -> Result<Curve, Refusal> {
        let at_known = AtKnown::Nothing;
        Curve::of_quotes(sheet, &bootstrap_with(sheet, at_known)?, at_known)
    }

    /// The plain curve, or ground 8 past the smoothing year, or ground 10.
    fn of_quotes(sheet: &Sheet, quoted: &Bootstrap, at_known: AtKnown) -> Result<Curve, Refusal> {
        Curve::going_on(sheet, quoted.liquid(), &quoted.forwards, at_known)
    }

    /// The adjusted curve, or ground 8 in any year, or ground 10.
    fn adjusted(
        sheet: &Sheet,
        quoted: &Bootstrap,
        adjustment: i16,
        at_known: AtKnown,
    ) -> Result<Curve, Refusal> {
        let liquid = adjusted_factors_with(quoted.liquid(), adjustment, at_known)?;
        let forwards = adjusted_forwards(quoted.market, &quoted.forwards, adjustment);
        Curve::going_on(sheet, &liquid, &forwards, at_known)
    }

    /// The curve that goes on from its years to the smoothing year, or ground 8 past them, or ground
    /// 10.
    fn going_on(
        sheet: &Sheet,
        liquid: &[Enclosure],
        forwards: &YearForwards,
        at_known: AtKnown,
    ) -> Result<Curve, Refusal> {
        let smoothing_factor = liquid[liquid.len() - 1];
        let extrapolated = extrapolate(sheet, smoothing_factor, forwards, at_known)?;
        let curve = Curve::collect(liquid.iter().chain(&extrapolated));
        curve.check_widths(i128::from(sheet.limit))?;
        Ok(curve)
    }

    fn collect<'a>(factors: impl Iterator<Item = &'a Enclosure>) -> Curve {
        let mut curve = Curve {
            lows: [0; YEARS],
            highs: [0; YEARS],
        };
        for (i, factor) in factors.enumerate() {
            curve.lows[i] = factor.low;
            curve.highs[i] = factor.high;
        }
        curve
    }

    /// Ground 10.
    fn check_widths(&self, limit: i128) -> Result<(), Refusal> {
        match (1..=YEARS).find(|&year| self.factor(year).width() > limit) {
            Some(year) => Err(Refusal::at(10, year)),
            None => Ok(()),
        }
    }

    /// The discount factor of `year`, which is from 1 to 150.
    pub fn factor(&self, year: usize) -> Enclosure {
        Enclosure::new(self.lows[year - 1], self.highs[year - 1])
    }
}
