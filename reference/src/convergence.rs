//! The convergence factor a of a sheet: how fast the forwards beyond the smoothing year leave the
//! LLFR for the ultimate forward rate.

use crate::sheet::Sheet;

/// Hundred-millionths in one, the unit of a.
pub const CONVERGENCE_UNIT: i128 = 100_000_000;

/// a outside the phase-in, at which the weights are those of the table.
pub const TEN_PERCENT: i128 = 10_000_000;

/// X of a sheet without the phase-in's record: ten percent in hundred-thousandths.
pub const X_OUTSIDE_PHASE_IN: u16 = 10_000;

/// The rate of the smoothing year, in hundred-thousandths, from which on a is ten percent; at minus
/// this rate and below it is X.
pub const RATE_BOUND: i16 = 500;

impl Sheet {
    /// X of the phase-in in hundred-thousandths.
    pub fn x(&self) -> u16 {
        self.phase_in.unwrap_or(X_OUTSIDE_PHASE_IN)
    }

    /// The quoted rate of the smoothing year.
    pub fn smoothing_rate(&self) -> i16 {
        self.rates[self.market().smoothing_quote()]
    }

    /// a in hundred-millionths.
    pub fn convergence(&self) -> i128 {
        let rate = self.smoothing_rate().clamp(-RATE_BOUND, RATE_BOUND);
        let x_above = i128::from(self.x() - X_OUTSIDE_PHASE_IN);
        TEN_PERCENT + x_above * i128::from(RATE_BOUND - rate)
    }
}
