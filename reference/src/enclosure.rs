//! Pairs of a low and a high, and quotients rounded toward minus and plus infinity.

/// Billionths in one.
pub const U: i128 = 1_000_000_000;

/// Hundred-thousandths in one, the unit of par rates.
pub const RATE_UNIT: i128 = 100_000;

/// Billionths in a hundred-thousandth: a rate times this is in the unit of forwards.
pub const RATE_STEP: i128 = U / RATE_UNIT;

/// A quotient rule: either `div_down` or `div_up`.
pub type Round = fn(i128, i128) -> i128;

/// `numerator / divisor` toward minus infinity, for a divisor above 0.
pub fn div_down(numerator: i128, divisor: i128) -> i128 {
    assert!(divisor > 0);
    // With a divisor above 0 the Euclidean quotient is the floor.
    numerator.div_euclid(divisor)
}

/// `numerator / divisor` toward plus infinity, for a divisor above 0.
pub fn div_up(numerator: i128, divisor: i128) -> i128 {
    -div_down(-numerator, divisor)
}

/// A value known to lie from `low` to `high`.
#[derive(Clone, Copy, Debug, PartialEq, Eq)]
pub struct Enclosure {
    pub low: i128,
    pub high: i128,
}

impl Enclosure {
    /// The enclosure of 0.
    pub const ZERO: Enclosure = Enclosure { low: 0, high: 0 };

    /// The pair `low` to `high`.
    pub fn new(low: i128, high: i128) -> Self {
        Enclosure { low, high }
    }

    /// Lows and highs summed apart.
    pub fn plus(self, other: Self) -> Self {
        Enclosure::new(self.low + other.low, self.high + other.high)
    }

    /// Both ends times a factor of 0 or more.
    pub fn times(self, factor: i128) -> Self {
        assert!(factor >= 0);
        Enclosure::new(self.low * factor, self.high * factor)
    }

    /// The product of two pairs of billionths from 0 up, lows down and highs up.
    pub fn product(self, other: Self) -> Self {
        assert!(self.low >= 0 && other.low >= 0);
        Enclosure::new(
            div_down(self.low * other.low, U),
            div_up(self.high * other.high, U),
        )
    }

    /// The negated pair: its low is minus the high.
    pub fn negated(self) -> Self {
        Enclosure::new(-self.high, -self.low)
    }

    /// High less low.
    pub fn width(self) -> i128 {
        self.high - self.low
    }
}
