//! Intervals of fixed-point numbers: every operation rounds its low down and its
//! high up, so the exact result always lies inside.

use crate::bigint::BigInt;

/// From `low` to `high`, both multiples of 2^-bits. Both operands of an operation
/// must have the same number of bits.
#[derive(Clone, Debug, PartialEq, Eq)]
pub struct Interval {
    low: BigInt,
    high: BigInt,
    bits: usize,
}

impl Interval {
    /// The whole number `value`, exactly.
    pub fn integer(value: i128, bits: usize) -> Self {
        Interval::whole(&BigInt::from(value), bits)
    }

    /// The whole number `value` of any size, exactly.
    pub fn whole(value: &BigInt, bits: usize) -> Self {
        let scaled = value.shift_left(bits);
        Interval {
            low: scaled.clone(),
            high: scaled,
            bits,
        }
    }

    /// `numerator / divisor` for a divisor above 0.
    pub fn ratio(numerator: &BigInt, divisor: &BigInt, bits: usize) -> Self {
        let scaled = numerator.shift_left(bits);
        Interval {
            low: scaled.div_down(divisor),
            high: scaled.div_up(divisor),
            bits,
        }
    }

    /// Bits after the binary point.
    pub fn bits(&self) -> usize {
        self.bits
    }

    /// The sum.
    pub fn add(&self, other: &Self) -> Self {
        assert_eq!(self.bits, other.bits);
        Interval {
            low: &self.low + &other.low,
            high: &self.high + &other.high,
            bits: self.bits,
        }
    }

    /// The negated interval.
    pub fn neg(&self) -> Self {
        Interval {
            low: -&self.high,
            high: -&self.low,
            bits: self.bits,
        }
    }

    /// The difference.
    pub fn sub(&self, other: &Self) -> Self {
        self.add(&other.neg())
    }

    /// The product.
    pub fn mul(&self, other: &Self) -> Self {
        assert_eq!(self.bits, other.bits);
        let mut products = [
            &self.low * &other.low,
            &self.low * &other.high,
            &self.high * &other.low,
            &self.high * &other.high,
        ];
        products.sort();
        let [smallest, _, _, largest] = products;
        Interval {
            low: smallest.shift_right_down(self.bits),
            high: largest.shift_right_up(self.bits),
            bits: self.bits,
        }
    }

    /// The product with a whole number, which needs no rounding.
    pub fn times(&self, factor: i128) -> Self {
        self.times_whole(&BigInt::from(factor))
    }

    /// The product with a whole number of any size, which needs no rounding either.
    pub fn times_whole(&self, factor: &BigInt) -> Self {
        // A factor below 0 turns the ends about.
        let (low, high) = if factor.is_negative() {
            (&self.high, &self.low)
        } else {
            (&self.low, &self.high)
        };
        Interval {
            low: low * factor,
            high: high * factor,
            bits: self.bits,
        }
    }

    /// The quotient by a whole number above 0.
    pub fn div_whole(&self, divisor: i128) -> Self {
        let divisor = BigInt::from(divisor);
        Interval {
            low: self.low.div_down(&divisor),
            high: self.high.div_up(&divisor),
            bits: self.bits,
        }
    }

    /// One over an interval that lies above 0.
    pub fn reciprocal(&self) -> Self {
        assert!(self.low.is_positive());
        let one = BigInt::one().shift_left(2 * self.bits);
        Interval {
            low: one.div_down(&self.high),
            high: one.div_up(&self.low),
            bits: self.bits,
        }
    }

    /// The exact interval of the low alone.
    pub fn low_point(&self) -> Self {
        Interval {
            low: self.low.clone(),
            high: self.low.clone(),
            bits: self.bits,
        }
    }

    /// The exact interval of the high alone.
    pub fn high_point(&self) -> Self {
        Interval {
            low: self.high.clone(),
            high: self.high.clone(),
            bits: self.bits,
        }
    }

    /// From the low of `self` to the high of `other`.
    pub fn up_to(&self, other: &Self) -> Self {
        assert_eq!(self.bits, other.bits);
        Interval {
            low: self.low.clone(),
            high: other.high.clone(),
            bits: self.bits,
        }
    }

    /// The interval made wider by 2^-bits on either side.
    pub fn widened(&self) -> Self {
        let ulp = BigInt::one();
        Interval {
            low: &self.low - &ulp,
            high: &self.high + &ulp,
            bits: self.bits,
        }
    }

    /// Whether the high is at most 2^-bits.
    pub fn high_within_one_ulp(&self) -> bool {
        self.high <= BigInt::one()
    }

    /// Whether the low is below 0.
    pub fn low_is_negative(&self) -> bool {
        self.low.is_negative()
    }

    /// The whole part of the low, toward minus infinity.
    pub fn low_floor(&self) -> i128 {
        floor_to_i128(&self.low, self.bits)
    }

    /// The whole part of the high, toward minus infinity.
    pub fn high_floor(&self) -> i128 {
        floor_to_i128(&self.high, self.bits)
    }

    /// Whether every value is at least 0 (`Some(true)`), every value is below 0
    /// (`Some(false)`), or neither.
    pub fn not_negative(&self) -> Option<bool> {
        if !self.low.is_negative() {
            Some(true)
        } else if self.high.is_negative() {
            Some(false)
        } else {
            None
        }
    }
}

fn floor_to_i128(scaled: &BigInt, bits: usize) -> i128 {
    scaled
        .shift_right_down(bits)
        .to_i128()
        .expect("whole part within 128 bits")
}
