//! Annual zero rates of a year's factor, in whole hundred-thousandths of one.
//!
//! Growth at rate z over t years starts at U and is t times multiplied by
//! (100,000 + z) / 100,000, each step rounded. The low rate is the largest at which the high
//! times the growth, rounded up, is at most U × U; the high rate is the smallest at which the
//! low times the growth, rounded down, is at least U × U.

use crate::enclosure::{div_down, div_up, Enclosure, Round, RATE_UNIT, U};

/// The lowest rate that is tried: a loss of half each year.
pub const LOWEST_RATE: i32 = -50_000;

/// The highest rate that is tried: a doubling each year.
pub const HIGHEST_RATE: i32 = 100_000;

/// What a factor times the growth is compared with.
const PAR: i128 = U * U;

/// Growth above par is told as this, see `growth`.
const ENOUGH: i128 = PAR + 1;

/// The rates of one year.
#[derive(Clone, Copy, Debug, PartialEq, Eq)]
pub struct ZeroRates {
    pub low: i32,
    pub high: i32,
}

impl ZeroRates {
    /// The rates that belong to the factor of `year`, or none where no high rate exists, as
    /// ground 17 has it.
    pub fn of(factor: Enclosure, year: usize) -> Option<ZeroRates> {
        let high = high_rate(factor.low, year)?;
        let low = low_rate(factor.high, year);
        Some(ZeroRates { low, high })
    }
}

/// The low rate of a `year` from 1 up whose factor has this high. It exists for every high up
/// to 2 U, where ground 8 keeps them: at the lowest rate growth is at most half of U, also
/// rounded up, since it is exactly that after the first year and no step makes it larger.
pub fn low_rate(high: i128, year: usize) -> i32 {
    let rate = first_rate(|rate| high * growth(rate, year, div_up) > PAR) - 1;
    assert!(rate >= LOWEST_RATE, "a high above 2 U has no low rate");
    rate
}

/// The high rate of a `year` from 1 up whose factor has this low, or none where even the
/// highest rate does not reach par. A low of 0 never does.
pub fn high_rate(low: i128, year: usize) -> Option<i32> {
    let rate = first_rate(|rate| low * growth(rate, year, div_down) >= PAR);
    (rate <= HIGHEST_RATE).then_some(rate)
}

/// The first rate of the range at which `passes` holds, or the one after the highest.
///
/// Halving is sound because `passes` asks whether a factor from 0 up times the growth is large
/// enough, and growth never falls as the rate rises: a step takes the larger of two growths
/// at the larger of two rates, of which 100,000 + z is above 0, to the larger product, and
/// rounding either way keeps the order. So what passes at one rate passes at every higher one.
fn first_rate(passes: impl Fn(i32) -> bool) -> i32 {
    let (mut before, mut first) = (LOWEST_RATE - 1, HIGHEST_RATE + 1);
    while first - before > 1 {
        let middle = before + (first - before) / 2;
        if passes(middle) {
            first = middle;
        } else {
            before = middle;
        }
    }
    first
}

/// Growth at `rate` over `years`, every step under one rounding, where it is at most `ENOUGH`;
/// else `ENOUGH`.
///
/// The exact growth of 150 years has up to 180 bits. Comparisons with par do not need them: at
/// a rate of 0 or more no step makes growth smaller, so that growth above par stays above par,
/// and a factor of 1 or more times either number is above par, a factor of 0 times either is
/// 0. At a rate below 0 no step makes growth larger, so that it never passes U.
fn growth(rate: i32, years: usize, round: Round) -> i128 {
    let yearly = RATE_UNIT + i128::from(rate);
    let next = |growth, _| round(growth * yearly, RATE_UNIT).min(ENOUGH);
    (0..years).fold(U, next)
}

#[cfg(test)]
mod tests {
    use super::*;
    use crate::bigint::BigInt;

    /// Growth in the words of the rule, of any size.
    fn exact_growth(rate: i32, years: usize, round: fn(&BigInt, &BigInt) -> BigInt) -> BigInt {
        let yearly = BigInt::from(RATE_UNIT + i128::from(rate));
        let next = |growth: BigInt, _| round(&(&growth * &yearly), &BigInt::from(RATE_UNIT));
        (0..years).fold(BigInt::from(U), next)
    }

    #[test]
    fn growth_is_exact_up_to_enough() {
        let cut = |growth: BigInt| growth.min(BigInt::from(ENOUGH)).to_i128();
        for rate in (LOWEST_RATE..=HIGHEST_RATE)
            .step_by(2_777)
            .chain([-1, 0, 1, HIGHEST_RATE])
        {
            for years in 0..=150 {
                let up = exact_growth(rate, years, BigInt::div_up);
                let down = exact_growth(rate, years, BigInt::div_down);
                assert_eq!(cut(up), Some(growth(rate, years, div_up)));
                assert_eq!(cut(down), Some(growth(rate, years, div_down)));
            }
        }
    }

    /// The rates by trying each of the range.
    fn scanned(factor: Enclosure, year: usize) -> (Option<i32>, Option<i32>) {
        let range = || LOWEST_RATE..=HIGHEST_RATE;
        let fits = |&rate: &i32| factor.high * growth(rate, year, div_up) <= PAR;
        let reaches = |&rate: &i32| factor.low * growth(rate, year, div_down) >= PAR;
        (range().filter(fits).max(), range().filter(reaches).min())
    }

    #[test]
    fn halving_finds_what_a_scan_finds() {
        for (year, low, high) in [
            (1, U, U),
            (1, 500_000_000, 500_000_000),
            (1, 499_999_999, 2 * U),
            (2, 942_595_909, 942_595_910),
            (7, 1_100_000_000, 1_100_000_001),
            (20, 954, 2_000),
            (20, 953, 2_000),
            (29, 1, 2),
            (40, 999_999_000, 1_000_001_000),
            (60, 1, 1),
            (150, 0, 1),
            (150, 1, 2),
            (150, 7_123_343, 7_123_392),
            (150, 2 * U - 5, 2 * U),
        ] {
            let (low_rate_scanned, high_rate_scanned) = scanned(Enclosure::new(low, high), year);
            assert_eq!(Some(low_rate(high, year)), low_rate_scanned);
            assert_eq!(high_rate(low, year), high_rate_scanned);
        }
    }
}
