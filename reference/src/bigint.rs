//! Signed whole numbers of any size, as far as the true curve needs them.

use std::cmp::Ordering;
use std::ops::{Add, Mul, Neg, Sub};

const LIMB_BITS: usize = 32;

/// Sign and magnitude. The limbs are base 2^32, lowest first, without leading zeros;
/// zero has no limbs and is not negative, so equal numbers are equal values.
#[derive(Clone, Debug, PartialEq, Eq)]
pub struct BigInt {
    negative: bool,
    limbs: Vec<u32>,
}

impl BigInt {
    /// 0.
    pub fn zero() -> Self {
        BigInt {
            negative: false,
            limbs: Vec::new(),
        }
    }

    /// 1.
    pub fn one() -> Self {
        BigInt::from(1)
    }

    fn from_parts(negative: bool, mut limbs: Vec<u32>) -> Self {
        trim(&mut limbs);
        let negative = negative && !limbs.is_empty();
        BigInt { negative, limbs }
    }

    /// The number as an `i128`, or none if it does not fit.
    pub fn to_i128(&self) -> Option<i128> {
        if self.limbs.len() > 4 {
            return None;
        }
        let magnitude = self
            .limbs
            .iter()
            .rev()
            .fold(0u128, |sum, &limb| (sum << LIMB_BITS) | u128::from(limb));
        let value = i128::try_from(magnitude).ok()?;
        Some(if self.negative { -value } else { value })
    }

    /// Whether the number is below 0.
    pub fn is_negative(&self) -> bool {
        self.negative
    }

    /// Whether the number is above 0.
    pub fn is_positive(&self) -> bool {
        !self.negative && !self.limbs.is_empty()
    }

    /// The number to the power `exponent`.
    pub fn pow(&self, exponent: usize) -> BigInt {
        (0..exponent).fold(BigInt::one(), |product, _| &product * self)
    }

    /// The number times 2^bits.
    pub fn shift_left(&self, bits: usize) -> BigInt {
        BigInt::from_parts(self.negative, shift_left(&self.limbs, bits))
    }

    /// The number over 2^bits, toward minus infinity.
    pub fn shift_right_down(&self, bits: usize) -> BigInt {
        let quotient = shift_right(&self.limbs, bits);
        let inexact = has_low_bits(&self.limbs, bits);
        BigInt::floor_of(self.negative, quotient, inexact)
    }

    /// The number over 2^bits, toward plus infinity.
    pub fn shift_right_up(&self, bits: usize) -> BigInt {
        -&(-self).shift_right_down(bits)
    }

    /// The number over a divisor above 0, toward minus infinity.
    pub fn div_down(&self, divisor: &BigInt) -> BigInt {
        assert!(divisor.is_positive());
        let (quotient, rest) = divide(&self.limbs, &divisor.limbs);
        BigInt::floor_of(self.negative, quotient, !rest.is_empty())
    }

    /// The number over a divisor above 0, toward plus infinity.
    pub fn div_up(&self, divisor: &BigInt) -> BigInt {
        -&(-self).div_down(divisor)
    }

    /// The floor belonging to a quotient of magnitudes that may have left a rest.
    fn floor_of(negative: bool, quotient: Vec<u32>, inexact: bool) -> BigInt {
        let truncated = BigInt::from_parts(negative, quotient);
        if negative && inexact {
            &truncated - &BigInt::one()
        } else {
            truncated
        }
    }
}

impl From<i128> for BigInt {
    fn from(value: i128) -> Self {
        let mut magnitude = value.unsigned_abs();
        let mut limbs = Vec::new();
        while magnitude > 0 {
            limbs.push(magnitude as u32);
            magnitude >>= LIMB_BITS;
        }
        BigInt::from_parts(value < 0, limbs)
    }
}

impl Ord for BigInt {
    fn cmp(&self, other: &Self) -> Ordering {
        match (self.negative, other.negative) {
            (false, true) => Ordering::Greater,
            (true, false) => Ordering::Less,
            (false, false) => compare(&self.limbs, &other.limbs),
            (true, true) => compare(&other.limbs, &self.limbs),
        }
    }
}

impl PartialOrd for BigInt {
    fn partial_cmp(&self, other: &Self) -> Option<Ordering> {
        Some(self.cmp(other))
    }
}

impl Neg for &BigInt {
    type Output = BigInt;

    fn neg(self) -> BigInt {
        BigInt::from_parts(!self.negative, self.limbs.clone())
    }
}

impl Add for &BigInt {
    type Output = BigInt;

    fn add(self, other: &BigInt) -> BigInt {
        if self.negative == other.negative {
            return BigInt::from_parts(self.negative, add(&self.limbs, &other.limbs));
        }
        if compare(&self.limbs, &other.limbs) == Ordering::Less {
            BigInt::from_parts(other.negative, subtract(&other.limbs, &self.limbs))
        } else {
            BigInt::from_parts(self.negative, subtract(&self.limbs, &other.limbs))
        }
    }
}

impl Sub for &BigInt {
    type Output = BigInt;

    fn sub(self, other: &BigInt) -> BigInt {
        self + &-other
    }
}

impl Mul for &BigInt {
    type Output = BigInt;

    fn mul(self, other: &BigInt) -> BigInt {
        let negative = self.negative != other.negative;
        BigInt::from_parts(negative, multiply(&self.limbs, &other.limbs))
    }
}

fn trim(limbs: &mut Vec<u32>) {
    while limbs.last() == Some(&0) {
        limbs.pop();
    }
}

/// Order of two trimmed magnitudes.
fn compare(a: &[u32], b: &[u32]) -> Ordering {
    a.len()
        .cmp(&b.len())
        .then_with(|| a.iter().rev().cmp(b.iter().rev()))
}

fn add(a: &[u32], b: &[u32]) -> Vec<u32> {
    let (long, short) = if a.len() >= b.len() { (a, b) } else { (b, a) };
    let mut sum = Vec::with_capacity(long.len() + 1);
    let mut carry = 0u64;
    for (i, &limb) in long.iter().enumerate() {
        let total = u64::from(limb) + u64::from(short.get(i).copied().unwrap_or(0)) + carry;
        sum.push(total as u32);
        carry = total >> LIMB_BITS;
    }
    sum.push(carry as u32);
    sum
}

/// `a - b` for `a` not below `b`.
fn subtract(a: &[u32], b: &[u32]) -> Vec<u32> {
    let mut difference = Vec::with_capacity(a.len());
    let mut borrow = 0i64;
    for (i, &limb) in a.iter().enumerate() {
        let part = i64::from(limb) - i64::from(b.get(i).copied().unwrap_or(0)) - borrow;
        borrow = i64::from(part < 0);
        difference.push(part as u32);
    }
    assert_eq!(borrow, 0);
    difference
}

fn multiply(a: &[u32], b: &[u32]) -> Vec<u32> {
    let mut product = vec![0u32; a.len() + b.len()];
    for (i, &x) in a.iter().enumerate() {
        let mut carry = 0u64;
        for (j, &y) in b.iter().enumerate() {
            let total = u64::from(x) * u64::from(y) + u64::from(product[i + j]) + carry;
            product[i + j] = total as u32;
            carry = total >> LIMB_BITS;
        }
        product[i + b.len()] = carry as u32;
    }
    product
}

fn shift_left(limbs: &[u32], bits: usize) -> Vec<u32> {
    let (whole, part) = (bits / LIMB_BITS, bits % LIMB_BITS);
    let mut shifted = vec![0u32; whole];
    let mut carry = 0u64;
    for &limb in limbs {
        let wide = (u64::from(limb) << part) | carry;
        shifted.push(wide as u32);
        carry = wide >> LIMB_BITS;
    }
    shifted.push(carry as u32);
    trim(&mut shifted);
    shifted
}

fn shift_right(limbs: &[u32], bits: usize) -> Vec<u32> {
    let (whole, part) = (bits / LIMB_BITS, bits % LIMB_BITS);
    let kept = limbs.get(whole..).unwrap_or(&[]);
    let at = |i: usize| u64::from(kept.get(i).copied().unwrap_or(0));
    (0..kept.len())
        .map(|i| (((at(i + 1) << LIMB_BITS) | at(i)) >> part) as u32)
        .collect()
}

/// Whether any of the lowest `bits` bits is set.
fn has_low_bits(limbs: &[u32], bits: usize) -> bool {
    let (whole, part) = (bits / LIMB_BITS, bits % LIMB_BITS);
    let in_whole = limbs.iter().take(whole).any(|&limb| limb != 0);
    let in_part = limbs
        .get(whole)
        .is_some_and(|&limb| limb & ((1u32 << part) - 1) != 0);
    in_whole || in_part
}

/// Quotient and rest of trimmed magnitudes, the rest trimmed.
fn divide(numerator: &[u32], divisor: &[u32]) -> (Vec<u32>, Vec<u32>) {
    if compare(numerator, divisor) == Ordering::Less {
        return (Vec::new(), numerator.to_vec());
    }
    if divisor.len() == 1 {
        return divide_by_limb(numerator, divisor[0]);
    }
    // Schoolbook division needs the divisor's top bit set for good digit estimates.
    let shift = divisor[divisor.len() - 1].leading_zeros() as usize;
    let divisor = shift_left(divisor, shift);
    let mut rest = shift_left(numerator, shift);
    rest.resize(numerator.len() + 1, 0);
    let digits = numerator.len() - divisor.len() + 1;
    let mut quotient = vec![0u32; digits];
    for position in (0..digits).rev() {
        quotient[position] = next_digit(&mut rest[position..], &divisor);
    }
    let mut rest = shift_right(&rest, shift);
    trim(&mut rest);
    (quotient, rest)
}

fn divide_by_limb(numerator: &[u32], divisor: u32) -> (Vec<u32>, Vec<u32>) {
    let mut quotient = vec![0u32; numerator.len()];
    let mut rest = 0u64;
    for i in (0..numerator.len()).rev() {
        let wide = (rest << LIMB_BITS) | u64::from(numerator[i]);
        quotient[i] = (wide / u64::from(divisor)) as u32;
        rest = wide % u64::from(divisor);
    }
    let mut rest = vec![rest as u32];
    trim(&mut rest);
    (quotient, rest)
}

/// One quotient digit; takes digit × divisor off the low end of `rest`.
fn next_digit(rest: &mut [u32], divisor: &[u32]) -> u32 {
    let mut digit = estimate_digit(rest, divisor);
    if subtract_product(rest, divisor, digit) {
        // The estimate is at most 1 too large after the two-limb correction.
        digit -= 1;
        add_back(rest, divisor);
    }
    u32::try_from(digit).expect("a digit below the base")
}

fn estimate_digit(rest: &[u32], divisor: &[u32]) -> u64 {
    let n = divisor.len();
    let top = u64::from(divisor[n - 1]);
    let wide = (u64::from(rest[n]) << LIMB_BITS) | u64::from(rest[n - 1]);
    let (mut digit, mut left) = (wide / top, wide % top);
    while digit >> LIMB_BITS != 0
        || digit * u64::from(divisor[n - 2]) > ((left << LIMB_BITS) | u64::from(rest[n - 2]))
    {
        digit -= 1;
        left += top;
        if left >> LIMB_BITS != 0 {
            break;
        }
    }
    digit
}

/// `rest -= digit × divisor` modulo the limbs concerned; whether it went below 0.
fn subtract_product(rest: &mut [u32], divisor: &[u32], digit: u64) -> bool {
    let mut carry = 0u64;
    let mut borrow = 0i64;
    for (limb, factor) in rest.iter_mut().zip(with_zero_limb(divisor)) {
        let product = digit * u64::from(factor) + carry;
        carry = product >> LIMB_BITS;
        let part = i64::from(*limb) - i64::from(product as u32) - borrow;
        borrow = i64::from(part < 0);
        *limb = part as u32;
    }
    borrow == 1
}

fn add_back(rest: &mut [u32], divisor: &[u32]) {
    let mut carry = 0u64;
    for (limb, summand) in rest.iter_mut().zip(with_zero_limb(divisor)) {
        let total = u64::from(*limb) + u64::from(summand) + carry;
        *limb = total as u32;
        carry = total >> LIMB_BITS;
    }
}

/// The divisor's limbs and a zero, as many as one step of the division touches.
fn with_zero_limb(divisor: &[u32]) -> impl Iterator<Item = u32> + '_ {
    divisor.iter().copied().chain([0])
}

#[cfg(test)]
mod tests {
    use super::*;

    /// Limbs that often are all ones or zero, where digit estimates go wrong.
    fn sample(seed: &mut u64, limbs: usize) -> BigInt {
        let mut next = || {
            *seed = seed
                .wrapping_mul(6364136223846793005)
                .wrapping_add(1442695040888963407);
            (*seed >> 33) as u32
        };
        let limbs = (0..limbs)
            .map(|_| match next() % 4 {
                0 => 0,
                1 => u32::MAX,
                2 => 1 << 31,
                _ => next() ^ (next() << 16),
            })
            .collect();
        let negative = next() % 2 == 0;
        BigInt::from_parts(negative, limbs)
    }

    #[test]
    fn quotients_and_products_agree() {
        let mut seed = 7;
        for round in 0..20_000 {
            let numerator = sample(&mut seed, round % 11);
            let mut divisor = sample(&mut seed, 1 + round % 5);
            divisor.negative = false;
            if !divisor.is_positive() {
                continue;
            }
            let quotient = numerator.div_down(&divisor);
            let rest = &numerator - &(&quotient * &divisor);
            assert!(!rest.is_negative() && rest < divisor);
            let above = numerator.div_up(&divisor);
            let lacking = &(&above * &divisor) - &numerator;
            assert!(!lacking.is_negative() && lacking < divisor);
        }
    }

    #[test]
    fn shifts_are_products_and_quotients_by_powers_of_two() {
        let mut seed = 11;
        for bits in 0..200 {
            let number = sample(&mut seed, 1 + bits % 9);
            let power = BigInt::from(2).pow(bits);
            assert_eq!(number.shift_left(bits), &number * &power);
            assert_eq!(number.shift_right_down(bits), number.div_down(&power));
            assert_eq!(number.shift_right_up(bits), number.div_up(&power));
        }
    }

    #[test]
    fn small_numbers_behave_as_i128() {
        let samples: [i128; 9] = [
            0,
            1,
            -1,
            7,
            -7,
            1 << 32,
            -(1 << 40),
            1 << 60,
            -(1 << 62) + 5,
        ];
        for a in samples {
            assert_eq!(BigInt::from(a).to_i128(), Some(a));
            for b in samples {
                let (x, y) = (BigInt::from(a), BigInt::from(b));
                assert_eq!((&x + &y).to_i128(), Some(a + b));
                assert_eq!((&x - &y).to_i128(), Some(a - b));
                assert_eq!((&x * &y).to_i128(), a.checked_mul(b));
                assert_eq!(x.cmp(&y), a.cmp(&b));
            }
        }
    }
}
