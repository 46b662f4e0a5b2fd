//! k(h), the weight of the LLFR in the forward of year h past the smoothing year: the table K at a
//! convergence factor of ten percent, worked for every other.

use std::sync::OnceLock;

use crate::bigint::BigInt;
use crate::convergence::{CONVERGENCE_UNIT, TEN_PERCENT};
use crate::enclosure::{div_down, div_up, Enclosure, U};
use crate::interval::Interval;
use crate::series::growth;

/// The most extrapolated years that a curve has: those past a smoothing year of 10.
pub const HORIZON: usize = 140;

/// About 154 decimal digits, far beyond the nine that K(h) needs.
const BITS: usize = 512;

/// The enclosures of k(1) to k(140) at `convergence`, that of k(h) at index h - 1.
pub fn weights(convergence: i128) -> [Enclosure; HORIZON] {
    if convergence == TEN_PERCENT {
        table().map(|weight| Enclosure::new(weight, weight + 1))
    } else {
        worked_weights(convergence)
    }
}

/// k(h) = P(h-1) × M with P(i) = q^i, q = e^-a and M = (1 - q) / a.
fn worked_weights(convergence: i128) -> [Enclosure; HORIZON] {
    // E takes billionths.
    let growth = growth(10 * convergence);
    let q = Enclosure::new(div_down(U * U, growth.high), div_up(U * U, growth.low));
    let m = Enclosure::new(
        div_down((U - q.high) * CONVERGENCE_UNIT, convergence),
        div_up((U - q.low) * CONVERGENCE_UNIT, convergence),
    );
    let mut power = Enclosure::new(U, U);
    std::array::from_fn(|_| {
        let weight = power.product(m);
        power = power.product(q);
        Enclosure::new(weight.low, weight.high.min(U))
    })
}

/// K(1) to K(140), K(h) at index h - 1: 10 × U × (e^(-(h-1)/10) - e^(-h/10)) rounded down.
pub fn table() -> &'static [i128; HORIZON] {
    static TABLE: OnceLock<[i128; HORIZON]> = OnceLock::new();
    TABLE.get_or_init(|| {
        let q = exp_minus_tenth();
        let mut before = Interval::integer(1, BITS);
        std::array::from_fn(|_| {
            let after = before.mul(&q);
            let weight = before.sub(&after).times(10 * U);
            before = after;
            whole_part(&weight)
        })
    })
}

/// The whole part that both ends share.
pub fn whole_part(value: &Interval) -> i128 {
    let low = value.low_floor();
    assert_eq!(
        low,
        value.high_floor(),
        "precision too low to fix the whole part"
    );
    low
}

/// e^(-1/10) from its alternating series, whose rest is smaller than the next term.
fn exp_minus_tenth() -> Interval {
    let tenth = Interval::ratio(&BigInt::from(1), &BigInt::from(10), BITS);
    let mut term = Interval::integer(1, BITS);
    let mut sum = term.clone();
    let mut i = 0;
    loop {
        i += 1;
        term = term.mul(&tenth).div_whole(i);
        sum = if i % 2 == 1 {
            sum.sub(&term)
        } else {
            sum.add(&term)
        };
        if term.high_within_one_ulp() {
            return sum.widened();
        }
    }
}
