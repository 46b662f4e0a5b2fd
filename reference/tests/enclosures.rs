//! Every low and high encloses the true factor of orders 0 to 3, and so do the rates.

mod common;

use common::{flat, zero, Numbers};
use reference::curve::{Curve, Which};
use reference::sheet::Sheet;
use reference::true_curve::check;

fn assert_enclosed(numbers: &Numbers, order: usize) {
    let sheet = Sheet::read(&numbers.bytes()).unwrap();
    let curve = Curve::plain(&sheet).unwrap();
    let checks = check(&sheet, Which::Plain, &curve, order).unwrap();
    assert_eq!(checks.len(), 150);
    for check in checks {
        assert!(check.inside, "order {order}, {check:?}");
        let between = check.rates.is_some_and(|rates| rates.between);
        assert!(between, "order {order}, {check:?}");
        assert!(check.slack_below >= 0 && check.slack_above >= 0);
    }
}

fn assert_enclosed_at_all_orders(numbers: Numbers) {
    for order in 0..=3 {
        assert_enclosed(&numbers, order);
    }
}

fn upward() -> Numbers {
    let rates = std::array::from_fn(|i| -500 + 250 * i as i16);
    Numbers {
        rates,
        volumes: [500, 400, 300, 200, 100],
        ufr: 3_450,
        ..zero()
    }
}

fn inverted() -> Numbers {
    let rates = std::array::from_fn(|i| 6_000 - 300 * i as i16);
    Numbers {
        rates,
        volumes: [100, 200, 300, 400, 500],
        ufr: 3_450,
        ..zero()
    }
}

#[test]
fn zero_rates() {
    assert_enclosed_at_all_orders(zero());
}

#[test]
fn flat_rates() {
    assert_enclosed_at_all_orders(flat(3_000));
    assert_enclosed_at_all_orders(flat(-300));
}

#[test]
fn rising_and_falling_rates() {
    assert_enclosed_at_all_orders(upward());
    assert_enclosed_at_all_orders(inverted());
}

#[test]
fn yearly_factor_exactly_at_par() {
    // 1 / 1.024 is 0.9765625, so every gap reaches par exactly on the grid.
    assert_enclosed_at_all_orders(flat(2_400));
    // 1.01^5 is 1.0510100501: at order 1 gap 10-12 reaches par exactly, over
    // denominators that no decimal or binary fixed point can hold.
    let mut numbers = zero();
    numbers.rates[..10].fill(1_000);
    assert_enclosed_at_all_orders(numbers);
}

#[test]
fn a_wrong_curve_is_found_outside() {
    let sheet = Sheet::read(&flat(3_000).bytes()).unwrap();
    let other = Sheet::read(&flat(3_001).bytes()).unwrap();
    let checks = check(&sheet, Which::Plain, &Curve::plain(&other).unwrap(), 0).unwrap();
    assert!(checks.iter().all(|check| !check.inside));
}
