//! The phase-in: its record, the convergence factor, the weights, and curves with an X.

mod common;

use common::{flat, november, zero, Numbers};
use reference::bigint::BigInt;
use reference::convergence::{CONVERGENCE_UNIT, TEN_PERCENT};
use reference::curve::{Curve, Which};
use reference::enclosure::{Enclosure, U};
use reference::refusal::Refusal;
use reference::series::growth;
use reference::sheet::Sheet;
use reference::streams::{sheet, worked, Random};
use reference::true_curve::{check, true_convergence, true_weights, Fraction};
use reference::weights::{table, weights, HORIZON};

/// Bits that leave no comparison with a weight undecided.
const BITS: usize = 512;

fn read(numbers: &Numbers) -> Sheet {
    Sheet::read(&numbers.bytes()).expect("a sheet")
}

fn curve(numbers: &Numbers) -> Curve {
    Curve::plain(&read(numbers)).expect("an accepted sheet")
}

fn convergence(rate_20: i16, x: u16) -> i128 {
    read(&zero().with_rate(20, rate_20).with_x(x)).convergence()
}

fn refusal(bytes: &[u8]) -> Option<(u8, u16)> {
    let refusal: Option<Refusal> = Sheet::read(bytes).err();
    refusal.map(|refusal| (refusal.number, refusal.place))
}

// The record

#[test]
fn the_record_is_the_26th_and_tells_x() {
    let bytes = zero().with_x(0x3412).bytes();
    assert_eq!(bytes.len(), 112);
    assert_eq!(bytes[109..], [0x06, 0x34, 0x12]);
    assert_eq!(read(&zero().with_x(0x3412)).phase_in, Some(0x3412));
    assert_eq!(read(&zero()).phase_in, None);
}

#[test]
fn another_kind_in_its_turn_is_ground_2() {
    // Hex 07 is the adjustment's, which may stand there too.
    for kind in (0..=255).filter(|kind| ![0x06, 0x07].contains(kind)) {
        // X is out of range too: ground 2 comes first.
        for x in [9_999, 20_000] {
            let mut bytes = zero().with_x(x).bytes();
            bytes[109] = kind;
            assert_eq!(refusal(&bytes), Some((2, 26)));
        }
    }
    let mut bytes = zero().with_x(20_000).bytes();
    bytes[109] = 0x08;
    bytes[104] = 0x06;
    assert_eq!(refusal(&bytes), Some((2, 25)));
}

#[test]
fn x_outside_its_range_is_ground_3() {
    for x in 0..=u16::MAX {
        let expected = (!(10_000..=20_000).contains(&x)).then_some((3, 26));
        assert_eq!(refusal(&zero().with_x(x).bytes()), expected);
    }
    let limit_too = Numbers { limit: 0, ..zero() };
    assert_eq!(refusal(&limit_too.with_x(0).bytes()), Some((3, 25)));
    let untraded = Numbers {
        volumes: [0; 5],
        ..zero()
    };
    assert_eq!(refusal(&untraded.with_x(20_000).bytes()), Some((4, 0)));
}

// The convergence factor

#[test]
fn factors_of_2020() {
    for (rate_20, factor) in [
        (14, 14_860_000),
        (-86, 15_860_000),
        (-186, 16_860_000),
        (114, 13_860_000),
        (214, 12_860_000),
    ] {
        assert_eq!(convergence(rate_20, 20_000), factor);
    }
}

#[test]
fn the_rate_is_cut_in_the_factor() {
    for x in [10_000, 10_001, 15_000, 20_000] {
        for rate_20 in [500, 501, 12_000] {
            assert_eq!(convergence(rate_20, x), TEN_PERCENT);
        }
        for rate_20 in [-500, -501, -2_000] {
            assert_eq!(convergence(rate_20, x), 1_000 * i128::from(x));
        }
    }
    assert_eq!(convergence(499, 10_001), TEN_PERCENT + 1);
    for rate_20 in -2_000..=12_000 {
        assert_eq!(convergence(rate_20, 10_000), TEN_PERCENT);
        assert_eq!(read(&flat(rate_20)).convergence(), TEN_PERCENT);
    }
}

#[test]
fn the_true_factor_is_the_same_number() {
    for rate_20 in -502..=502 {
        for x in [10_000, 10_001, 12_345, 16_667, 19_999, 20_000] {
            let sheet = read(&zero().with_rate(20, rate_20).with_x(x));
            let exact = true_convergence(&sheet);
            let in_units = &exact.numerator * &BigInt::from(CONVERGENCE_UNIT);
            let factor = &BigInt::from(sheet.convergence()) * &exact.denominator;
            assert_eq!(in_units, factor, "rate {rate_20}, X {x}");
        }
    }
}

// The weights

#[test]
fn weights_at_14_86_percent() {
    assert_eq!(
        growth(148_600_000),
        Enclosure::new(1_160_208_810, 1_160_208_816)
    );
    let weights = weights(14_860_000);
    assert_eq!(weights[0], Enclosure::new(929_247_550, 929_247_585));
    assert_eq!(weights[1], Enclosure::new(800_931_295, 800_931_331));
    assert_eq!(weights[129], Enclosure::new(0, 8));
}

#[test]
fn weights_at_ten_percent_are_the_table() {
    for (pair, &weight) in weights(TEN_PERCENT).iter().zip(table()) {
        assert_eq!(*pair, Enclosure::new(weight, weight + 1));
    }
    assert_ne!(
        weights(TEN_PERCENT + 1)[0].width(),
        1,
        "only at exactly ten percent"
    );
}

#[test]
fn weights_enclose_the_true_ones() {
    for factor in (10_000_000..=20_000_000)
        .step_by(99_991)
        .chain([10_000_001])
    {
        let weights = weights(factor);
        for order in 0..=2 {
            let exact = true_weights(&Fraction::new(factor, CONVERGENCE_UNIT), order, BITS);
            assert_eq!(exact.len(), HORIZON);
            for (weight, exact) in weights.iter().zip(exact) {
                let billionths = exact.times(U);
                assert!(weight.low <= billionths.low_floor(), "a {factor}");
                assert!(billionths.high_floor() < weight.high, "a {factor}");
                assert!(weight.high <= U);
            }
        }
    }
}

// Curves

#[test]
fn november_2020() {
    let phased_in = curve(&november().with_x(20_000));
    assert_eq!(
        phased_in.factor(21),
        Enclosure::new(996_928_761, 996_928_786)
    );
    assert_eq!(
        phased_in.factor(60),
        Enclosure::new(884_663_358, 884_664_093)
    );
    assert_eq!(
        phased_in.factor(150),
        Enclosure::new(640_244_924, 640_246_623)
    );
    let plain = curve(&november());
    assert_eq!(plain.factor(150), Enclosure::new(647_775_926, 647_777_646));
}

#[test]
fn a_factor_of_ten_percent_is_the_curve_without_the_record() {
    assert_eq!(curve(&november().with_x(10_000)), curve(&november()));
    for rate_20 in [500, 501, 3_000] {
        let numbers = flat(rate_20);
        assert_eq!(curve(&numbers.clone().with_x(20_000)), curve(&numbers));
    }
    assert_ne!(curve(&flat(499).with_x(10_001)), curve(&flat(499)));
    // Only the factor follows X: years to 20 stay.
    let phased_in = curve(&november().with_x(20_000));
    for year in 1..=20 {
        assert_eq!(phased_in.factor(year), curve(&november()).factor(year));
    }
}

#[test]
fn grounds_8_and_10_are_tried_on_the_worked_weights() {
    // Year 150 is the widest: 640,244,924 to 640,246,623, and 647,775,926 to 647,777,646 without X.
    let limited = |limit| Numbers {
        limit,
        ..november()
    };
    let with_x = |limit| Curve::plain(&read(&limited(limit).with_x(20_000))).err();
    assert_eq!(with_x(1_699), None);
    assert_eq!(with_x(1_698), Some(Refusal::at(10, 150)));
    let refused = Curve::plain(&read(&limited(1_699))).unwrap_err();
    assert_eq!(refused.number, 10);
    // A 15-20 forward far below 0 loses its weight sooner, so 2 U is passed later or never.
    let mut falling = Numbers {
        volumes: [1, 0, 0, 0, 0],
        ..zero()
    };
    falling.rates[12..].copy_from_slice(&[-2_000, -1_000, -500, -300, -200]);
    assert_eq!(Curve::plain(&read(&falling)), Err(Refusal::at(8, 27)));
    let refused = Curve::plain(&read(&falling.with_x(20_000))).unwrap_err();
    assert!(refused.number == 8 && refused.place > 27, "{refused}");
}

#[test]
fn bands_of_random_sheets_hold_the_true_curve() {
    let mut random = Random::new(1_114);
    let (mut worked_weights, mut at_the_table) = (0, 0);
    while worked_weights < 40 {
        let sheet = sheet(&mut random, 0);
        let Some(curves) = worked(&sheet).filter(|_| sheet.phase_in.is_some()) else {
            continue;
        };
        for order in 0..=2 {
            for year in check(&sheet, Which::Plain, &curves.plain, order).unwrap() {
                assert!(year.holds(), "order {order}, {year:?}, {sheet:?}");
            }
        }
        if sheet.convergence() == TEN_PERCENT {
            at_the_table += 1;
        } else {
            worked_weights += 1;
        }
    }
    assert!(at_the_table > 0);
}

#[test]
fn a_curve_of_another_x_is_found_outside() {
    let sheet = read(&november().with_x(20_000));
    for other in [november(), november().with_x(19_900)] {
        let checks = check(&sheet, Which::Plain, &curve(&other), 0).unwrap();
        let (liquid, extrapolated) = checks.split_at(20);
        assert!(liquid.iter().all(|check| check.inside));
        assert!(extrapolated.iter().all(|check| !check.inside));
    }
}
