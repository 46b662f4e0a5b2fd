//! Zero without slack: nothing is added to the high of a logarithm at U and of a growth at 0, whose
//! values are known. The figures, what they make of sheets, that each band lies inside the earlier
//! one, the true curve, and programs that get the rule wrong, told apart by these figures.

mod common;
mod model;

use common::{flat, november, zero, Numbers, MATURITIES};
use model::{Model, Series, RULE};
use reference::adjusted::adjusted_sheet;
use reference::book::{Book, LARGEST_AGE_LIMIT, PAGE_LENGTH};
use reference::counts::{answered_posts, PostCounts};
use reference::curve::{Curve, Curves, Which};
use reference::dropped::dropped_sheet;
use reference::enclosure::{Enclosure, U};
use reference::extrapolation::log_ultimate;
use reference::known::{known_sheet, Otherwise};
use reference::questions::journal;
use reference::rates::ZeroRates;
use reference::refusal::Refusal;
use reference::series::{growth, neg_log, AtKnown};
use reference::sheet::Sheet;
use reference::streams::{sheet, sheet_bytes, steep_sheet, stream, worked, Random};
use reference::sums::{Sums, Wanted};
use reference::true_curve::{check, check_all};

const EXACT: Enclosure = Enclosure { low: U, high: U };

fn read(numbers: &Numbers) -> Sheet {
    Sheet::read(&numbers.bytes()).expect("a sheet")
}

fn now(numbers: &Numbers) -> Result<Curves, Refusal> {
    Curves::of(&read(numbers))
}

fn earlier(numbers: &Numbers) -> Result<Curves, Refusal> {
    Curves::with(&read(numbers), AtKnown::One)
}

fn within(limit: u32, numbers: Numbers) -> Numbers {
    Numbers { limit, ..numbers }
}

fn with_ufr(ufr: u16, numbers: Numbers) -> Numbers {
    Numbers { ufr, ..numbers }
}

/// Its forward of 15-20 is 0, those of later gaps are not.
fn zero_to_20() -> Numbers {
    let mut numbers = zero();
    numbers.rates[13..].copy_from_slice(&[100, 150, 170, 160]);
    numbers
}

/// A sheet with an ultimate forward rate of 0 whose adjusted curve comes as near to 2 U as it can
/// without passing it.
fn near_2_u() -> Numbers {
    let mut numbers = flat(-1_911);
    numbers.rates[13..].copy_from_slice(&[-1_750, -1_600, -1_400, -1_300]);
    Numbers {
        volumes: [1_000_000, 17, 1, 1, 1],
        ..numbers
    }
    .adjusted(-381)
}

fn years() -> std::ops::RangeInclusive<usize> {
    1..=150
}

fn is_exact(curve: &Curve) -> bool {
    years().all(|year| curve.factor(year) == EXACT)
}

fn band(curve: &Curve, year: usize) -> (i128, i128) {
    let factor = curve.factor(year);
    (factor.low, factor.high)
}

// The arguments

/// The logarithm in the paper's words, with what is added to the high.
fn log_in_words(x: i128, slack: i128) -> Enclosure {
    let sum = |round: fn(i128, i128) -> i128| {
        let z = round((U - x).abs() * U, U + x);
        let s = round(z * z, U);
        let p2 = round(z * s, U);
        let p3 = round(p2 * s, U);
        let p4 = round(p3 * s, U);
        let p5 = round(p4 * s, U);
        2 * (z + round(p2, 3) + round(p3, 5) + round(p4, 7) + round(p5, 9))
    };
    let (low, high) = (sum(i128::div_euclid), sum(up) + slack);
    match x > U {
        true => Enclosure::new(-high, -low),
        false => Enclosure::new(low, high),
    }
}

/// The growth in the paper's words, with what is added to the high.
fn growth_in_words(y: i128, slack: i128) -> Enclosure {
    let sum = |round: fn(i128, i128) -> i128| {
        let mut terms = vec![U];
        for i in 1..=7 {
            terms.push(round(terms[terms.len() - 1] * y, i * U));
        }
        terms.iter().sum::<i128>()
    };
    Enclosure::new(sum(i128::div_euclid), sum(up) + slack)
}

fn up(n: i128, d: i128) -> i128 {
    -(-n).div_euclid(d)
}

#[test]
fn a_known_value_has_no_slack() {
    assert_eq!(neg_log(U), Enclosure::new(0, 0));
    assert_eq!(growth(0), Enclosure::new(U, U));
    assert_eq!(log_ultimate(0), Enclosure::new(0, 0));
    // As it was.
    assert_eq!(AtKnown::One.neg_log(U), Enclosure::new(0, 1));
    assert_eq!(AtKnown::One.growth(0), Enclosure::new(U, U + 1));
}

#[test]
fn its_neighbours_keep_their_figures() {
    // At 1 from U z is 0 to 1, and every later term 0 to 1: 2 × (1 + 4) + 1.
    assert_eq!(neg_log(U - 1), Enclosure::new(0, 11));
    assert_eq!(neg_log(U + 1), Enclosure::new(-11, 0));
    // At U - 2 z is 1 to 2: 2 × (2 + 4) + 1. At U + 2 it is 0 to 1 once more.
    assert_eq!(neg_log(U - 2), Enclosure::new(2, 13));
    assert_eq!(neg_log(U + 2), Enclosure::new(-11, 0));
    // The terms after the first are 0 to 1, six of them, and 1 is added.
    assert_eq!(growth(1), Enclosure::new(U + 1, U + 8));
    assert_eq!(growth(2), Enclosure::new(U + 2, U + 9));
}

#[test]
fn other_arguments_keep_their_figures() {
    for (x, low, high) in [
        (800_000_000, 223_143_548, 223_143_559),
        (970_873_786, 29_558_800, 29_558_811),
        (999_990_000, 10_000, 10_011),
        (1_000_010_000, -10_009, -9_998),
        (1_030_000_000, -29_558_811, -29_558_800),
        (1_100_000_000, -95_310_187, -95_310_176),
    ] {
        assert_eq!(neg_log(x), Enclosure::new(low, high), "G at {x}");
    }
    for (y, low, high) in [
        (10_000, 1_000_010_000, 1_000_010_007),
        (5_000_000, 1_005_012_520, 1_005_012_526),
        (148_600_000, 1_160_208_810, 1_160_208_816),
        (200_000_000, 1_221_402_755, 1_221_402_761),
    ] {
        assert_eq!(growth(y), Enclosure::new(low, high), "E at {y}");
    }
}

#[test]
fn only_the_known_arguments_are_changed() {
    let near = (-3_000..=3_000).map(|more| U + more);
    let ultimate = (0..=10_000).map(|ufr| U + 10_000 * ufr);
    let any = (800_000_000..=1_100_000_000).step_by(99_991);
    for x in near.chain(ultimate).chain(any) {
        let slack = i128::from(x != U);
        assert_eq!(neg_log(x), log_in_words(x, slack), "G at {x}");
        assert_eq!(AtKnown::One.neg_log(x), log_in_words(x, 1), "G at {x}");
    }
    let small = 0..=3_000;
    let adjustments = (0..=500).map(|adjustment| 10_000 * adjustment);
    let any = (0..=250_000_000).step_by(99_991);
    for y in small.chain(adjustments).chain(any) {
        let slack = i128::from(y != 0);
        assert_eq!(growth(y), growth_in_words(y, slack), "E at {y}");
        assert_eq!(AtKnown::One.growth(y), growth_in_words(y, 1), "E at {y}");
    }
}

// The zero sheet

#[test]
fn the_zero_sheet_is_exact_and_passes_with_limit_1() {
    let curves = now(&within(1, zero())).unwrap();
    assert!(is_exact(&curves.plain));
    assert_eq!(curves.adjusted, None);
    assert_eq!(
        Sheet::read(&within(0, zero()).bytes()).err(),
        Some(Refusal::at(3, 25))
    );
    let mut book = Book::new(LARGEST_AGE_LIMIT);
    assert_eq!(book.post(&within(1, zero()).bytes()), Ok(0));
    let mut page = [7; PAGE_LENGTH];
    assert_eq!(book.page(Which::Plain, &mut page), Ok(()));
    for (year, record) in (1..).zip(page[5..].chunks_exact(10)) {
        let found = book.look_up(Which::Plain, year).unwrap();
        assert_eq!(found.amount, EXACT, "year {year}");
        assert_eq!(found.rates, ZeroRates { low: 0, high: 0 });
        let sum = book.look_up_wanted(Which::Plain, Wanted::Sum, year);
        assert_eq!(sum.unwrap().amount, EXACT.times(i128::from(year)));
        // U is hex 3B9ACA00.
        let bytes = [0x59, year as u8, 0x3B, 0x9A, 0xCA, 0, 0x3B, 0x9A, 0xCA, 0];
        assert_eq!(record, bytes);
    }
}

#[test]
fn every_form_of_the_zero_sheet_is_exact() {
    for pattern in 1..32_u32 {
        let mut numbers = within(1, zero());
        numbers.volumes = std::array::from_fn(|i| (pattern >> i & 1) * 1_000_000);
        for i in (1..5).filter(|&i| numbers.volumes[i] == 0) {
            // Not used, whatever it is.
            numbers.rates[12 + i] = [12_000, -2_000, 1, -1][i - 1];
        }
        for x in [None, Some(10_000), Some(10_001), Some(20_000)] {
            let numbers = Numbers {
                phase_in: x,
                ..numbers.clone()
            };
            assert!(is_exact(&now(&numbers).unwrap().plain));
            let both = now(&numbers.adjusted(0)).unwrap();
            assert!(is_exact(&both.plain));
            assert!(both.adjusted.is_some_and(|curve| is_exact(&curve)));
        }
    }
}

#[test]
fn rates_of_0_after_others_are_exact_again() {
    // By par a rate of 0 makes U whatever came before, and gaps from U to U stay there.
    for first in [3_000, -500, 1, 12_000] {
        let numbers = within(1, zero().with_rate(1, first)).adjusted(0);
        let both = now(&numbers).unwrap();
        for curve in [&both.plain, both.adjusted.as_ref().unwrap()] {
            assert_eq!(curve.factor(1).width(), 1);
            assert!((2..=150).all(|year| curve.factor(year) == EXACT));
        }
    }
}

#[test]
fn the_earlier_zero_sheet() {
    let both = earlier(&zero().adjusted(0)).unwrap();
    let adjusted = both.adjusted.unwrap();
    for year in 1..=20 {
        assert_eq!(both.plain.factor(year), EXACT);
        // Each step took 1 from the low.
        assert_eq!(band(&adjusted, year), (U - year as i128, U));
    }
    assert_eq!(band(&both.plain, 21), (999_999_992, 1_000_000_008));
    assert_eq!(band(&both.plain, 22), (999_999_984, 1_000_000_017));
    assert_eq!(band(&both.plain, 150), (999_998_960, 1_000_001_169));
    assert_eq!(band(&adjusted, 150), (999_998_940, 1_000_001_169));
}

// Other sheets

#[test]
fn an_ultimate_forward_rate_of_0() {
    // L was -1 to 0: its low made the highs.
    let (now, earlier) = (
        now(&flat(3_000)).unwrap().plain,
        earlier(&flat(3_000)).unwrap().plain,
    );
    assert_eq!(band(&earlier, 150), (411_986_547, 411_987_233));
    assert_eq!(band(&now, 150), (411_986_547, 411_987_183));
    assert!(years().all(|year| now.factor(year).low == earlier.factor(year).low));
    // The weight of L grows with the years, and less than 1 is rounded away at first.
    let narrower = years().find(|&year| now.factor(year) != earlier.factor(year));
    assert_eq!(narrower, Some(27));
}

#[test]
fn forwards_of_0() {
    // The high of LLFR was 1: it made the lows.
    let numbers = with_ufr(3_450, zero());
    let (now, earlier) = (
        now(&numbers).unwrap().plain,
        earlier(&numbers).unwrap().plain,
    );
    assert_eq!(band(&earlier, 21), (998_360_571, 998_360_582));
    assert_eq!(band(&now, 21), (998_360_572, 998_360_582));
    // In one gap alone, beside an ultimate forward rate of 0.
    let curve = self::now(&zero_to_20()).unwrap().plain;
    assert_eq!(band(&curve, 150), (968_995_301, 968_996_557));
    let curve = self::earlier(&zero_to_20()).unwrap().plain;
    assert_eq!(band(&curve, 150), (968_995_301, 968_996_677));
}

#[test]
fn an_adjustment_of_0() {
    // Nothing is met in the plain curve, which stays; each step took 1 from the adjusted low.
    let numbers = november().adjusted(0);
    let (now, earlier) = (now(&numbers).unwrap(), earlier(&numbers).unwrap());
    assert_eq!(now.plain, earlier.plain);
    let (was, is) = (earlier.adjusted.unwrap(), now.adjusted.unwrap());
    assert_eq!(band(&was, 20), (997_198_860, 997_198_881));
    assert_eq!(band(&is, 20), (997_198_880, 997_198_881));
    assert_eq!(band(&was, 150), (647_775_912, 647_777_646));
    assert_eq!(band(&is, 150), (647_775_926, 647_777_646));
    assert_eq!(is, now.plain);
}

#[test]
fn an_adjustment_of_0_is_the_plain_curve_on_any_sheet() {
    let mut random = Random::new(901);
    let mut compared = 0;
    for _ in 0..400 {
        let sheet = Sheet {
            adjustment: Some(0),
            ..known_sheet(&mut random, 0)
        };
        if let Some(both) = worked(&sheet) {
            assert_eq!(both.adjusted, Some(both.plain), "{sheet:?}");
            compared += 1;
        }
    }
    assert!(compared > 200, "{compared}");
}

#[test]
fn sheets_refused_earlier_are_accepted() {
    for (numbers, ground) in [
        (within(1, zero()), Refusal::at(10, 21)),
        (within(2_208, zero()), Refusal::at(10, 150)),
        (within(1, zero().with_x(20_000)), Refusal::at(10, 21)),
        (within(636, flat(3_000)), Refusal::at(10, 141)),
        (within(685, flat(3_000)), Refusal::at(10, 150)),
        // For the adjusted curve alone.
        (within(2_209, zero().adjusted(0)), Refusal::at(10, 149)),
        (within(690, flat(3_000).adjusted(0)), Refusal::at(10, 149)),
        (near_2_u(), Refusal::at(8, 149)),
    ] {
        assert_eq!(earlier(&numbers).err(), Some(ground));
        assert!(now(&numbers).is_ok());
        let posted = Book::new(LARGEST_AGE_LIMIT).post(&numbers.bytes());
        assert_eq!(posted, Ok(0));
    }
}

#[test]
fn the_limit_is_tried_as_ever() {
    assert_eq!(now(&within(635, flat(3_000))), Err(Refusal::at(10, 150)));
    assert!(now(&within(636, flat(3_000))).is_ok());
    assert!(earlier(&within(686, flat(3_000))).is_ok());
    // A sheet that meets no known value has the limit that it had.
    let numbers = |limit| within(limit, november());
    for curves in [now, earlier] {
        assert_eq!(curves(&numbers(1_719)), Err(Refusal::at(10, 150)));
        assert!(curves(&numbers(1_720)).is_ok());
    }
}

// Inside the earlier bands

/// How many of the bands of both curves are narrower; asserts that all are inside.
fn narrower_bands(now: &Curves, earlier: &Curves) -> usize {
    let mut narrower = 0;
    for which in Which::ALL {
        let (Some(now), Some(earlier)) = (now.get(which), earlier.get(which)) else {
            assert_eq!(now.get(which).is_some(), earlier.get(which).is_some());
            continue;
        };
        for year in years() {
            let (is, was) = (now.factor(year), earlier.factor(year));
            assert!(was.low <= is.low && is.high <= was.high, "year {year}");
            assert!(is == was || which == Which::Adjusted || year > 20);
            narrower += usize::from(is != was);
        }
    }
    narrower
}

/// Asserts that the rates of the narrower band lie inside those of the wider one.
fn assert_rates_inside(now: &Curve, earlier: &Curve, year: usize) {
    let rates = |curve: &Curve| ZeroRates::of(curve.factor(year), year);
    if let Some(was) = rates(earlier) {
        let is = rates(now).expect("rates that the wider band has");
        assert!(was.low <= is.low && is.high <= was.high, "year {year}");
    }
}

/// What both rules make of seeded sheets.
#[derive(Debug, Default)]
struct Compared {
    both_accepted: usize,
    narrower: usize,
    accepted_now_alone: usize,
    refused: usize,
}

impl Compared {
    fn compare(&mut self, random: &mut Random, sheet: &Sheet) {
        match (Curves::of(sheet), Curves::with(sheet, AtKnown::One)) {
            (Ok(now), Ok(earlier)) => {
                self.both_accepted += 1;
                self.narrower += usize::from(narrower_bands(&now, &earlier) > 0);
                let year = random.between(1, 150) as usize;
                assert_rates_inside(&now.plain, &earlier.plain, year);
            }
            (Ok(now), Err(ground)) => {
                assert!([8, 10].contains(&ground.number), "{sheet:?}");
                self.accepted_now_alone += 1;
                // The band that passed the limit still holds the narrower one.
                let unlimited = Sheet {
                    limit: 100_000,
                    ..sheet.clone()
                };
                if let Ok(earlier) = Curves::with(&unlimited, AtKnown::One) {
                    assert!(narrower_bands(&now, &earlier) > 0);
                }
            }
            (Err(now), Err(earlier)) => {
                // No logarithm comes before 7 and 9; of 8 and 10 another place may be the first.
                let early = |ground: Refusal| [7, 9].contains(&ground.number);
                assert!(now == earlier || !(early(now) || early(earlier)));
                self.refused += 1;
            }
            (Err(ground), Ok(_)) => panic!("{ground}, accepted earlier: {sheet:?}"),
        }
    }
}

#[test]
fn bands_of_sheets_that_meet_known_values_lie_inside_the_earlier_ones() {
    let mut random = Random::new(902);
    let mut compared = Compared::default();
    for _ in 0..3_000 {
        let sheet = known_sheet(&mut random, 0);
        compared.compare(&mut random, &sheet);
    }
    println!("{compared:?}");
    assert!(compared.narrower > 800, "{compared:?}");
    assert!(compared.accepted_now_alone > 300, "{compared:?}");
    assert!(compared.refused > 100, "{compared:?}");
}

#[test]
fn bands_of_any_sheets_lie_inside_the_earlier_ones() {
    let mut random = Random::new(903);
    let mut compared = Compared::default();
    for number in 0..2_000 {
        let sheet = match number % 4 {
            0 => steep_sheet(&mut random, 0),
            1 => dropped_sheet(&mut random, 0),
            2 => adjusted_sheet(&mut random, 0),
            _ => sheet(&mut random, 0),
        };
        if sheet.volumes != [0; 5] {
            compared.compare(&mut random, &sheet);
        }
    }
    println!("{compared:?}");
    assert!(compared.narrower > 100, "{compared:?}");
    // Most meet no known value, and have the same bands.
    assert!(
        compared.both_accepted > 2 * compared.narrower,
        "{compared:?}"
    );
}

// The true curve

/// Asserts that the bands, rates and sums of both curves hold the true ones.
fn assert_holds(sheet: &Sheet, order: usize) {
    let curves = worked(sheet).expect("an accepted sheet");
    for which in Which::ALL {
        let Some(curve) = curves.get(which) else {
            continue;
        };
        let checks = check_all(sheet, which, curve, &Sums::of(curve), order).unwrap();
        assert_eq!((checks.years.len(), checks.sums.len()), (150, 150));
        for year in checks.years {
            assert!(
                year.holds(),
                "order {order}, {which:?}, {year:?}, {sheet:?}"
            );
        }
        assert!(checks.sums.iter().all(|sum| sum.inside), "{sheet:?}");
    }
}

#[test]
fn the_true_zero_sheet_is_exact_too() {
    for numbers in [zero(), zero().with_x(20_000)] {
        let sheet = read(&within(1, numbers).adjusted(0));
        let curves = Curves::of(&sheet).unwrap();
        for (which, order) in [Which::Plain, Which::Adjusted]
            .into_iter()
            .flat_map(|which| (0..=3).map(move |order| (which, order)))
        {
            let checks = check(&sheet, which, curves.get(which).unwrap(), order);
            for year in checks.unwrap() {
                assert!(year.holds(), "order {order}, {year:?}");
                assert_eq!((year.slack_below, year.slack_above), (0, 0));
            }
        }
    }
}

#[test]
fn bands_that_meet_known_values_hold_the_true_curve() {
    for numbers in [
        flat(3_000).adjusted(0),
        flat(-500),
        with_ufr(3_450, zero()).adjusted(0),
        zero_to_20(),
        november().with_x(20_000).adjusted(0),
        near_2_u(),
    ] {
        for order in 0..=3 {
            assert_holds(&read(&numbers), order);
        }
    }
}

#[test]
fn bands_of_seeded_sheets_hold_the_true_curve() {
    let mut random = Random::new(904);
    let (mut done, mut counts) = (0, PostCounts::default());
    while done < 60 {
        let sheet = known_sheet(&mut random, 0);
        if worked(&sheet).is_some() {
            assert_holds(&sheet, done % 4);
            counts.count(&sheet_bytes(&sheet), 0);
            done += 1;
        }
    }
    println!("{}", counts.known);
    assert!(counts.known.all() > 40, "{}", counts.known);
}

#[test]
fn an_exact_band_elsewhere_is_found_outside() {
    // The same curve is no band of sheets that hardly differ.
    let exact = now(&zero()).unwrap().plain;
    for numbers in [with_ufr(1, zero()), zero().with_rate(25, 1)] {
        let checks = check(&read(&numbers), Which::Plain, &exact, 0).unwrap();
        let (liquid, extrapolated) = checks.split_at(20);
        assert!(liquid.iter().all(|check| check.inside));
        assert!(extrapolated.iter().all(|check| !check.inside));
    }
}

// Wrong programs

/// The maturities beyond 20 that have volume.
fn traded(sheet: &Sheet) -> Vec<u8> {
    let later = MATURITIES[13..].iter().zip(&sheet.volumes[1..]);
    later.filter(|(_, &v)| v > 0).map(|(&m, _)| m).collect()
}

/// Plain and adjusted curve with another logarithm and growth.
fn modelled(sheet: &Sheet, series: Series) -> Result<Vec<Model>, (u8, u16)> {
    let later = traded(sheet);
    match sheet.adjustment {
        None => Ok(vec![Model::with(sheet, &later, series)?]),
        Some(adjustment) => Ok(Model::both_with(sheet, &later, adjustment, series)?.to_vec()),
    }
}

/// 1 added at every argument.
const EARLIER: Series = Series {
    neg_log: |x| log_in_words(x, 1),
    growth: |y| growth_in_words(y, 1),
};

#[test]
fn both_rules_are_those_of_the_papers_words() {
    let words = Series {
        neg_log: |x| log_in_words(x, i128::from(x != U)),
        growth: |y| growth_in_words(y, i128::from(y != 0)),
    };
    let as_model = |curve: &Curve| {
        let (lows, highs) = years().map(|year| band(curve, year)).unzip();
        Model { lows, highs }
    };
    let mut random = Random::new(905);
    for _ in 0..600 {
        let sheet = known_sheet(&mut random, 0);
        for (at_known, series) in [(AtKnown::Nothing, words), (AtKnown::One, EARLIER)] {
            let found = Curves::with(&sheet, at_known)
                .map(|curves| {
                    let both = [Some(&curves.plain), curves.adjusted.as_ref()];
                    both.into_iter().flatten().map(as_model).collect::<Vec<_>>()
                })
                .map_err(|ground| (ground.number, ground.place));
            assert_eq!(found, modelled(&sheet, series), "{sheet:?}");
        }
    }
}

/// How many of the figures of the arguments are not those of the papers.
fn wrong_arguments(series: Series) -> usize {
    let (g, e) = (series.neg_log, series.growth);
    let figures = [
        (g(U), 0, 0),
        (g(U - 1), 0, 11),
        (g(U + 1), -11, 0),
        (e(0), U, U),
        (e(1), U + 1, U + 8),
    ];
    let wrong =
        |(found, low, high): &(Enclosure, i128, i128)| *found != Enclosure::new(*low, *high);
    figures.iter().filter(|figure| wrong(figure)).count()
}

/// How many of the figures of sheets are not those that are worked here by hand or by the papers.
fn wrong_sheets(series: Series) -> usize {
    let year = |numbers: Numbers, which: usize, year: usize| {
        let models = modelled(&read(&numbers), series);
        models.map(|models| (models[which].lows[year - 1], models[which].highs[year - 1]))
    };
    let figures = [
        (year(within(1, zero()), 0, 21), Ok((U, U))),
        (year(within(1, zero()), 0, 150), Ok((U, U))),
        (year(within(1, zero()).adjusted(0), 1, 20), Ok((U, U))),
        (year(with_ufr(1, zero()), 0, 21), Ok((U - 492, U - 482))),
        (
            year(zero().adjusted(-1), 1, 2),
            Ok((U + 20_000, U + 20_015)),
        ),
        (year(flat(3_000), 0, 150), Ok((411_986_547, 411_987_183))),
        (year(within(635, flat(3_000)), 0, 150), Err((10, 150))),
        (
            year(within(636, flat(3_000)), 0, 1),
            Ok((970_873_786, 970_873_787)),
        ),
    ];
    figures
        .iter()
        .filter(|(found, right)| found != right)
        .count()
}

#[test]
fn the_rule_has_the_figures() {
    assert_eq!((wrong_arguments(RULE), wrong_sheets(RULE)), (0, 0));
}

/// Programs that get the rule wrong on sheets as well.
fn wrong_programs() -> Vec<(&'static str, Series)> {
    let log = |neg_log| Series { neg_log, ..RULE };
    let growth = |growth| Series { growth, ..RULE };
    vec![
        ("slack kept at both", EARLIER),
        ("slack kept at U", log(EARLIER.neg_log)),
        ("slack kept at 0", growth(EARLIER.growth)),
        (
            "U + 1 taken as known",
            log(|x| log_in_words(x, i128::from(x != U + 1))),
        ),
        (
            "U - 1 taken as known",
            log(|x| log_in_words(x, i128::from(x != U - 1))),
        ),
        (
            "1 taken as known",
            growth(|y| growth_in_words(y, i128::from(y != 1))),
        ),
        (
            "2 added elsewhere in logarithms",
            log(|x| log_in_words(x, if x == U { 0 } else { 2 })),
        ),
        (
            "2 added elsewhere in growths",
            growth(|y| growth_in_words(y, if y == 0 { 0 } else { 2 })),
        ),
        ("nothing added in logarithms", log(|x| log_in_words(x, 0))),
        (
            "nothing added in growths",
            growth(|y| growth_in_words(y, 0)),
        ),
        (
            "1 taken off the low at U",
            log(|x| Enclosure::new(neg_log(x).low - i128::from(x == U), neg_log(x).high)),
        ),
    ]
}

#[test]
fn wrong_programs_are_told_apart() {
    for (name, series) in wrong_programs() {
        let wrong = (wrong_arguments(series), wrong_sheets(series));
        assert!(wrong.0 > 0 && wrong.1 > 0, "{name}: {wrong:?}");
    }
}

#[test]
fn a_neighbour_taken_as_known_too_is_told_apart() {
    let log = |neg_log| Series { neg_log, ..RULE };
    for series in [
        log(|x| log_in_words(x, i128::from(x != U && x != U + 1))),
        log(|x| log_in_words(x, i128::from(x != U && x != U - 1))),
        Series {
            growth: |y| growth_in_words(y, i128::from(y > 1)),
            ..RULE
        },
    ] {
        assert_eq!(wrong_arguments(series), 1);
    }
}

// Seeded sheets, streams and journals

#[test]
fn seeded_sheets_are_in_their_ranges_and_mostly_accepted() {
    let mut random = Random::new(906);
    let (mut accepted, mut counts) = (0, PostCounts::default());
    for _ in 0..1_000 {
        let sheet = known_sheet(&mut random, 7);
        assert_eq!(Sheet::read(&sheet_bytes(&sheet)), Ok(sheet.clone()));
        let is_accepted = worked(&sheet).is_some();
        accepted += usize::from(is_accepted);
        counts.count(&sheet_bytes(&sheet), u8::from(!is_accepted));
    }
    println!("{accepted} accepted; {}", counts.known);
    assert!(accepted > 600, "{accepted}");
    assert!(counts.known.all() > 400, "{}", counts.known);
    // Neither refused posts nor sheets that meet nothing known are counted.
    let before = counts.known.clone();
    counts.known.count(&zero().bytes(), false);
    counts.known.count(&november().bytes(), true);
    assert_eq!(counts.known, before);
}

/// Asserts that everything that slack would change was met at least so often.
fn assert_met(counts: &PostCounts, least: u64) {
    println!("{}", counts.known);
    assert_eq!(counts.known.check(), Ok(()));
    for otherwise in Otherwise::ALL {
        assert!(counts.known.of(otherwise) >= least, "{otherwise}");
    }
}

#[test]
fn seeded_streams_meet_known_values() {
    let mut counts = PostCounts::default();
    for (sheet, number) in (0..8).flat_map(|seed| answered_posts(&stream(seed, 1_000))) {
        counts.count(&sheet, number);
    }
    assert_met(&counts, 40);
}

#[test]
fn seeded_journals_meet_known_values() {
    let mut random = Random::new(907);
    let mut counts = PostCounts::default();
    for _ in 0..600 {
        counts.count_journal(&journal(&mut random));
    }
    assert_met(&counts, 5);
}

#[test]
fn what_was_not_met_is_told() {
    let none = PostCounts::default();
    assert!(none.known.check().is_err());
    let mut one = PostCounts::default();
    one.count(&within(1, zero()).bytes(), 0);
    assert_eq!(one.known.all(), 1);
    let met = |otherwise| one.known.of(otherwise) == 1;
    let exact = [
        Otherwise::PlainPast20,
        Otherwise::Refused,
        Otherwise::ExactAtTheLeastLimit,
    ];
    for otherwise in Otherwise::ALL {
        assert_eq!(met(otherwise), exact.contains(&otherwise), "{otherwise}");
    }
    assert!(one.known.check().is_err());
}
