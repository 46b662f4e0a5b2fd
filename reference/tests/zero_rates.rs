//! Zero rates beside the factors: the rule at its edges, ground 17, its turn among the others,
//! what it leaves alone, and the true curve's own rate.

mod common;

use common::{book_of, flat, november, read, steep, zero, Numbers};
use reference::bigint::BigInt;
use reference::book::{Book, LARGEST_AGE_LIMIT, PAGE_LENGTH};
use reference::curve::{Curve, Which};
use reference::desk::{make, run_desk, Call};
use reference::enclosure::{Enclosure, U};
use reference::journal::{self, answer_on, book_after, calls, look_up, post, turn};
use reference::questions::journal;
use reference::rates::{high_rate, low_rate, ZeroRates, HIGHEST_RATE, LOWEST_RATE};
use reference::refusal::Refusal;
use reference::sheet::Sheet;
use reference::streams::{sheet, steep_sheet, stream, worked, Random};
use reference::true_curve::check;

/// How a step of growth is rounded.
type Rounding = fn(&BigInt, &BigInt) -> BigInt;

/// Growth in the paper's words, of any size.
fn growth(rate: i32, years: usize, round: Rounding) -> BigInt {
    let (yearly, unit) = (100_000 + i128::from(rate), BigInt::from(100_000));
    let mut growth = BigInt::from(1_000_000_000);
    for _ in 0..years {
        growth = round(&(&growth * &BigInt::from(yearly)), &unit);
    }
    growth
}

fn years() -> std::ops::RangeInclusive<usize> {
    1..=150
}

fn par() -> BigInt {
    BigInt::from(1_000_000_000_000_000_000)
}

/// Whether high × growth, rounded up, is at most U × U.
fn fits(high: i128, rate: i32, year: usize) -> bool {
    &BigInt::from(high) * &growth(rate, year, BigInt::div_up) <= par()
}

/// Whether low × growth, rounded down, is at least U × U.
fn reaches(low: i128, rate: i32, year: usize) -> bool {
    &BigInt::from(low) * &growth(rate, year, BigInt::div_down) >= par()
}

/// Asserts that the rate fits and the next one, if there is one, does not.
fn assert_largest(high: i128, year: usize) {
    let rate = low_rate(high, year);
    assert!((-50_000..=100_000).contains(&rate));
    assert!(fits(high, rate, year), "high {high}, year {year}: {rate}");
    let next_fits = rate < 100_000 && fits(high, rate + 1, year);
    assert!(!next_fits, "high {high}, year {year}: {rate}");
}

/// Asserts that the rate reaches par and the one before, if there is one, does not; or that
/// even the highest does not.
fn assert_smallest(low: i128, year: usize) {
    let Some(rate) = high_rate(low, year) else {
        assert!(!reaches(low, 100_000, year), "low {low}, year {year}");
        return;
    };
    assert!((-50_000..=100_000).contains(&rate));
    assert!(reaches(low, rate, year), "low {low}, year {year}: {rate}");
    let one_before_reaches = rate > -50_000 && reaches(low, rate - 1, year);
    assert!(!one_before_reaches, "low {low}, year {year}: {rate}");
}

fn curve(numbers: &Numbers) -> Curve {
    Curve::plain(&Sheet::read(&numbers.bytes()).unwrap()).unwrap()
}

fn rates(numbers: &Numbers, year: usize) -> Option<(i32, i32)> {
    let factor = curve(numbers).factor(year);
    ZeroRates::of(factor, year).map(|rates| (rates.low, rates.high))
}

fn desk(input: &[u8]) -> String {
    let mut output = Vec::new();
    run_desk(input, &mut output).unwrap();
    String::from_utf8(output).unwrap()
}

// Worked by hand

#[test]
fn rates_of_the_figures() {
    // U to U: growth at 0 is U in every year, and U × U is at most and at least U × U.
    for year in 1..=150 {
        assert_eq!(rates(&zero(), year), Some((0, 0)));
    }
    // Bands around U, far narrower than a step of the rate over so many years.
    for year in [21, 22, 150] {
        let around = ZeroRates::of(Enclosure::new(U - 8, U + 8), year).unwrap();
        assert_eq!((around.low, around.high), (-1, 1));
    }
    // U - 492 to U - 482 in year 21, where a step of the rate is 210,000 of the factor.
    let rising = Numbers { ufr: 1, ..zero() };
    assert_eq!(rates(&rising, 21), Some((0, 1)));
    // 970,873,787 × 1.03 is 1,000,000,000.61 and 970,873,786 × 1.03 is 999,999,999.58.
    assert_eq!(rates(&flat(3_000), 1), Some((2_999, 3_001)));
    // 942,595,910 × 1.0609 is above U, 942,595,909 × 1.0609 below.
    assert_eq!(rates(&flat(3_000), 2), Some((2_999, 3_001)));
    // 1,005,025,126 × 0.995 is 1,000,000,000.37 and 1,005,025,125 × 0.995 is 999,999,999.375.
    let sheet = zero().with_rate(1, -500);
    assert_eq!(rates(&sheet, 1), Some((-501, -499)));
}

#[test]
fn a_factor_that_is_exactly_one_over_growth_has_one_rate() {
    // 1 / 1.024 is 0.9765625; 1 / 1.024^2 is no whole number of billionths.
    assert_eq!(rates(&flat(2_400), 1), Some((2_400, 2_400)));
    assert_eq!(rates(&flat(2_400), 2), Some((2_399, 2_401)));
    // 1 / 1.25^3 is 0.512, 1 / 0.8^2 is 1.5625.
    assert_eq!(low_rate(512_000_000, 3), 25_000);
    assert_eq!(high_rate(512_000_000, 3), Some(25_000));
    assert_eq!(low_rate(1_562_500_000, 2), -20_000);
    assert_eq!(high_rate(1_562_500_000, 2), Some(-20_000));
    // One billionth more or less is another rate on one side only.
    assert_eq!(low_rate(512_000_001, 3), 24_999);
    assert_eq!(high_rate(512_000_001, 3), Some(25_000));
    assert_eq!(low_rate(511_999_999, 3), 25_000);
    assert_eq!(high_rate(511_999_999, 3), Some(25_001));
}

#[test]
fn every_step_is_rounded_against_the_rate() {
    // Growth at 1 over 2 years is 1,000,020,000.1: 1,000,020,001 up, 1,000,020,000 down.
    // (U - 20,000) × (U + 20,001) is above U × U, though times 1,000,020,000.1 it is below.
    assert_eq!(low_rate(999_980_000, 2), 0);
    // (U - 20,001) × (U + 20,001) is below.
    assert_eq!(low_rate(999_979_999, 2), 1);
    // (U - 20,000) × (U + 20,000) is below U × U, (U - 19,999) × (U + 20,000) above.
    assert_eq!(high_rate(999_980_000, 2), Some(2));
    assert_eq!(high_rate(999_980_001, 2), Some(1));
    // The steps, not the last alone: growth at -1 over 3 years is 999,990,000, then
    // 999,980,000.1, then from 999,980,001 up 999,970,001.2, from 999,980,000 down
    // 999,970,000.2. U × U / 999,970,002 is 1,000,029,998.89..
    assert_eq!(low_rate(1_000_029_998, 3), -1);
    assert_eq!(low_rate(1_000_029_999, 3), -2);
    // and U × U / 999,970,000 is 1,000,030,000.90..
    assert_eq!(high_rate(1_000_030_001, 3), Some(-1));
    assert_eq!(high_rate(1_000_030_000, 3), Some(0));
}

// The ends of the range

#[test]
fn the_lowest_rate() {
    assert_eq!((LOWEST_RATE, HIGHEST_RATE), (-50_000, 100_000));
    // Half of U times 2 U is U × U.
    assert_eq!(low_rate(2 * U, 1), -50_000);
    assert_eq!(high_rate(2 * U, 1), Some(-50_000));
    // 500,010,000 × 1,999,960,000 is below U × U, times 1,999,960,001 it is above.
    assert_eq!(low_rate(1_999_960_001, 1), -50_000);
    assert_eq!(low_rate(1_999_960_000, 1), -49_999);
    assert_eq!(high_rate(1_999_960_000, 1), Some(-49_998));
    assert_eq!(high_rate(1_999_960_001, 1), Some(-49_999));
    assert_eq!(high_rate(2 * U - 1, 1), Some(-49_999));
    // Every high that ground 8 lets pass has a low rate, in every year.
    for year in years() {
        assert_largest(2 * U, year);
        assert_smallest(2 * U, year);
    }
}

#[test]
fn the_highest_rate() {
    // Growth at 100,000 is 2^year × U without a rounding.
    for year in 1..=29 {
        let growth: i128 = 1 << year;
        let least = (U + growth - 1) / growth;
        let rate = high_rate(least, year).expect("a high rate");
        assert!(rate <= 100_000 && reaches(least, rate, year));
        assert_eq!(high_rate(least - 1, year), None, "year {year}");
        assert!(low_rate(least, year) <= rate);
        // A high below is at its largest rate at the end of the range.
        assert_eq!(low_rate(least - 1, year), 100_000);
        assert_smallest(least, year);
        assert_smallest(least - 1, year);
        assert_largest(least, year);
        assert_largest(least - 1, year);
    }
    // U is 2^9 × 5^9: up to year 9 the end itself can be reached exactly.
    for year in 1..=9 {
        let least = U >> year;
        assert_eq!(low_rate(least, year), 100_000);
        assert_eq!(high_rate(least, year), Some(100_000));
        assert_eq!(low_rate(least + 1, year), 99_999);
    }
    // 953 × 2^20 = 999,292,928 and 954 × 2^20 = 1,000,341,504; 2^29 = 536,870,912.
    assert_eq!((high_rate(953, 20), low_rate(953, 20)), (None, 100_000));
    assert_eq!(high_rate(954, 20), Some(99_997));
    assert_eq!((high_rate(1, 29), low_rate(1, 29)), (None, 100_000));
    // 2 × 1.99510^29 is just above 10^9, 2 × 1.99509^29 below.
    assert_eq!(high_rate(2, 29), Some(99_510));
}

#[test]
fn from_year_30_only_a_low_of_0_has_no_high_rate() {
    for year in 30..=150 {
        let rate = high_rate(1, year).expect("2^30 is above U");
        assert!((14_000..100_000).contains(&rate));
        assert_smallest(1, year);
        assert_largest(1, year);
        assert_eq!(high_rate(0, year), None);
    }
    // The 150th root of 10^9 is 1.148153..
    assert_eq!(
        (low_rate(1, 150), high_rate(1, 150)),
        (14_815, Some(14_816))
    );
}

#[test]
fn a_low_of_0_has_no_high_rate_whatever_the_high() {
    for year in years() {
        assert_eq!(high_rate(0, year), None);
        for high in [1, 2, 1_000, U, 2 * U] {
            assert_eq!(ZeroRates::of(Enclosure::new(0, high), year), None);
        }
    }
}

// Largest and smallest

#[test]
fn rates_by_their_neighbours_in_every_year() {
    let mut random = Random::new(3);
    for year in years() {
        let any = random.between(1, 2_000_000_000);
        let small = 1 << random.below(31);
        for factor in [
            any,
            small,
            small + random.between(-1, 1),
            999_999_999,
            1_000_000_001,
        ] {
            let factor = i128::from(factor);
            assert_largest(factor.max(1), year);
            assert_smallest(factor, year);
        }
    }
}

#[test]
fn rates_of_curves_by_their_neighbours() {
    let sheets = [
        zero(),
        flat(3_000),
        flat(-150),
        november(),
        steep(0),
        steep(10_000),
    ];
    for numbers in sheets {
        let curve = curve(&numbers);
        for year in years() {
            let factor = curve.factor(year);
            assert_largest(factor.high, year);
            assert_smallest(factor.low, year);
        }
    }
}

#[test]
fn the_largest_high_of_a_rate_and_the_smallest_low() {
    // For a growth g the highs at which the rate still fits end at U × U / g, and the lows at
    // which it reaches par begin there.
    for year in [1, 2, 3, 10, 20, 21, 60, 149, 150] {
        for rate in [-450, -1, 0, 1, 2, 777, 3_000, 9_999, 14_000] {
            let most = par().div_down(&growth(rate, year, BigInt::div_up));
            let most = most.to_i128().unwrap();
            if most <= 2 * U {
                assert!(low_rate(most, year) >= rate);
                assert!(low_rate(most + 1, year) < rate);
            }
            let least = par().div_up(&growth(rate, year, BigInt::div_down));
            let least = least.to_i128().unwrap();
            assert!(high_rate(least, year).is_some_and(|found| found <= rate));
            assert!(high_rate(least - 1, year).is_none_or(|found| found > rate));
        }
    }
}

#[test]
fn larger_factors_have_smaller_rates() {
    let mut random = Random::new(5);
    for year in years() {
        let mut factors = [(); 12].map(|()| {
            let most = 1 << random.between(1, 30);
            i128::from(random.between(1, most))
        });
        factors.sort_unstable();
        for pair in factors.windows(2) {
            assert!(low_rate(pair[0], year) >= low_rate(pair[1], year));
            let (smaller, larger) = (high_rate(pair[0], year), high_rate(pair[1], year));
            assert!(smaller.is_none() || smaller >= larger);
            if let Some(rates) = ZeroRates::of(Enclosure::new(pair[0], pair[1]), year) {
                assert!(rates.low <= rates.high);
            }
        }
    }
}

/// (100,000 + rate)^t and 100,000^t: growth without rounding is U times the first over the
/// second.
fn exact_growth(rate: i32, year: usize) -> (BigInt, BigInt) {
    let yearly = BigInt::from(100_000 + i128::from(rate));
    (yearly.pow(year), BigInt::from(100_000).pow(year))
}

#[test]
fn rates_agree_with_growth_without_rounding() {
    for numbers in [flat(3_000), november(), flat(-150), flat(11_000)] {
        let curve = curve(&numbers);
        for year in years() {
            let factor = curve.factor(year);
            let rates = ZeroRates::of(factor, year).expect("an ordinary curve");
            let worth = |factor: i128, rate| {
                let (growth, unit) = exact_growth(rate, year);
                (&BigInt::from(factor) * &growth).cmp(&(&BigInt::from(U) * &unit))
            };
            // Rounding never hides a rate of the factor: it only takes the ends outward, and
            // on such curves by less than one.
            assert!(worth(factor.high, rates.low).is_le());
            assert!(worth(factor.high, rates.low + 2).is_gt());
            assert!(worth(factor.low, rates.high).is_ge());
            assert!(worth(factor.low, rates.high - 2).is_lt());
        }
    }
}

#[test]
fn a_flat_curve_has_its_rate_in_every_quoted_year() {
    for rate in [-150, -1, 0, 1, 500, 2_399, 3_000, 7_777, 12_000] {
        for year in 1..=20 {
            let (low, high) = rates(&flat(rate), year).unwrap();
            let rate = i32::from(rate);
            assert!((rate - 1..=rate).contains(&low), "rate {rate}, year {year}");
            assert!(
                (rate..=rate + 1).contains(&high),
                "rate {rate}, year {year}"
            );
        }
    }
}

// Look-ups

#[test]
fn a_look_up_gives_factor_rates_and_dating() {
    for numbers in [zero(), flat(3_000), november().with_x(20_000)] {
        let curve = curve(&numbers);
        let mut book = book_of(LARGEST_AGE_LIMIT, &numbers);
        assert_eq!(book.turn(7), Ok(7));
        for year in years() {
            let found = book.look_up(Which::Plain, year as u32).unwrap();
            assert_eq!(found.amount, curve.factor(year));
            assert_eq!(Some(found.rates), ZeroRates::of(curve.factor(year), year));
            assert_eq!((found.month, found.age), (0, 7));
        }
    }
}

#[test]
fn the_years_that_have_no_high_rate() {
    let lacking = |numbers: &Numbers| {
        let book = book_of(0, numbers);
        years()
            .filter(|&year| book.look_up(Which::Plain, year as u32) == Err(Refusal::plain(17)))
            .collect::<Vec<_>>()
    };
    // U / 111,111 in year 10, then about 0.9 of the year before, against halves.
    assert_eq!(lacking(&steep(0)), (10..=17).collect::<Vec<_>>());
    // The same, and all years from the first low of 0 on.
    let curve = curve(&steep(10_000));
    let first = years().find(|&year| curve.factor(year).low == 0).unwrap();
    assert!(first > 30);
    let expected: Vec<_> = (10..=17).chain(first..=150).collect();
    assert_eq!(lacking(&steep(10_000)), expected);
    assert_eq!(curve.factor(first - 1).low, 1, "a low of 1 has a rate");
    assert_eq!(lacking(&zero()), []);
}

#[test]
fn a_low_at_the_last_rate_and_one_below() {
    // Year 10 has the low 976,562 of the one and 976,563 of the other; U / 2^10 is 976,562.5.
    let tail = |rate_8, rate_9, rate_10| {
        let mut numbers = zero().with_rate(8, rate_8).with_rate(9, rate_9);
        numbers.rates[9..].fill(rate_10);
        numbers
    };
    let (without, with) = (tail(-13, 1_498, 11_264), tail(2, 1_088, 11_220));
    assert_eq!(curve(&without).factor(10), Enclosure::new(976_562, 976_563));
    assert_eq!(rates(&without, 10), None);
    assert_eq!(curve(&with).factor(10), Enclosure::new(976_563, 976_565));
    assert_eq!(rates(&with, 10), Some((99_999, 100_000)));
}

#[test]
fn year_1_always_has_rates() {
    for rate in -2_000..=12_000 {
        let factor = Enclosure::new(
            100_000 * U / (100_000 + i128::from(rate)),
            (100_000 * U + 99_999 + i128::from(rate)) / (100_000 + i128::from(rate)),
        );
        let rates = ZeroRates::of(factor, 1).expect("a low of 0.89 or more");
        assert!((rate - 1..=rate).contains(&rates.low));
        assert!((rate..=rate + 1).contains(&rates.high));
    }
}

#[test]
fn the_desks_line_stays() {
    let input = [
        post(&steep(0).bytes()),
        look_up(9),
        look_up(10),
        turn(5),
        look_up(10),
        look_up(18),
        look_up(151),
    ]
    .concat();
    assert_eq!(
        desk(&input),
        "P 0\nL 9 1000000000 1000000000 0 0\nR 17 0\nM 5\nR 17 0\nL 18 3870 3880 0 5\nR 13 0\n"
    );
}

// The order of grounds

#[test]
fn look_ups_try_13_14_16_and_17() {
    let refused = |book: &Book, year| {
        book.look_up(Which::Plain, year)
            .map_err(|refusal| refusal.code())
    };
    let fresh = Book::new(0);
    assert_eq!(
        (refused(&fresh, 0), refused(&fresh, 10)),
        (Err(13), Err(14))
    );
    let mut book = book_of(3, &steep(10_000));
    for age in 0..=3 {
        assert_eq!(book.turn(age), Ok(age as u16));
        assert_eq!(
            (refused(&book, 10), refused(&book, 150)),
            (Err(17), Err(17))
        );
        assert_eq!((refused(&book, 0), refused(&book, 151)), (Err(13), Err(13)));
        assert!(book.look_up(Which::Plain, 9).is_ok());
    }
    assert_eq!(book.turn(4), Ok(4));
    for year in 1..=150 {
        assert_eq!(refused(&book, year), Err(16));
    }
    assert_eq!(
        (refused(&book, 0), refused(&book, u32::MAX)),
        (Err(13), Err(13))
    );
}

#[test]
fn a_refused_look_up_leaves_the_book() {
    let mut book = book_of(3, &steep(0));
    let before = book.clone();
    assert_eq!(make(&mut book, &Call::LookUp(10)), Err(Refusal::plain(17)));
    assert_eq!(book, before);
    // A sheet with rates in every year shows them again.
    assert_eq!(book.post(&flat(3_000).bytes()), Ok(0));
    assert!(book.look_up(Which::Plain, 10).is_ok());
}

// What 17 leaves alone

#[test]
fn a_page_still_has_the_pair() {
    for numbers in [steep(0), steep(10_000)] {
        let curve = curve(&numbers);
        let mut book = book_of(1, &numbers);
        let mut page = [7; 2_000];
        assert_eq!(book.page(Which::Plain, &mut page), Ok(()));
        for year in years() {
            let record = &page[5 + 10 * (year - 1)..][..10];
            let pair = |at: usize| u32::from_be_bytes(record[at..at + 4].try_into().unwrap());
            assert_eq!(record[..2], [0x59, year as u8]);
            let factor = Enclosure::new(i128::from(pair(2)), i128::from(pair(6)));
            assert_eq!(factor, curve.factor(year));
            assert!(factor.width() <= i128::from(numbers.limit));
        }
        assert_eq!(page[PAGE_LENGTH..], [7; 2_000 - PAGE_LENGTH]);
        assert_eq!(
            book.page(Which::Plain, &mut page[..1_504]),
            Err(Refusal::plain(15))
        );
        assert_eq!(book.turn(2), Ok(2));
        assert_eq!(
            book.page(Which::Plain, &mut page[..1_504]),
            Err(Refusal::plain(16))
        );
    }
}

#[test]
fn a_post_is_not_turned_down_for_its_rates() {
    // Its limit is tried as ever: the widest band of this curve is 200.
    let limited = |limit| Numbers { limit, ..steep(0) };
    let widest = years()
        .map(|year| curve(&steep(0)).factor(year).width())
        .max();
    let widest = u32::try_from(widest.unwrap()).unwrap();
    assert_eq!(widest, 200);
    let mut book = Book::new(0);
    assert_eq!(book.post(&limited(widest).bytes()), Ok(0));
    let refused = book.post(&limited(widest - 1).bytes()).unwrap_err();
    assert_eq!(refused.number, 10);
}

// The true curve

/// Asserts that bands and rates hold the true curve; the years that have rates.
fn assert_holds(sheet: &Sheet, orders: std::ops::RangeInclusive<usize>) -> usize {
    let curve = worked(sheet).expect("an accepted sheet").plain;
    let with_rates = |year: &usize| ZeroRates::of(curve.factor(*year), *year).is_some();
    let with_rates: Vec<_> = years().filter(with_rates).collect();
    for order in orders {
        let checks = check(sheet, Which::Plain, &curve, order).unwrap();
        assert!(checks.iter().all(|check| check.holds()), "{sheet:?}");
        let checked = checks.iter().filter(|check| check.rates.is_some());
        assert!(checked.map(|check| check.year).eq(with_rates.clone()));
    }
    with_rates.len()
}

#[test]
fn the_true_rate_lies_between_the_rates() {
    for numbers in [zero(), flat(2_400), flat(3_000), november().with_x(20_000)] {
        assert_eq!(assert_holds(&read(&numbers), 0..=3), 150);
    }
    assert_eq!(assert_holds(&read(&steep(0)), 0..=3), 142);
    assert!(assert_holds(&read(&steep(10_000)), 0..=3) < 142);
}

#[test]
fn the_true_rate_of_seeded_sheets_lies_between_the_rates() {
    let mut random = Random::new(1_703);
    let (mut with, mut without, mut curves) = (0, 0, 0);
    while curves < 30 {
        let sheet = match curves % 3 {
            0 => steep_sheet(&mut random, 0),
            _ => sheet(&mut random, 0),
        };
        if worked(&sheet).is_some() {
            let with_rates = assert_holds(&sheet, 0..=1);
            with += with_rates;
            without += 150 - with_rates;
            curves += 1;
        }
    }
    assert!(
        with > 1_000 && without > 20,
        "{with} with, {without} without"
    );
}

#[test]
fn a_curve_of_other_rates_is_found_outside() {
    let sheet = read(&flat(3_000));
    for other in [flat(2_990), flat(3_010)] {
        let checks = check(&sheet, Which::Plain, &curve(&other), 0).unwrap();
        assert!(checks.iter().all(|check| !check.holds()));
        assert!(!checks
            .iter()
            .filter_map(|check| check.rates)
            .any(|rates| rates.between));
    }
}

// Seeded streams and journals

fn count(lines: &str, start: &str) -> usize {
    lines.lines().filter(|line| line.starts_with(start)).count()
}

#[test]
fn seeded_streams_meet_17_and_every_other_ground_of_a_desk() {
    let lines: String = (1..=12).map(|seed| desk(&stream(seed, 1_000))).collect();
    let met = |number: usize| count(&lines, &format!("R {number} "));
    for number in 1..=14 {
        assert!(met(number) > 0, "ground {number}");
    }
    assert!(met(17) > 30, "{}", met(17));
    // Now and then: far more look-ups are answered.
    assert!(30 * met(17) < count(&lines, "L "), "{}", met(17));
    assert_eq!(count(&lines, "R 17 "), count(&lines, "R 17 0"));
}

#[test]
fn seeded_journals_meet_17() {
    let mut random = Random::new(18);
    let (mut books, mut met) = (0, 0);
    for _ in 0..400 {
        let book = book_after(LARGEST_AGE_LIMIT, &journal(&mut random));
        let answers = (1..=150).map(|year| answer_on(&book, &look_up(year)));
        let lacking = answers.filter(|&answer| answer == 17).count();
        books += usize::from(lacking > 0);
        met += lacking;
    }
    assert!(books > 5 && met > 50, "{books} books, {met} look-ups");
}

#[test]
fn most_steep_sheets_are_accepted_and_many_lack_rates() {
    let mut random = Random::new(19);
    let (mut accepted, mut lacking) = (0, 0);
    for _ in 0..300 {
        let sheet = steep_sheet(&mut random, 0);
        let Some(curves) = worked(&sheet) else {
            continue;
        };
        accepted += 1;
        let lacks = |&year: &usize| ZeroRates::of(curves.plain.factor(year), year).is_none();
        lacking += usize::from(years().any(|year| lacks(&year)));
    }
    assert!(accepted > 200 && lacking > 100, "{accepted}, {lacking}");
}

#[test]
fn the_hand_written_journal_is_read_whole() {
    let records = reference::every_ground::records();
    let of_17 = records.iter().filter(|(_, number, _)| *number == 17);
    assert!(of_17.clone().count() >= 8);
    assert!(of_17.clone().all(|(_, _, place)| *place == 0));
    for (record, _, _) in of_17 {
        let call = calls(record).next();
        assert!(matches!(call, Some(journal::Call::OfDesk(Call::LookUp(_)))));
    }
}
