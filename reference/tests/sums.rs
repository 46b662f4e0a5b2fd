//! Annuity sums held ready: equal to the sums of lows and of highs on each curve after posts and
//! withdrawals, under the factor's checks and with the factor's rates and dating, and around the
//! true curve's sums; by hand, year by year and on seeded journals.

mod common;

use common::{book_of, flat, level, november, read, steep, zero, Numbers};
use reference::accepted::Count;
use reference::bigint::BigInt;
use reference::book::{Book, Found, LARGEST_AGE_LIMIT, PAGE_LENGTH};
use reference::curve::{Curve, Curves, Which};
use reference::desk::run_desk;
use reference::enclosure::{Enclosure, U};
use reference::journal::{
    answer_on, book_after, calls, look_up, look_up_by, post, turn, withdrawal, NO_RECORD,
};
use reference::questions::{self, journal, limits_around};
use reference::rates::ZeroRates;
use reference::refusal::Refusal;
use reference::sheet::Sheet;
use reference::streams::Random;
use reference::sums::{kind_of, Sums, Wanted};
use reference::true_curve::check_all;

/// Sheets of every sort that is accepted.
fn sheets() -> Vec<Numbers> {
    vec![
        zero(),
        zero().adjusted(0),
        level(),
        level().adjusted(100),
        flat(-500).adjusted(-500),
        november().with_x(20_000).adjusted(-37),
        steep(0).adjusted(500),
        steep(10_000).adjusted(-1),
        Numbers {
            volumes: [3, 0, 7, 0, 0],
            ..level()
        },
    ]
}

fn curves(numbers: &Numbers) -> Curves {
    Curves::of(&read(numbers)).unwrap()
}

fn sum(book: &Book, which: Which, year: u32) -> Result<Found, Refusal> {
    book.look_up_wanted(which, Wanted::Sum, year)
}

/// Low and high of a sum that is found.
fn ends(book: &Book, which: Which, year: u32) -> (i128, i128) {
    let amount = sum(book, which, year).expect("a sum is found").amount;
    (amount.low, amount.high)
}

/// The factors of years 1 to `year` added up once more, lows and highs apart.
fn added(curve: &Curve, year: usize) -> Enclosure {
    let factors = || (1..=year).map(|year| curve.factor(year));
    let low = factors().map(|factor| factor.low).sum();
    let high = factors().map(|factor| factor.high).sum();
    Enclosure::new(low, high)
}

/// Asserts that the book's sums are those of these curves in every year, and that nothing else
/// tells a sum from a factor: the ground, or rates, month and age.
fn assert_sums(book: &Book, curves: Option<&Curves>) {
    for which in Which::ALL {
        let curve = curves.and_then(|curves| curves.get(which));
        for year in 1..=150 {
            let looked = book.look_up(which, year as u32);
            let expected = looked.map(|found| Found {
                amount: added(curve.expect("a curve is shown"), year),
                ..found
            });
            assert_eq!(sum(book, which, year as u32), expected, "year {year}");
        }
        assert_eq!(book.holds(which), curve.is_some());
    }
}

// Worked by hand

#[test]
fn sums_of_the_flat_sheet() {
    let book = book_of(0, &level());
    for (year, low, high) in [
        (1, 970_873_786, 970_873_787),
        // 942,595,909 to 942,595,910 more.
        (2, 1_913_469_695, 1_913_469_697),
        (10, 8_530_202_832, 8_530_202_843),
        (20, 14_877_474_821, 14_877_474_897),
        (21, 15_415_024_087, 15_415_024_179),
        (60, 27_675_560_170, 27_675_565_273),
        (150, 32_937_687_927, 32_937_702_762),
    ] {
        assert_eq!(ends(&book, Which::Plain, year), (low, high), "year {year}");
    }
    let rates = sum(&book, Which::Plain, 20).unwrap().rates;
    assert_eq!((rates.low, rates.high), (2_999, 3_001));
}

#[test]
fn an_annuity_at_three_percent_lies_between_the_ends() {
    // U × (1 - 1.03^-t) / 0.03 is U × 100 × (103^t - 100^t) / (3 × 103^t).
    let book = book_of(0, &level());
    for year in 1..=150 {
        let power = |base: i128| BigInt::from(base).pow(year);
        let annuity = &BigInt::from(100 * U) * &(&power(103) - &power(100));
        let (low, high) = ends(&book, Which::Plain, year as u32);
        let over = |bound: i128| &BigInt::from(3 * bound) * &power(103);
        assert!(over(low) <= annuity && annuity <= over(high), "year {year}");
    }
}

#[test]
fn sums_of_the_zero_sheet() {
    // Every year is U to U on both curves: G(U) is 0 to 0, and E(0) is U to U.
    let book = book_of(0, &zero().adjusted(0));
    for year in 1..=150 {
        let whole = i128::from(year) * U;
        for which in Which::ALL {
            assert_eq!(ends(&book, which, year), (whole, whole));
        }
    }
    // With an ultimate forward rate of 1 year 21 is U - 492 to U - 482.
    let rising = Numbers { ufr: 1, ..zero() };
    let book = book_of(0, &rising);
    assert_eq!(ends(&book, Which::Plain, 20), (20 * U, 20 * U));
    assert_eq!(ends(&book, Which::Plain, 21), (21 * U - 492, 21 * U - 482));
}

#[test]
fn sums_of_an_adjusted_curve() {
    let book = book_of(0, &level().adjusted(100));
    // Year 1 is 969,903,391 to 969,903,399, year 2 is 940,712,589 to 940,712,604.
    let first = ends(&book, Which::Adjusted, 1);
    assert_eq!(first, (969_903_391, 969_903_399));
    let both = ends(&book, Which::Adjusted, 2);
    assert_eq!(both, (1_910_615_980, 1_910_616_003));
    let all = ends(&book, Which::Adjusted, 150);
    assert_eq!(all, (32_411_770_804, 32_411_789_723));
    // The plain ones are as without the adjustment.
    let plain = book_of(0, &level());
    for year in 1..=150 {
        let (one, other) = (
            sum(&book, Which::Plain, year),
            sum(&plain, Which::Plain, year),
        );
        assert_eq!(one, other);
    }
}

#[test]
fn a_sum_passes_32_bits_within_five_years() {
    let book = book_of(0, &flat(-500).adjusted(-500));
    for which in Which::ALL {
        let bits = |year| 128 - ends(&book, which, year).0.leading_zeros();
        assert_eq!((bits(4), bits(5)), (32, 33));
        assert_eq!(bits(150), 38);
    }
}

// Equal to the sums, on each curve

#[test]
fn every_year_of_every_sheet_by_adding() {
    for numbers in sheets() {
        let (book, curves) = (book_of(0, &numbers), curves(&numbers));
        assert_sums(&book, Some(&curves));
        for which in Which::ALL {
            let Some(curve) = curves.get(which) else {
                continue;
            };
            let sums = Sums::of(curve);
            assert!((1..=150).all(|year| sums.to(year) == added(curve, year)));
        }
    }
}

#[test]
fn sums_are_those_of_the_page() {
    for numbers in sheets() {
        let book = book_of(0, &numbers);
        for which in Which::ALL {
            let mut page = [7; PAGE_LENGTH];
            if book.page(which, &mut page).is_err() {
                continue;
            }
            let (mut low, mut high) = (0, 0);
            for (year, record) in (1..).zip(page[5..].chunks_exact(10)) {
                let number = |at: usize| u32::from_be_bytes(record[at..at + 4].try_into().unwrap());
                low += i128::from(number(2));
                high += i128::from(number(6));
                match sum(&book, which, year) {
                    Ok(found) => assert_eq!(found.amount, Enclosure::new(low, high)),
                    Err(refusal) => assert_eq!(refusal, Refusal::plain(17)),
                }
            }
        }
    }
}

#[test]
fn both_curves_have_sums_of_their_own() {
    for (numbers, the_same) in [
        (level().adjusted(100), false),
        (zero().adjusted(1), false),
        // At 0 both curves are the same, and each has sums.
        (level().adjusted(0), true),
    ] {
        let book = book_of(0, &numbers);
        for year in 1..=150 {
            let ends = Which::ALL.map(|which| ends(&book, which, year));
            assert_eq!(ends[0] == ends[1], the_same, "year {year}");
        }
    }
}

// Kept by posts and withdrawals

#[test]
fn each_accepted_post_sets_them() {
    let mut book = Book::new(0);
    assert_sums(&book, None);
    for numbers in sheets().iter().chain(sheets().iter().rev()) {
        assert_eq!(book.post(&numbers.bytes()), Ok(0));
        assert_sums(&book, Some(&curves(numbers)));
    }
}

#[test]
fn a_refused_post_leaves_them() {
    let numbers = level().adjusted(100);
    let mut book = book_of(0, &numbers);
    let narrow = Numbers {
        limit: 636,
        ..flat(3_000)
    };
    // Of the first the plain curve would be accepted.
    for (refused, number) in [
        (narrow.clone().adjusted(100), 10),
        (Numbers { limit: 1, ..narrow }, 10),
        (Numbers { month: 1, ..zero() }, 5),
        (flat(-2_000), 8),
    ] {
        let ground = book.post(&refused.bytes()).unwrap_err().number;
        assert_eq!(ground, number);
        assert_sums(&book, Some(&curves(&numbers)));
    }
}

#[test]
fn a_withdrawal_brings_them_back() {
    let sheets = sheets();
    let mut book = Book::new(0);
    for numbers in &sheets {
        assert_eq!(book.post(&numbers.bytes()), Ok(0));
    }
    for numbers in sheets.iter().rev().skip(1).take(3) {
        assert_eq!(book.withdraw(), Ok(()));
        assert_sums(&book, Some(&curves(numbers)));
    }
    assert_eq!(book.withdraw(), Err(Refusal::plain(18)));
    assert_sums(&book, Some(&curves(&sheets[sheets.len() - 4])));
    // And a post after it sets them again.
    assert_eq!(book.post(&level().bytes()), Ok(0));
    assert_sums(&book, Some(&curves(&level())));
}

#[test]
fn back_to_a_sheet_without_and_with_an_adjustment_and_to_none() {
    let (with, without) = (level().adjusted(100), november());
    let mut book = book_of(0, &with);
    for numbers in [&without, &zero().adjusted(1)] {
        assert_eq!(book.post(&numbers.bytes()), Ok(0));
    }
    let adjusted = |book: &Book| sum(book, Which::Adjusted, 20).map(|found| found.amount.low);
    assert_ne!(adjusted(&book), Ok(14_736_710_876));
    assert_eq!(book.withdraw(), Ok(()));
    assert_sums(&book, Some(&curves(&without)));
    assert_eq!(adjusted(&book), Err(Refusal::plain(14)));
    assert_eq!(book.withdraw(), Ok(()));
    assert_sums(&book, Some(&curves(&with)));
    assert_eq!(adjusted(&book), Ok(14_736_710_876));
    assert_eq!(book.withdraw(), Ok(()));
    assert_sums(&book, None);
    for (which, year) in [(Which::Plain, 1), (Which::Adjusted, 150)] {
        assert_eq!(sum(&book, which, year), Err(Refusal::plain(14)));
    }
}

// The same checks, rates, month and age

#[test]
fn grounds_13_14_16_and_17_in_their_order() {
    let refused = |book: &Book, which, year| sum(book, which, year).map_err(Refusal::code).err();
    let (without, with) = (steep(10_000), steep(10_000).adjusted(5));
    let (fresh, mut plain, mut both) = (Book::new(3), book_of(3, &without), book_of(3, &with));
    for age in 0..=4 {
        assert_eq!(plain.turn(age), Ok(age as u16));
        assert_eq!(both.turn(age), Ok(age as u16));
        let old = age > 3;
        let of_10 = Some(if old { 16 } else { 17 });
        for year in [0, 151, 256, u32::MAX] {
            for book in [&fresh, &plain, &both] {
                let grounds = Which::ALL.map(|which| refused(book, which, year));
                assert_eq!(grounds, [Some(13); 2]);
            }
        }
        for year in [10, 17, 150] {
            assert_eq!(refused(&fresh, Which::Plain, year), Some(14));
            // Missing comes before too old, and that before 17.
            assert_eq!(refused(&plain, Which::Adjusted, year), Some(14));
            assert_eq!(refused(&plain, Which::Plain, year), of_10);
            assert_eq!(refused(&both, Which::Adjusted, year), of_10);
        }
        assert_eq!(refused(&plain, Which::Plain, 9), old.then_some(16));
        assert_eq!(refused(&both, Which::Adjusted, 9), old.then_some(16));
    }
}

#[test]
fn ground_17_goes_by_the_factor_of_the_year() {
    let book = book_of(0, &steep(0));
    for year in 1..=150 {
        let lacks = (10..=17).contains(&year);
        let ground = sum(&book, Which::Plain, year).err();
        assert_eq!(ground, lacks.then_some(Refusal::plain(17)), "year {year}");
    }
    // The sums of these years, of which nobody is told, are in later ones.
    assert_eq!(ends(&book, Which::Plain, 9), (9 * U, 9 * U));
    let (low, high) = ends(&book, Which::Plain, 18);
    assert_eq!((low, high), (9_000_055_112, 9_000_055_156));
    // A last low of 0 has no rate, although its sum is far above 0.
    let last = book_of(0, &steep(10_000));
    assert_eq!(sum(&last, Which::Plain, 150), Err(Refusal::plain(17)));
    assert!(ends(&last, Which::Plain, 20).0 > 9 * U);
}

#[test]
fn rates_month_and_age_are_the_factors_own() {
    for numbers in sheets() {
        let dated = Numbers {
            month: 5,
            ..numbers
        };
        let mut book = Book::new(LARGEST_AGE_LIMIT);
        assert_eq!(book.turn(7), Ok(7));
        assert_eq!(book.post(&dated.bytes()), Ok(5));
        assert_eq!(book.turn(1_000), Ok(1_000));
        let curves = curves(&dated);
        for which in Which::ALL {
            for year in 1..=150 {
                let Ok(found) = sum(&book, which, year) else {
                    continue;
                };
                let factor = curves.get(which).unwrap().factor(year as usize);
                assert_eq!(Some(found.rates), ZeroRates::of(factor, year as usize));
                assert_eq!((found.month, found.age), (5, 995));
            }
        }
    }
}

#[test]
fn a_sum_is_shown_up_to_the_age_limit() {
    for limit in [0, 3, 2_398] {
        let mut book = book_of(limit, &level().adjusted(1));
        for (age, ground) in [(limit, None), (limit + 1, Some(Refusal::plain(16)))] {
            assert_eq!(book.turn(age as u32), Ok(age as u16));
            for which in Which::ALL {
                assert_eq!(sum(&book, which, 1).err(), ground);
            }
            assert_sums(&book, Some(&curves(&level().adjusted(1))));
        }
    }
}

#[test]
fn the_limit_is_of_the_factors_alone() {
    let limited = |limit| Numbers { limit, ..level() };
    let widest = (1..=150).map(|year| curves(&level()).plain.factor(year).width());
    assert_eq!(widest.max(), Some(160));
    let refused = Book::new(0).post(&limited(159).bytes()).unwrap_err();
    assert_eq!(refused.number, 10);
    let book = book_of(0, &limited(160));
    let width = |year| sum(&book, Which::Plain, year).unwrap().amount.width();
    assert_eq!((width(2), width(20), width(150)), (2, 76, 14_835));
    assert!((1..150).all(|year| width(year) < width(year + 1)));
}

#[test]
fn a_look_up_leaves_the_book() {
    let book = book_of(0, &steep(0).adjusted(1));
    let before = book.clone();
    for which in Which::ALL {
        for year in [0, 1, 10, 150, 151] {
            _ = sum(&book, which, year);
        }
    }
    assert_eq!(book, before);
}

// What names a sum, and what never does

#[test]
fn bit_1_names_the_sum() {
    for (kind, which, wanted) in [
        (0, Which::Plain, Wanted::Factor),
        (1, Which::Adjusted, Wanted::Factor),
        (2, Which::Plain, Wanted::Sum),
        (3, Which::Adjusted, Wanted::Sum),
    ] {
        assert_eq!(kind_of(which, wanted), kind);
        for others in [0, 4, 1 << 8, 1 << 32, 1 << 33, 1 << 63, u64::MAX - 3] {
            let named = (
                Which::named_by(kind + others),
                Wanted::named_by(kind + others),
            );
            assert_eq!(named, (which, wanted), "{others:x}");
        }
    }
}

#[test]
fn seeded_kinds_name_curve_and_amount() {
    let mut random = Random::new(801);
    for which in Which::ALL {
        for wanted in Wanted::ALL {
            let mut kind = || questions::kind(&mut random, which, wanted);
            let kinds: Vec<u64> = (0..600).map(|_| kind()).collect();
            let named = |&kind: &u64| (Which::named_by(kind), Wanted::named_by(kind));
            assert!(kinds.iter().all(|kind| named(kind) == (which, wanted)));
            for others in [0, 1 << 32, u64::MAX - 3] {
                assert!(kinds.contains(&(others + kind_of(which, wanted))));
            }
        }
    }
}

#[test]
fn look_ups_by_a_kind() {
    let book = book_of(0, &steep(0).adjusted(100));
    for others in [0, 4, 1 << 32, u64::MAX - 3] {
        for year in 0..=151 {
            for which in Which::ALL {
                let by = |wanted| look_up_by(&book, kind_of(which, wanted) | others, year);
                assert_eq!(by(Wanted::Factor), book.look_up(which, year as u32));
                assert_eq!(by(Wanted::Sum), sum(&book, which, year as u32));
            }
        }
    }
    // A year is not cut to its low bits.
    for year in [(1 << 32) + 20, u64::MAX] {
        assert_eq!(look_up_by(&book, 2, year), Err(Refusal::plain(13)));
    }
}

#[test]
fn the_desk_shows_factors() {
    let years = (0..=151).flat_map(look_up).collect();
    let records = [post(&level().adjusted(100).bytes()), turn(3), years].concat();
    let mut lines = Vec::new();
    run_desk(&records[..], &mut lines).unwrap();
    let lines = String::from_utf8(lines).unwrap();
    let curve = curves(&level()).plain;
    let mut expected = String::from("P 0\nM 3\nR 13 0\n");
    for year in 1..=150 {
        let Enclosure { low, high } = curve.factor(year);
        expected.push_str(&format!("L {year} {low} {high} 0 3\n"));
    }
    assert_eq!(lines, expected + "R 13 0\n");
}

#[test]
fn a_record_never_asks_for_a_sum() {
    // A look-up's record is whole with its year; what follows it is the next record.
    let book = book_of(0, &steep(0).adjusted(100));
    for year in 0..=255 {
        let expected = book.look_up(Which::Plain, u32::from(year));
        let expected = expected.map_or_else(Refusal::code, |_| 0);
        for behind in [&[][..], &[2], &[3, 2]] {
            let call = [&look_up(year)[..], behind].concat();
            assert_eq!(answer_on(&book, &call), expected);
        }
    }
    let known = [0x4C, 0x4D, 0x50, 0x57];
    for kind in (0..=255).filter(|kind| !known.contains(kind)) {
        assert_eq!(answer_on(&book, &[kind, 20, 20]), NO_RECORD);
    }
}

// The true curve

/// Asserts that the sums hold the true ones of these orders on each curve of the sheet; the curves.
fn assert_true_sums(sheet: &Sheet, orders: std::ops::RangeInclusive<usize>) -> usize {
    let curves = Curves::of(sheet).unwrap();
    let each = Which::ALL.map(|which| curves.get(which).map(|curve| (which, curve)));
    for (which, curve) in each.into_iter().flatten() {
        let sums = Sums::of(curve);
        for order in orders.clone() {
            let checks = check_all(sheet, which, curve, &sums, order).unwrap();
            assert!(checks.years.iter().all(|year| year.holds()), "{sheet:?}");
            let years = checks.sums.iter().map(|check| check.year);
            assert!(years.eq(1..=150));
            for check in checks.sums {
                assert_eq!(check.sum, added(curve, check.year));
                assert!(check.inside, "order {order}, {which:?}, {check:?}");
            }
        }
    }
    each.into_iter().flatten().count()
}

#[test]
fn the_true_sums_lie_between_the_ends() {
    for numbers in sheets().into_iter().chain([flat(2_400).adjusted(0)]) {
        let with = numbers.adjustment.is_some();
        let curves = assert_true_sums(&read(&numbers), 0..=3);
        assert_eq!(curves, if with { 2 } else { 1 });
    }
}

#[test]
fn the_true_sums_of_seeded_sheets_lie_between_the_ends() {
    let mut random = Random::new(802);
    let (mut sheets, mut adjusted) = (0, 0);
    while sheets < 24 {
        let journal = journal(&mut random);
        let Some(sheet) = Count::of(calls(&journal)).sheet().cloned() else {
            continue;
        };
        adjusted += assert_true_sums(&sheet, 0..=1) - 1;
        sheets += 1;
    }
    assert!(adjusted > 5, "{adjusted}");
}

#[test]
fn other_sums_are_found_outside() {
    let sheet = read(&level().adjusted(100));
    let both = Curves::of(&sheet).unwrap();
    let sums = Which::ALL.map(|which| Sums::of(both.get(which).unwrap()));
    for (which, others) in Which::ALL.into_iter().zip([&sums[1], &sums[0]]) {
        let curve = both.get(which).unwrap();
        let checks = check_all(&sheet, which, curve, others, 0).unwrap();
        assert!(checks.years.iter().all(|year| year.holds()));
        assert!(checks.sums.iter().all(|sum| !sum.inside));
    }
    // A rate a little higher has smaller sums, beyond what the ends leave open.
    let other = Numbers {
        rates: [3_001; 17],
        ..level()
    };
    let other = Sums::of(&curves(&other).plain);
    let checks = check_all(&sheet, Which::Plain, &both.plain, &other, 0).unwrap();
    assert!(checks.sums.iter().all(|sum| !sum.inside));
}

// Seeded journals

/// What the sums met.
#[derive(Default)]
struct Seen {
    shown: [u64; 2],
    refused: [[u64; 3]; 2],
}

impl Seen {
    /// Counts each sum that the book is asked for, a year from 1 to 150 each.
    fn count(&mut self, book: &Book) {
        for which in Which::ALL {
            for year in 1..=150 {
                match sum(book, which, year) {
                    Ok(_) => self.shown[which as usize] += 1,
                    Err(refusal) => {
                        let grounds = [14, 16, 17];
                        let at = grounds.iter().position(|&n| n == refusal.number);
                        self.refused[which as usize][at.expect("a look-up's ground")] += 1;
                    }
                }
            }
        }
    }
}

#[test]
fn seeded_journals_keep_the_sums_of_the_sheet_that_stands() {
    let mut random = Random::new(803);
    let mut seen = Seen::default();
    for _ in 0..150 {
        let mut journal = journal(&mut random);
        if random.one_in(3) {
            journal.extend(withdrawal());
        }
        // Months later a steep curve, which journals end with, is too old for some limit.
        let told = Count::of(calls(&journal)).told_month();
        journal.extend(turn((told + 2).min(2_399)));
        let count = Count::of(calls(&journal));
        let curves = count.sheet().map(|sheet| Curves::of(sheet).unwrap());
        let book = book_after(LARGEST_AGE_LIMIT, &journal);
        let age = book.curve_age().map_or(0, u64::from);
        for limit in limits_around(age) {
            let book = book.with_age_limit(limit);
            assert_sums(&book, curves.as_ref());
            seen.count(&book);
        }
    }
    assert!(seen.shown.iter().all(|&times| times > 5_000));
    let refused = seen.refused.concat();
    assert!(refused.iter().all(|&times| times > 50), "{refused:?}");
}
