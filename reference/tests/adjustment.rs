//! The volatility adjustment: its record, the adjusted curve, its grounds and its true curve.

mod common;
mod model;

use common::{flat, november, zero, Numbers};
use model::Model;
use reference::adjusted::{
    adjusted_sheet, typed_adjusted_sheet, Alone, Tail, NAMED_ADJUSTMENTS, TAIL_GROUNDS,
};
use reference::adjustment::{adjusted_factors, adjusted_forwards};
use reference::book::{Book, LARGEST_AGE_LIMIT, PAGE_LENGTH};
use reference::bootstrap::bootstrap;
use reference::counts::{answered_posts, PostCounts};
use reference::curve::{Curve, Curves, Which};
use reference::desk::run_desk;
use reference::enclosure::{Enclosure, U};
use reference::extrapolation::{last_liquid_forward, log_ultimate};
use reference::journal::{book_after, look_up, post, turn};
use reference::market::Market;
use reference::questions::{journal, page_kind};
use reference::rates::ZeroRates;
use reference::refusal::Refusal;
use reference::sheet::Sheet;
use reference::streams::{stream, worked, Random};
use reference::true_curve::check;

/// Adjustments at the ends of their range, around 0 and between.
const ADJUSTMENTS: [i16; 9] = [-500, -499, -37, -1, 0, 1, 100, 499, 500];

fn read(numbers: &Numbers) -> Sheet {
    Sheet::read(&numbers.bytes()).unwrap()
}

fn curves(numbers: &Numbers) -> Curves {
    Curves::of(&read(numbers)).expect("an accepted sheet")
}

fn adjusted(numbers: &Numbers) -> Curve {
    curves(numbers).adjusted.expect("an adjusted curve")
}

fn has_factor(curve: &Curve, year: usize, low: i128, high: i128) {
    assert_eq!(curve.factor(year), Enclosure::new(low, high), "year {year}");
}

/// What a post of the bytes is refused on, if it is.
fn refusal(bytes: &[u8]) -> Option<(u8, u16)> {
    let refused = Book::new(LARGEST_AGE_LIMIT).post(bytes).err();
    refused.map(|refusal| (refusal.number, refusal.place))
}

/// The answer to the zero sheet followed by these bytes.
fn with_tail(tail: &[u8]) -> Option<(u8, u16)> {
    refusal(&[&zero().bytes()[..], tail].concat())
}

/// A rate below 0 to 20 years and rising ones beyond: the plain curve stays below 2 U.
fn near_the_largest_high() -> Numbers {
    let mut numbers = flat(-1_900);
    numbers.rates[13..].copy_from_slice(&[-1_750, -1_600, -1_400, -1_300]);
    Numbers {
        volumes: [1_000_000, 1, 1, 1, 1],
        ..numbers
    }
}

// The record

#[test]
fn the_record_is_the_last_and_tells_the_adjustment() {
    let alone = zero().adjusted(-2);
    assert_eq!(alone.bytes().len(), 112);
    assert_eq!(alone.bytes()[109..], [0x07, 0xFF, 0xFE]);
    let both = zero().with_x(0x3412).adjusted(0x0102);
    assert_eq!(both.bytes().len(), 115);
    assert_eq!(both.bytes()[109..], [0x06, 0x34, 0x12, 0x07, 0x01, 0x02]);
    for (numbers, x, adjustment) in [
        (zero(), None, None),
        (alone, None, Some(-2)),
        (zero().with_x(0x3412), Some(0x3412), None),
        (both, Some(0x3412), Some(0x0102)),
        (zero().adjusted(0), None, Some(0)),
    ] {
        let sheet = read(&numbers);
        assert_eq!((sheet.phase_in, sheet.adjustment), (x, adjustment));
    }
}

#[test]
fn the_kind_tells_which_record_is_alone() {
    assert_eq!(with_tail(&[0x05, 0, 0]), Some((2, 26)));
    assert_eq!(with_tail(&[0x07, 0x01, 0xF5]), Some((3, 26)));
    // As an X it would be in its range, as an adjustment it is not; and the other way round.
    assert_eq!(with_tail(&[0x07, 0x27, 0x10]), Some((3, 26)));
    assert_eq!(with_tail(&[0x06, 0x27, 0x10]), None);
    assert_eq!(with_tail(&[0x06, 0x00, 0x10]), Some((3, 26)));
    assert_eq!(with_tail(&[0x07, 0x00, 0x10]), None);
    for kind in (0..=255).filter(|kind| ![0x06, 0x07].contains(kind)) {
        for number in [[0x27, 0x10], [0, 0], [0xFF, 0xFF]] {
            let tail = [&[kind], &number[..]].concat();
            assert_eq!(with_tail(&tail), Some((2, 26)), "{tail:?}");
        }
    }
}

#[test]
fn two_records_have_their_order() {
    assert_eq!(with_tail(&[0x06, 0x27, 0x10, 0x07, 0, 0]), None);
    assert_eq!(with_tail(&[0x07, 0, 0, 0x06, 0x27, 0x10]), Some((2, 26)));
    assert_eq!(with_tail(&[0x07, 0, 0, 0x07, 0, 0]), Some((2, 26)));
    assert_eq!(
        with_tail(&[0x06, 0x27, 0x10, 0x06, 0x27, 0x10]),
        Some((2, 27))
    );
    for kind in 0..=255 {
        let first = (kind != 0x06).then_some((2, 26));
        assert_eq!(with_tail(&[kind, 0x27, 0x10, 0x07, 0, 0]), first);
        let second = (kind != 0x07).then_some((2, 27));
        assert_eq!(with_tail(&[0x06, 0x27, 0x10, kind, 0, 0]), second);
    }
}

#[test]
fn an_adjustment_outside_its_range_is_ground_3() {
    for bits in 0..=u16::MAX {
        let [high, low] = bits.to_be_bytes();
        let outside = !(-500..=500).contains(&(bits as i16));
        let sheet = [&zero().bytes()[..], &[0x07, high, low]].concat();
        let expected = outside.then_some(Refusal::at(3, 26));
        assert_eq!(Sheet::read(&sheet).err(), expected);
        let sheet = [&zero().with_x(10_000).bytes()[..], &[0x07, high, low]].concat();
        let expected = outside.then_some(Refusal::at(3, 27));
        assert_eq!(Sheet::read(&sheet).err(), expected);
    }
}

#[test]
fn the_first_record_that_is_wrong_gives_the_place() {
    let outside = |x, adjustment| refusal(&zero().with_x(x).adjusted(adjustment).bytes());
    assert_eq!(outside(9_999, 501), Some((3, 26)));
    assert_eq!(outside(20_000, 501), Some((3, 27)));
    assert_eq!(outside(20_001, 500), Some((3, 26)));
    // Every kind comes before every range.
    assert_eq!(with_tail(&[0x06, 0, 0, 0x08, 0, 0]), Some((2, 27)));
    let limit = Numbers { limit: 0, ..zero() };
    assert_eq!(refusal(&limit.adjusted(501).bytes()), Some((3, 25)));
    let untraded = Numbers {
        volumes: [0; 5],
        ..zero()
    };
    assert_eq!(
        refusal(&untraded.clone().adjusted(501).bytes()),
        Some((3, 26))
    );
    assert_eq!(refusal(&untraded.adjusted(500).bytes()), Some((4, 0)));
    let later = Numbers { month: 1, ..zero() };
    assert_eq!(refusal(&later.adjusted(0).bytes()), Some((5, 0)));
}

#[test]
fn a_tail_of_another_length_is_ground_1() {
    let tail = [0x06, 0x27, 0x10, 0x07, 0, 0, 0x07, 0, 0];
    for length in [1, 2, 4, 5, 7, 8, 9] {
        assert_eq!(with_tail(&tail[..length]), Some((1, 0)), "{length} bytes");
        assert_eq!(with_tail(&[0x07; 9][..length]), Some((1, 0)));
    }
}

// The curve

#[test]
fn figures_of_a_flat_sheet() {
    let numbers = Numbers {
        ufr: 3_000,
        ..flat(3_000)
    };
    let curve = adjusted(&numbers.adjusted(100));
    has_factor(&curve, 1, 969_903_391, 969_903_399);
    has_factor(&curve, 20, 542_712_164, 542_712_255);
    has_factor(&curve, 150, 11_610_751, 11_610_817);
}

#[test]
fn figures_by_hand() {
    // E(10,000) is U + 10,000 to U + 10,007: the terms from the second on are below 1.
    let up = adjusted(&zero().adjusted(1));
    has_factor(&up, 1, U * U / (U + 10_007), U * U / (U + 10_000) + 1);
    let down = adjusted(&zero().adjusted(-1));
    has_factor(&down, 1, U + 10_000, U + 10_007);
    // Twice through the step.
    has_factor(&down, 2, U + 20_000, U + 20_015);
    let plain = curves(&zero().adjusted(-1)).plain;
    has_factor(&plain, 1, U, U);
}

#[test]
fn an_adjustment_of_0_is_the_plain_curve_once_more() {
    // E(0) is U to U, so that no step changes a factor, and no forward gains.
    for numbers in [
        zero(),
        flat(3_000),
        november(),
        november().with_x(20_000),
        near_the_largest_high(),
    ] {
        let both = curves(&numbers.clone().adjusted(0));
        assert_eq!(both.adjusted, Some(both.plain));
        // None is not the same as 0.
        assert_eq!(curves(&numbers).adjusted, None);
    }
    for year in 1..=150 {
        has_factor(&adjusted(&zero().adjusted(0)), year, U, U);
    }
}

#[test]
fn the_plain_curve_is_not_moved() {
    for numbers in [zero(), flat(3_000), november(), november().with_x(20_000)] {
        let expected = curves(&numbers);
        assert_eq!(expected.adjusted, None);
        for adjustment in ADJUSTMENTS {
            let both = curves(&numbers.clone().adjusted(adjustment));
            assert_eq!(both.plain, expected.plain);
            let the_same = both.adjusted == Some(both.plain);
            assert_eq!(the_same, adjustment == 0, "{adjustment}");
        }
    }
}

#[test]
fn in_llfr_the_forward_of_15_to_20_alone_gains() {
    let quoted = bootstrap(&read(&november())).unwrap();
    for adjustment in ADJUSTMENTS {
        let moved = adjusted_forwards(Market::EURO, &quoted.forwards, adjustment);
        let gain = |volumes: [u32; 5]| {
            let plain = last_liquid_forward(Market::EURO, &volumes, &quoted.forwards);
            let adjusted = last_liquid_forward(Market::EURO, &volumes, &moved);
            (adjusted.low - plain.low, adjusted.high - plain.high)
        };
        let whole = 10_000 * i128::from(adjustment);
        assert_eq!(gain([1, 0, 0, 0, 0]), (whole, whole));
        assert_eq!(gain([1, 1, 1, 1, 1]), (whole / 5, whole / 5));
        for maturity in 1..5 {
            let mut volumes = [0; 5];
            volumes[maturity] = 7;
            assert_eq!(gain(volumes), (0, 0));
        }
    }
}

#[test]
fn later_years_start_from_the_adjusted_year_20() {
    // Without volume at 20 every forward past it is the plain one, so that each later factor is
    // to the plain one as the adjusted year 20 is to the plain one.
    for adjustment in [-500, 500] {
        let numbers = Numbers {
            volumes: [0, 5, 40, 6, 8],
            ..november()
        };
        let both = curves(&numbers.adjusted(adjustment));
        let curve = both.adjusted.unwrap();
        let middle = |factor: Enclosure| factor.low + factor.high;
        for year in 21..=150 {
            let adjusted = middle(curve.factor(year)) * middle(both.plain.factor(20));
            let plain = middle(both.plain.factor(year)) * middle(curve.factor(20));
            let difference = (adjusted - plain).abs() / U;
            assert!(difference < 8_000, "year {year}: {difference}");
        }
    }
}

#[test]
fn the_ultimate_rate_is_not_moved() {
    // At year 150 the weight of LLFR is below a millionth times the first: the yearly fall is
    // that of the ultimate rate, which an adjustment of 0.5% would change by 5,000,000 billionths.
    for adjustment in [-500, 500] {
        let numbers = Numbers {
            ufr: 3_450,
            ..flat(3_000)
        };
        let curve = adjusted(&numbers.adjusted(adjustment));
        let (before, last) = (curve.factor(149), curve.factor(150));
        let fall = U * before.low / last.low - U;
        // 3.45% less what is left of LLFR, and roundings.
        assert!((fall - 34_500_000).abs() < 20_000, "{fall}");
        assert!(log_ultimate(3_450).low > 33_900_000);
    }
}

/// The maturities beyond 20 that have volume.
fn traded(sheet: &Sheet) -> Vec<u8> {
    let later = [25, 30, 40, 50].into_iter().zip(&sheet.volumes[1..]);
    later.filter(|(_, &v)| v > 0).map(|(m, _)| m).collect()
}

/// Lows and highs of all years.
fn as_model(curve: &Curve) -> Model {
    let factors = (1..=150).map(|year| curve.factor(year));
    let (lows, highs) = factors.map(|factor| (factor.low, factor.high)).unzip();
    Model { lows, highs }
}

/// Asserts that both curves, or the ground, are the model's; the ground's number, or 0.
fn assert_model(sheet: &Sheet) -> u8 {
    let adjustment = sheet.adjustment.expect("a sheet with an adjustment");
    let model = Model::both_over(sheet, &traded(sheet), adjustment);
    let found = Curves::of(sheet).map_err(|refusal| (refusal.number, refusal.place));
    let number = found.as_ref().err().map_or(0, |ground| ground.0);
    let found = found.map(|curves| [as_model(&curves.plain), as_model(&curves.adjusted.unwrap())]);
    assert_eq!(found, model, "{sheet:?}");
    number
}

#[test]
fn both_curves_are_those_of_the_papers_words() {
    let mut random = Random::new(601);
    let mut counts = [0; 11];
    for _ in 0..1_500 {
        let sheet = adjusted_sheet(&mut random, 0);
        if sheet.volumes != [0; 5] {
            counts[usize::from(assert_model(&sheet))] += 1;
        }
    }
    assert!(counts[0] > 500, "{counts:?}");
    assert!(counts[7..].iter().all(|&n| n > 3), "{counts:?}");
    for adjustment in -500..=0 {
        assert_model(&read(&near_the_largest_high().adjusted(adjustment)));
    }
}

// Grounds

#[test]
fn ground_8_on_an_extrapolated_adjusted_year() {
    let numbers = near_the_largest_high();
    assert_eq!(refusal(&numbers.bytes()), None);
    let adjusted = |adjustment| refusal(&numbers.clone().adjusted(adjustment).bytes());
    assert_eq!(adjusted(-500), Some((8, 41)));
    assert_eq!(adjusted(0), None);
    assert_eq!(adjusted(500), None);
}

#[test]
fn ground_8_on_adjusted_years_to_20() {
    // No sheet gets there: to year 20 a plain factor is at most 0.98^-20, about 1.5 U. So the
    // years are given: 1.95 U times e^(0.005 t) passes 2 U in year 6.
    let years = |factor: i128| [Enclosure::new(factor, factor); 20];
    let refused = |factor, adjustment| adjusted_factors(&years(factor), adjustment).err();
    assert_eq!(refused(1_950_000_000, -500), Some(Refusal::at(8, 6)));
    assert_eq!(refused(1_950_000_000, -1), None);
    assert_eq!(refused(1_999_999_990, -1), Some(Refusal::at(8, 1)));
    assert_eq!(refused(1_820_000_000, -500), Some(Refusal::at(8, 19)));
    assert_eq!(refused(1_809_000_000, -500), None);
    // Exactly 2 U passes, and what is above 2 U only before its steps is not tried.
    assert_eq!(refused(2 * U, 0), None);
    assert_eq!(refused(2 * U + 1, 0), Some(Refusal::at(8, 1)));
    assert_eq!(refused(2 * U + 1, 1), None);
    // A low may be 0.
    let low = adjusted_factors(&[Enclosure::new(1, 2); 20], 500);
    assert_eq!(low.unwrap()[19], Enclosure::new(0, 2));
}

#[test]
fn ground_10_on_the_adjusted_curve() {
    let limited = |limit| Numbers {
        limit,
        ..flat(3_000)
    };
    let adjusted = |limit, adjustment| refusal(&limited(limit).adjusted(adjustment).bytes());
    assert_eq!(refusal(&limited(635).bytes()), Some((10, 150)));
    assert_eq!(adjusted(635, 100), Some((10, 150)));
    // The plain curve is within its limit, of the adjusted one year 142 is the first not to be.
    assert_eq!(refusal(&limited(636).bytes()), None);
    assert_eq!(adjusted(636, 100), Some((10, 142)));
    assert_eq!(adjusted(671, 100), Some((10, 150)));
    assert_eq!(adjusted(672, 100), None);
    // Smaller factors have narrower bands: that of year 150 is 635. At 0 the curves are the same.
    assert_eq!(adjusted(636, 500), None);
    assert_eq!(adjusted(636, 0), None);
}

#[test]
fn ground_10_on_adjusted_years_to_20() {
    // The plain curve is U to U. Year 1 is U + 10,000 to U + 10,007 at -1, and year 2 is U + 20,000
    // to U + 20,015; at 1 the bands are one wider for the rounding of both ends.
    let limited = |limit| Numbers { limit, ..zero() };
    let adjusted = |limit, adjustment| refusal(&limited(limit).adjusted(adjustment).bytes());
    for (adjustment, width) in [(-1, 7), (1, 8)] {
        assert_eq!(adjusted(1, adjustment), Some((10, 1)));
        assert_eq!(adjusted(width - 1, adjustment), Some((10, 1)));
        assert_eq!(adjusted(width, adjustment), Some((10, 2)));
    }
    assert_eq!(adjusted(1, 0), None);
    // Here each step adds about 8 to a band, which makes 55 in year 7. Plain ones are at most 51.
    let steep = {
        let mut rates = [11_595; 17];
        rates[..9].copy_from_slice(&[896, 900, 891, 860, 899, 860, 870, 865, 900]);
        Numbers {
            rates,
            volumes: [2_989, 1_000_000, 1_000_000, 1_000_000, 1],
            ufr: 10_000,
            limit: 51,
            ..zero()
        }
    };
    assert_eq!(refusal(&steep.bytes()), None);
    assert_eq!(refusal(&steep.adjusted(-268).bytes()), Some((10, 7)));
}

#[test]
fn the_plain_curve_is_tried_first_and_8_before_10() {
    // Its widest plain band is 2,242, in year 150; the adjusted curve passes 2 U in year 41.
    let limited = |limit| Numbers {
        limit,
        ..near_the_largest_high()
    };
    for (limit, plain) in [(1, (10, 11)), (100, (10, 24)), (2_241, (10, 150))] {
        assert_eq!(refusal(&limited(limit).bytes()), Some(plain));
        assert_eq!(refusal(&limited(limit).adjusted(-500).bytes()), Some(plain));
    }
    assert_eq!(refusal(&limited(2_242).bytes()), None);
    assert_eq!(
        refusal(&limited(2_242).adjusted(-500).bytes()),
        Some((8, 41))
    );
    // Of this adjusted curve bands pass the limit from year 120 on, and year 137 passes 2 U.
    let mut numbers = limited(2_253);
    numbers.rates[..13].fill(-1_911);
    assert_eq!(refusal(&numbers.bytes()), None);
    assert_eq!(
        refusal(&numbers.clone().adjusted(-380).bytes()),
        Some((10, 120))
    );
    assert_eq!(refusal(&numbers.adjusted(-381).bytes()), Some((8, 137)));
}

#[test]
fn grounds_7_to_9_of_the_plain_curve_come_with_any_adjustment() {
    let fall = {
        let mut numbers = zero().with_rate(10, 12_000);
        numbers.rates[..9].fill(-2_000);
        numbers
    };
    for adjustment in ADJUSTMENTS {
        let refused = |numbers: Numbers| refusal(&numbers.adjusted(adjustment).bytes());
        assert_eq!(refused(fall.clone()), Some((7, 10)));
        assert_eq!(refused(flat(-2_000)), Some((8, 35)));
        let gap = flat(3_000).with_rate(12, 12_000);
        assert_eq!(refused(gap), Some((9, 12)));
    }
}

#[test]
fn an_adjusted_low_may_be_0() {
    // Plain year 20 is 9 to 18. A low of 0 would be ground 7 there; adjusted ones are not tried.
    let mut rates = [11_103; 17];
    rates[..9].copy_from_slice(&[-41, -39, -6, -5, -44, 4, 4, -19, -20]);
    let numbers = Numbers {
        rates,
        volumes: [1, 0, 0, 0, 0],
        ..zero()
    };
    // Each step of an adjustment above 0 takes 1 from so small a low; one of 0 takes nothing.
    for (adjustment, low) in [(0, 9), (1, 0), (500, 0)] {
        let both = curves(&numbers.clone().adjusted(adjustment));
        has_factor(&both.plain, 20, 9, 18);
        has_factor(&both.adjusted.unwrap(), 20, low, 18);
    }
}

// The book

fn book_of(numbers: &Numbers) -> Book {
    let mut book = Book::new(3);
    book.post(&numbers.bytes()).unwrap();
    book
}

/// The answers to a look-up and a page of the named curve.
fn shown(book: &Book, which: Which) -> (u8, u8) {
    let number = |refusal: Refusal| refusal.number;
    let looked = book.look_up(which, 150).err().map_or(0, number);
    let mut page = [7; PAGE_LENGTH];
    let paged = book.page(which, &mut page).err().map_or(0, number);
    assert!(paged == 0 || page == [7; PAGE_LENGTH]);
    (looked, paged)
}

#[test]
fn a_missing_adjusted_curve_is_14() {
    let fresh = Book::new(3);
    assert_eq!(shown(&fresh, Which::Plain), (14, 14));
    assert_eq!(shown(&fresh, Which::Adjusted), (14, 14));
    for numbers in [zero(), zero().with_x(20_000)] {
        let book = book_of(&numbers);
        assert_eq!(shown(&book, Which::Plain), (0, 0));
        assert_eq!(shown(&book, Which::Adjusted), (14, 14));
        assert!(book.holds(Which::Plain) && !book.holds(Which::Adjusted));
        let book = book_of(&numbers.adjusted(0));
        assert_eq!(shown(&book, Which::Plain), (0, 0));
        assert_eq!(shown(&book, Which::Adjusted), (0, 0));
        assert!(book.holds(Which::Plain) && book.holds(Which::Adjusted));
    }
}

#[test]
fn both_curves_follow_the_last_accepted_sheet() {
    let mut book = book_of(&flat(3_000).adjusted(100));
    // A sheet that is refused, be it for its adjusted curve alone, leaves both.
    let refused = near_the_largest_high().adjusted(-500);
    let before = book.clone();
    assert_eq!(book.post(&refused.bytes()), Err(Refusal::at(8, 41)));
    let narrow = Numbers {
        limit: 636,
        ..flat(3_000)
    };
    assert_eq!(
        book.post(&narrow.adjusted(100).bytes()),
        Err(Refusal::at(10, 142))
    );
    assert_eq!(book, before);
    for (numbers, has_adjusted) in [
        (flat(2_000), false),
        (flat(2_000).adjusted(-7), true),
        (flat(2_000).adjusted(7), true),
        (flat(2_001), false),
    ] {
        book.post(&numbers.bytes()).unwrap();
        let expected = curves(&numbers);
        let found = book.look_up(Which::Plain, 60).unwrap();
        assert_eq!(found.amount, expected.plain.factor(60));
        let found = book.look_up(Which::Adjusted, 60).map(|found| found.amount);
        let expected = expected.adjusted.map(|curve| curve.factor(60));
        assert_eq!(found, expected.ok_or(Refusal::plain(14)));
        assert_eq!(book.holds(Which::Adjusted), has_adjusted);
    }
}

#[test]
fn a_look_up_gives_the_rates_of_the_adjusted_pair() {
    let numbers = flat(3_000).adjusted(100);
    let (mut book, curve) = (book_of(&numbers), adjusted(&numbers));
    assert_eq!(book.turn(2), Ok(2));
    for year in 1..=150 {
        let found = book.look_up(Which::Adjusted, year as u32).unwrap();
        assert_eq!(found.amount, curve.factor(year));
        assert_eq!(Some(found.rates), ZeroRates::of(curve.factor(year), year));
        assert_eq!((found.month, found.age), (0, 2));
    }
    // 1.03 × e^0.001 is 1.0310305.
    let rates = book.look_up(Which::Adjusted, 1).unwrap().rates;
    assert_eq!((rates.low, rates.high), (3_103, 3_104));
}

#[test]
fn pages_are_those_of_the_named_curve() {
    let numbers = november().with_x(15_000).adjusted(-120);
    let (book, both) = (book_of(&numbers), curves(&numbers));
    for which in Which::ALL {
        let mut page = [7; PAGE_LENGTH + 3];
        assert_eq!(book.page(which, &mut page), Ok(()));
        assert_eq!(page[PAGE_LENGTH..], [7; 3]);
        let curve = both.get(which).unwrap();
        for (year, record) in (1..).zip(page[5..PAGE_LENGTH].chunks_exact(10)) {
            let number = |bytes: &[u8]| i128::from(u32::from_be_bytes(bytes.try_into().unwrap()));
            let pair = Enclosure::new(number(&record[2..6]), number(&record[6..]));
            assert_eq!(pair, curve.factor(year));
        }
    }
}

#[test]
fn grounds_of_an_adjusted_look_up_and_page_in_their_order() {
    let number = |refusal: Refusal| refusal.number;
    let looked = |book: &Book, year| book.look_up(Which::Adjusted, year).map_err(number).err();
    let paged = |book: &Book, length: usize| {
        let page = &mut [7; 2_000][..length];
        book.page(Which::Adjusted, page).map_err(number).err()
    };
    let steep = {
        let mut numbers = zero();
        numbers.rates[9..].fill(11_111);
        numbers
    };
    let (mut without, mut with) = (book_of(&steep), book_of(&steep.clone().adjusted(500)));
    for age in [3, 4] {
        without.turn(age).unwrap();
        with.turn(age).unwrap();
        let too_old = age > 3;
        for year in [0, 151] {
            assert_eq!(looked(&without, year), Some(13));
            assert_eq!(looked(&with, year), Some(13));
        }
        // Missing comes before too old, and that before 17 and 15.
        assert_eq!(looked(&without, 10), Some(14));
        assert_eq!(paged(&without, 1_504), Some(14));
        assert_eq!(looked(&with, 10), Some(if too_old { 16 } else { 17 }));
        assert_eq!(looked(&with, 9), too_old.then_some(16));
        assert_eq!(paged(&with, 1_504), Some(if too_old { 16 } else { 15 }));
        assert_eq!(paged(&with, 1_505), too_old.then_some(16));
    }
}

#[test]
fn bit_0_names_the_adjusted_curve() {
    for (kind, which) in [
        (0, Which::Plain),
        (1, Which::Adjusted),
        (2, Which::Plain),
        (3, Which::Adjusted),
        (1 << 32, Which::Plain),
        ((1 << 32) + 1, Which::Adjusted),
        (u64::MAX - 1, Which::Plain),
        (u64::MAX, Which::Adjusted),
    ] {
        assert_eq!(Which::named_by(kind), which, "{kind}");
    }
}

#[test]
fn the_desk_shows_the_plain_curve() {
    let lines = |numbers: &Numbers| {
        let years = (0..=151).flat_map(look_up);
        let records: Vec<u8> = post(&numbers.bytes())
            .into_iter()
            .chain(turn(1))
            .chain(years)
            .collect();
        let mut lines = Vec::new();
        run_desk(&records[..], &mut lines).unwrap();
        lines
    };
    for numbers in [flat(3_000), november(), november().with_x(20_000)] {
        let expected = lines(&numbers);
        for adjustment in ADJUSTMENTS {
            assert_eq!(lines(&numbers.clone().adjusted(adjustment)), expected);
        }
    }
}

// The true curve

fn assert_holds(sheet: &Sheet, order: usize) {
    let curves = worked(sheet).expect("an accepted sheet");
    for which in Which::ALL {
        let curve = curves.get(which).expect("a sheet with an adjustment");
        let checks = check(sheet, which, curve, order).unwrap();
        assert_eq!(checks.len(), 150);
        for year in checks {
            assert!(
                year.holds(),
                "order {order}, {which:?}, {year:?}, {sheet:?}"
            );
        }
    }
}

#[test]
fn bands_hold_the_true_curves() {
    for numbers in [zero(), flat(2_400), november().with_x(20_000)] {
        for adjustment in [-500, -1, 0, 1, 500] {
            for order in [0, 3] {
                assert_holds(&read(&numbers.clone().adjusted(adjustment)), order);
            }
        }
    }
    let steep = {
        let mut numbers = zero();
        numbers.rates[9..].fill(11_111);
        numbers
    };
    for (adjustment, order) in [(-500, 0), (250, 1), (500, 2)] {
        assert_holds(&read(&steep.clone().adjusted(adjustment)), order);
    }
}

#[test]
fn bands_of_random_sheets_hold_the_true_curves() {
    let mut random = Random::new(603);
    let mut done = 0;
    while done < 30 {
        let sheet = adjusted_sheet(&mut random, 0);
        if worked(&sheet).is_some() {
            assert_holds(&sheet, done % 3);
            done += 1;
        }
    }
}

#[test]
fn bands_of_another_curve_are_found_outside() {
    for numbers in [flat(3_000), november()] {
        let sheet = read(&numbers.clone().adjusted(100));
        let outside = |which, curve: &Curve| {
            let checks = check(&sheet, which, curve, 0).unwrap();
            checks.iter().filter(|check| !check.inside).count()
        };
        let both = Curves::of(&sheet).unwrap();
        assert_eq!(outside(Which::Adjusted, &both.plain), 150);
        assert_eq!(outside(Which::Plain, both.adjusted.as_ref().unwrap()), 150);
        for other in [-100, 99, 101] {
            let other = adjusted(&numbers.clone().adjusted(other));
            assert_eq!(outside(Which::Adjusted, &other), 150);
        }
    }
}

#[test]
fn the_true_factor_of_adjusted_years_is_that_of_its_order() {
    // A band of width 0 at a whole number that is not the true factor is outside; slack says by
    // how much. Year 1 of the zero sheet is U × e^-0.005 at every order, U × 0.99501247919..
    let sheet = read(&zero().adjusted(500));
    let curve = adjusted(&zero().adjusted(500));
    for order in 0..=3 {
        let first = check(&sheet, Which::Adjusted, &curve, order).unwrap()[0];
        // 995,012,474 is 5.192682 below it.
        assert_eq!(first.slack_below, 5_192_682);
        assert_eq!(first.slack_above, 1_807_317);
    }
    let sheet = read(&zero().adjusted(-500));
    let curve = adjusted(&zero().adjusted(-500));
    let first = check(&sheet, Which::Adjusted, &curve, 0).unwrap()[0];
    // U × e^0.005 is 1,005,012,520.859401..
    assert_eq!(first.slack_below, 859_401);
}

// Seeded streams and journals

/// Asserts that everything that the posts are counted by was met at least so often.
fn assert_met(counts: &PostCounts, least: u64) {
    println!("{counts}");
    counts.check().unwrap();
    let adjusted = &counts.adjusted;
    for tail in Tail::ALL {
        let tally = adjusted.of_tail(tail);
        assert!(tally.accepted >= least, "{tail}: {tally}");
        assert!(tally.posted - tally.accepted >= least, "{tail}: {tally}");
    }
    for adjustment in NAMED_ADJUSTMENTS {
        let tally = adjusted.of_adjustment(adjustment);
        assert!(tally.accepted >= least, "adjustment {adjustment}: {tally}");
    }
    for alone in Alone::ALL {
        assert!(adjusted.refused_alone(alone) >= least, "{alone}");
    }
    for ground in TAIL_GROUNDS {
        assert!(adjusted.refused_tails(ground) >= least, "{ground:?}");
    }
}

#[test]
fn seeded_streams_meet_every_tail_and_every_refusal_of_one() {
    let mut counts = PostCounts::default();
    for (sheet, number) in (0..8).flat_map(|seed| answered_posts(&stream(seed, 1_000))) {
        counts.count(&sheet, number);
    }
    assert_met(&counts, 20);
    assert!(counts.adjusted.accepted_adjustments() > 200);
}

#[test]
fn seeded_journals_meet_every_tail_and_every_refusal_of_one() {
    let mut random = Random::new(604);
    let mut counts = PostCounts::default();
    let (mut both, mut plain_alone) = (0, 0);
    for _ in 0..600 {
        let journal = journal(&mut random);
        counts.count_journal(&journal);
        let book = book_after(LARGEST_AGE_LIMIT, &journal);
        match (book.holds(Which::Plain), book.holds(Which::Adjusted)) {
            (true, true) => both += 1,
            (true, false) => plain_alone += 1,
            (false, adjusted) => assert!(!adjusted),
        }
    }
    assert_met(&counts, 5);
    assert!(both > 60 && plain_alone > 100, "{both}, {plain_alone}");
}

#[test]
fn seeded_sheets_are_refused_for_their_adjusted_curve_alone() {
    let mut random = Random::new(605);
    let mut counts = PostCounts::default();
    let mut without = 0;
    for _ in 0..1_500 {
        let bytes = typed_adjusted_sheet(&mut random, 0);
        let number = refusal(&bytes).map_or(0, |ground| ground.0);
        counts.count(&bytes, number);
        // The same sheet without an adjustment is then accepted.
        if let (Ok(sheet), 8 | 10) = (Sheet::read(&bytes), number) {
            let plain = Sheet {
                adjustment: None,
                ..sheet
            };
            without += u64::from(worked(&plain).is_some());
        }
    }
    let alone: u64 = Alone::ALL
        .map(|alone| counts.adjusted.refused_alone(alone))
        .iter()
        .sum();
    assert_eq!(alone, without);
    assert!(alone > 150, "{}", counts.adjusted);
}

#[test]
fn seeded_kinds_name_their_curve() {
    let mut random = Random::new(606);
    for which in Which::ALL {
        let kinds: Vec<u64> = (0..600).map(|_| page_kind(&mut random, which)).collect();
        assert!(kinds.iter().all(|&kind| Which::named_by(kind) == which));
        for others in [0, 2, 1 << 32, u64::MAX - 3, u64::MAX - 1] {
            assert!(kinds.contains(&(others + which as u64)), "{others:x}");
        }
    }
}
