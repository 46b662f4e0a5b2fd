//! The shift that meets a target: figures by hand, both ends, the first of several, the high at the
//! target, every quote moved and nothing else, checks 3 and 7 to 10 of shifted sheets of every
//! market, the grounds in their turn, and seeded sheets, lists and targets against a search of all
//! 1,001 sheets' bytes.

mod common;

use common::{flat, level, november, steep, zero, Numbers};
use reference::book::{Book, LARGEST_AGE_LIMIT, PAGE_LENGTH};
use reference::curve::Which;
use reference::refusal::Refusal;
use reference::shift::{shift, shift_by};
use reference::shifts::{narrow, refused_at_once, wide, Asked, Meeting, Shifts};
use reference::streams::Random;
use reference::valuation::{flows_of, Flow};

/// U, and an entry's largest number of cents.
const MOST: u64 = 1_000_000_000;

/// A target that every block meets.
const ANY: u64 = u64::MAX;

/// U cents of a year cost its factor's high.
fn year(year: u64) -> Vec<Flow> {
    vec![Flow { year, cents: MOST }]
}

/// A list by hand.
fn list<const N: usize>(entries: [(u64, u64); N]) -> Vec<Flow> {
    let flow = |(year, cents)| Flow { year, cents };
    entries.map(flow).to_vec()
}

/// The shift, or number and place of the ground.
fn found(numbers: &Numbers, flows: &[Flow], target: u64) -> Result<i16, (u8, u16)> {
    let refused = |refusal: Refusal| (refusal.number, refusal.place);
    shift(&numbers.bytes(), flows, target).map_err(refused)
}

/// No shift does.
const NONE: Result<i16, (u8, u16)> = Err((23, 0));

/// The bytes of a sheet, which has a rate in each record of hex 02, with every rate moved.
fn moved_bytes(sheet: &[u8], shift: i16) -> Vec<u8> {
    let mut bytes = sheet.to_vec();
    let mut at = if sheet[0] == 0x08 { 5 } else { 3 };
    while bytes[at] == 0x02 {
        let rate = i16::from_be_bytes([bytes[at + 2], bytes[at + 3]]) + shift;
        bytes[at + 2..at + 4].copy_from_slice(&rate.to_be_bytes());
        at += 4;
    }
    bytes
}

/// The plain page of the sheet, or why it is refused, in a fresh book that was told the last month.
fn page_of(sheet: &[u8]) -> Result<[u8; PAGE_LENGTH], Refusal> {
    let mut book = Book::new(LARGEST_AGE_LIMIT);
    assert_eq!(book.turn(2_399), Ok(2_399));
    book.post(sheet)?;
    let mut page = [0; PAGE_LENGTH];
    assert_eq!(book.page(Which::Plain, &mut page), Ok(()));
    Ok(page)
}

/// The highs of the entries in billionths of a cent, in the order of the list.
fn cost(page: &[u8; PAGE_LENGTH], flows: &[Flow]) -> u128 {
    let mut sum = 0;
    for flow in flows {
        let at = 5 + 10 * (flow.year as usize - 1) + 6;
        let high = u32::from_be_bytes(page[at..at + 4].try_into().unwrap());
        sum += u128::from(flow.cents) * u128::from(high);
    }
    sum
}

/// What the block costs at this shift, in whole cents, or the ground of the shifted sheet.
fn high_at(numbers: &Numbers, shift: i16, flows: &[Flow]) -> Result<u64, u8> {
    let page = page_of(&moved_bytes(&numbers.bytes(), shift)).map_err(|refusal| refusal.number)?;
    Ok(cost(&page, flows).div_ceil(u128::from(MOST)) as u64)
}

/// The first of all shifts that meets the target, worked from bytes alone. A cost is rounded up to
/// at most the target exactly where it is at most the target before.
fn searched(sheet: &[u8], flows: &[Flow], target: u64) -> Option<i16> {
    (-500..=500).find(|&shift| {
        let page = page_of(&moved_bytes(sheet, shift));
        page.is_ok_and(|page| cost(&page, flows) <= u128::from(target) * u128::from(MOST))
    })
}

// By hand

#[test]
fn year_1_by_hand() {
    // Its high is 100,000 U / (103,000 + s), rounded up.
    let costs = |shift: i16| 100_000_000_000_000_u64.div_ceil((103_000 + i64::from(shift)) as u64);
    assert_eq!((costs(-500), costs(0)), (975_609_757, 970_873_787));
    assert_eq!((costs(1), costs(500)), (970_864_361, 966_183_575));
    for profile in [2, 3] {
        let numbers = level().of_profile(profile);
        for shift in [-500, -499, -400, 0, 499, 500] {
            assert_eq!(found(&numbers, &year(1), costs(shift)), Ok(shift));
            // One cent less is met one step later.
            let later = if shift < 500 { Ok(shift + 1) } else { NONE };
            assert_eq!(found(&numbers, &year(1), costs(shift) - 1), later);
        }
    }
    for (target, expected) in [
        (975_609_757, Ok(-500)),
        (975_609_756, Ok(-499)),
        (970_873_787, Ok(0)),
        (970_873_786, Ok(1)),
        (966_183_575, Ok(500)),
        (966_183_574, NONE),
    ] {
        assert_eq!(found(&level(), &year(1), target), expected, "{target}");
    }
}

#[test]
fn at_rates_of_0_a_block_costs_its_cents() {
    // With this limit no other shift passes, the sheet itself on 10.
    let only = |rate: i16| Numbers {
        limit: 1,
        ..flat(rate)
    };
    let block = list([(1, 7), (150, 5), (75, 3), (150, 1)]);
    for (rate, profile) in [(490, 1), (-490, 2), (0, 3), (500, 2), (-500, 3), (300, 2)] {
        let numbers = only(rate).of_profile(profile);
        assert_eq!(found(&numbers, &block, 16), Ok(-rate), "{rate}");
        assert_eq!(found(&numbers, &block, ANY), Ok(-rate), "{rate}");
        assert_eq!(found(&numbers, &block, 15), NONE, "{rate}");
    }
    for rate in [501, -501] {
        assert_eq!(found(&only(rate).of_profile(2), &block, ANY), NONE);
    }
}

// The smallest of -500 to 500

#[test]
fn the_range_ends_at_500_on_both_sides() {
    let numbers = level().of_profile(3);
    let block = list([(1, 10), (15, MOST), (150, MOST)]);
    let high = |shift| high_at(&numbers, shift, &block).unwrap();
    // Shifts past the ends would do, and are not tried.
    assert!(high(-501) > high(-500) && high(500) > high(501));
    assert_eq!(found(&numbers, &block, high(-501)), Ok(-500));
    assert_eq!(found(&numbers, &block, high(-500)), Ok(-500));
    assert_eq!(found(&numbers, &block, high(500)), Ok(500));
    assert_eq!(found(&numbers, &block, high(500) - 1), NONE);
    assert_eq!(found(&numbers, &block, high(501)), NONE);
}

/// As the rate rises from -0.5% to 0.5%, X lets the convergence factor fall from 20% to 10%: the
/// far higher ultimate rate is reached later, so that late years cost more.
fn turning(rate: i16) -> Numbers {
    Numbers {
        ufr: 10_000,
        ..flat(rate)
    }
    .with_x(20_000)
    .of_profile(2)
}

#[test]
fn the_smallest_is_found_where_later_ones_cost_more() {
    let numbers = turning(300);
    let high = |shift| high_at(&numbers, shift, &year(60)).unwrap();
    let [first, middle, highest, last] = [-500, 0, 200, 500].map(high);
    assert!(first < middle && middle < last && last < highest);
    for target in [first, middle, last, highest, highest + 1] {
        assert_eq!(found(&numbers, &year(60), target), Ok(-500));
    }
    assert_eq!(found(&numbers, &year(60), first - 1), NONE);
}

#[test]
fn the_smallest_is_found_where_only_the_middle_is_met() {
    let numbers = turning(-600);
    let flows = year(60);
    let costs: Vec<u64> = (-500..=500)
        .map(|shift| high_at(&numbers, shift, &flows).unwrap())
        .collect();
    let least = *costs.iter().min().unwrap();
    let at = costs.iter().position(|&cost| cost == least).unwrap() as i16 - 500;
    assert!((-300..300).contains(&at) && costs[0] > least && costs[1_000] > least);
    assert_eq!(found(&numbers, &flows, least), Ok(at));
    assert_eq!(found(&numbers, &flows, least - 1), NONE);
    // From the target of the last on, the smallest lies far before it.
    let first = costs.iter().position(|&cost| cost <= costs[1_000]).unwrap() as i16 - 500;
    assert!(first < at);
    assert_eq!(found(&numbers, &flows, costs[1_000]), Ok(first));
}

#[test]
fn sheets_may_pass_fail_and_pass_again() {
    // The widest band comes and goes by a few billionths from shift to shift.
    let numbers = Numbers {
        limit: 207,
        ..level()
    }
    .of_profile(2);
    let passes: Vec<bool> = (-500..=500)
        .map(|shift| high_at(&numbers, shift, &year(1)).is_ok())
        .collect();
    let changes = passes.windows(2).filter(|pair| pair[0] != pair[1]).count();
    assert!(changes > 100, "{changes}");
    let after = |from: i16| {
        let mut later = passes.iter().skip((from + 500) as usize);
        from + later.position(|&passes| passes).unwrap() as i16
    };
    for shift in [-500, -400, -300, -200, -100, 0] {
        let expected = after(shift);
        let target = 100_000_000_000_000_u64.div_ceil((103_000 + i64::from(shift)) as u64);
        assert_eq!(found(&numbers, &year(1), target), Ok(expected));
    }
}

#[test]
fn the_smallest_is_not_the_nearest_to_0() {
    for numbers in [level(), level().of_profile(2), november()] {
        assert_eq!(found(&numbers, &year(20), ANY), Ok(-500));
    }
    assert_eq!(found(&level(), &list([(1, 0), (150, 0)]), 0), Ok(-500));
}

// The block's high is at most the target

#[test]
fn the_high_counts() {
    // A cent of year 1 is worth 0 to 1 at every shift, and one of year 150 too.
    for flows in [list([(1, 1)]), list([(150, 1)])] {
        let numbers = level().of_profile(2);
        assert_eq!(found(&numbers, &flows, 0), NONE);
        assert_eq!(found(&numbers, &flows, 1), Ok(-500));
    }
    // U cents of year 150 are 10 to 40 cents apart from low to high.
    let numbers = level().of_profile(3);
    let page = page_of(&numbers.bytes()).unwrap();
    let number = |at: usize| u32::from_be_bytes(page[at..at + 4].try_into().unwrap());
    let (low, high) = (u64::from(number(1_497)), u64::from(number(1_501)));
    assert!(low + 5 < high);
    assert_eq!(found(&numbers, &year(150), high), Ok(0));
    for target in [low, low + 1, high - 1] {
        assert_eq!(found(&numbers, &year(150), target), Ok(1), "{target}");
    }
}

#[test]
fn the_high_is_rounded_once() {
    let numbers = level().of_profile(2);
    // Three cents of year 20 cost 1.6 to 1.8, and 3 where each is rounded.
    let three = list([(20, 1), (20, 1), (20, 1)]);
    assert_eq!(found(&numbers, &three, 2), Ok(-500));
    assert_eq!(found(&numbers, &three, 1), NONE);
    // A thousand of year 1 cost from 975.61 to 966.18. They cost 971 at 100,000 / 0.971 = 102,987.
    let thousand = vec![Flow { year: 1, cents: 1 }; 1_000];
    for (target, expected) in [(976, Ok(-500)), (971, Ok(-13)), (967, Ok(413)), (966, NONE)] {
        assert_eq!(found(&numbers, &thousand, target), expected, "{target}");
    }
}

#[test]
fn targets_of_every_size() {
    let numbers = level().of_profile(2);
    // More than 32 bits of cents, and more than 64 of billionths.
    let largest = vec![
        Flow {
            year: 1,
            cents: MOST
        };
        1_000
    ];
    for shift in [-500, 0, 500] {
        let high = high_at(&numbers, shift, &largest).unwrap();
        assert!(high > 1 << 39);
        assert_eq!(found(&numbers, &largest, high), Ok(shift));
        let later = if shift < 500 { Ok(shift + 1) } else { NONE };
        assert_eq!(found(&numbers, &largest, high - 1), later);
        // The same in the low 32 bits.
        assert_eq!(found(&numbers, &largest, high % (1 << 32)), NONE);
        assert_eq!(found(&numbers, &largest, high + (1 << 40)), Ok(-500));
    }
    let low_bits = [1 << 32, 1 << 40, 1 << 63, (1 << 63) - 1, ANY - 1, ANY];
    for target in low_bits {
        assert_eq!(found(&numbers, &year(1), target), Ok(-500), "{target}");
    }
    for target in [0, 1, MOST / 2] {
        assert_eq!(found(&numbers, &year(1), target), NONE, "{target}");
    }
}

// Added to every quote, and to nothing else

/// Sheets of every market and with every optional record.
fn sheets() -> Vec<Numbers> {
    let mut untraded = november();
    untraded.volumes = [14, 0, 40, 0, 8];
    vec![
        november(),
        untraded,
        november().with_x(20_000),
        november().adjusted(-100),
        november().of_profile(1).with_x(13_000).adjusted(7),
        november().of_profile(2),
        november().of_profile(2).with_x(20_000),
        november().of_profile(3),
        level().of_profile(3).with_x(17_000),
        steep(0),
    ]
}

#[test]
fn a_sheet_moved_by_hand_has_its_shift_moved_back() {
    let block = list([(1, 3), (11, MOST), (16, MOST), (21, MOST), (60, MOST)]);
    for (numbers, by) in sheets()
        .into_iter()
        .zip([-400, -470, -480, -460].iter().cycle())
    {
        let target = high_at(&numbers, *by, &block).unwrap();
        let expected = found(&numbers, &block, target).unwrap();
        let mut moved = numbers.clone();
        moved.rates = numbers.rates.map(|rate| rate - 20);
        let bytes = moved_bytes(&numbers.bytes(), -20);
        assert_eq!(moved.bytes(), bytes);
        assert_eq!(found(&moved, &block, target), Ok(expected + 20));
    }
}

#[test]
fn every_quote_is_moved() {
    // Were one left where it is, the shift that takes all rates to 0 would not make all factors U.
    let every_year: Vec<Flow> = (1..=50).flat_map(year).collect();
    let cents = 50 * MOST;
    for (profile, quotes) in [(1, 13..15), (2, 0..10), (3, 9..12)] {
        let numbers = Numbers {
            limit: 1,
            ..flat(480)
        }
        .of_profile(profile);
        assert_eq!(found(&numbers, &every_year, cents), Ok(-480));
        // With one a little lower no shift does: years cost more than their cents, or are too wide.
        for quote in quotes {
            let mut off = numbers.clone();
            off.rates[quote] -= 1;
            assert_eq!(found(&off, &every_year, cents), NONE, "{quote}");
        }
    }
}

#[test]
fn ultimate_rate_limit_and_adjustment_stay() {
    // At rates of 0 the ultimate rate shows alone: were it moved, year 150 would be U.
    let numbers = Numbers {
        ufr: 480,
        ..flat(480)
    }
    .of_profile(3);
    let cost = high_at(&zero_with_ufr(480).of_profile(3), 0, &year(150)).unwrap();
    assert_eq!(found(&numbers, &year(150), cost), Ok(-480));
    assert_eq!(high_at(&numbers, -480, &year(150)), Ok(cost));
    // Were an adjustment of 500 moved by -500, it would be 0, and one of -500 out of its range.
    for adjustment in [500, 0, -500] {
        let numbers = level().adjusted(adjustment);
        assert_eq!(found(&numbers, &year(20), ANY), Ok(-500));
    }
    // X is at the ends of its range.
    for x in [10_000, 20_000] {
        assert_eq!(found(&level().with_x(x), &year(20), ANY), Ok(-500));
    }
}

fn zero_with_ufr(ufr: u16) -> Numbers {
    Numbers { ufr, ..zero() }
}

#[test]
fn the_convergence_follows_the_moved_rate() {
    // At 5% and more X has no effect, and below it has.
    for profile in [2, 3] {
        let numbers = Numbers {
            ufr: 5_000,
            ..flat(600)
        }
        .of_profile(profile);
        let with = numbers.clone().with_x(20_000);
        let high = |numbers: &Numbers, shift| high_at(numbers, shift, &year(60)).unwrap();
        assert_eq!(high(&with, -100), high(&numbers, -100));
        assert_ne!(high(&with, -101), high(&numbers, -101));
        // With it the years past smoothing cost less, the lower the rates are.
        assert_eq!(found(&with, &year(60), high(&numbers, -500)), Ok(-500));
        let target = high(&with, -500);
        assert_eq!(found(&with, &year(60), target), Ok(-500));
        assert_ne!(found(&numbers, &year(60), target), Ok(-500));
    }
}

// Check 3 of the shifted sheet

/// The sheet that ends at year 20, so that its later quotes are all dropped.
fn to_20(rate: i16) -> Numbers {
    Numbers {
        volumes: [1, 0, 0, 0, 0],
        ufr: 4_000,
        ..flat(rate)
    }
}

#[test]
fn no_rate_is_moved_below_its_range() {
    for profile in [1, 2, 3] {
        for (rate, expected) in [(-2_000, 0), (-1_990, -10), (-1_501, -499), (-1_500, -500)] {
            let numbers = to_20(rate).of_profile(profile);
            assert_eq!(found(&numbers, &year(20), ANY), Ok(expected));
        }
        // Each quote by itself holds it, those that are dropped too.
        let quotes = [17, 10, 12][usize::from(profile) - 1];
        for quote in 0..quotes {
            let mut numbers = to_20(-1_700).of_profile(profile);
            numbers.rates[quote] = -1_990;
            assert_eq!(found(&numbers, &year(20), ANY), Ok(-10), "{quote}");
        }
        // Those that the market does not quote do not.
        let mut numbers = to_20(-1_500).of_profile(profile);
        numbers.rates[quotes..].fill(-2_000);
        assert_eq!(found(&numbers, &year(20), ANY), Ok(-500));
    }
}

#[test]
fn no_rate_is_moved_above_its_range() {
    for profile in [2, 3] {
        for (rate, last) in [(12_000, 0), (11_999, 1), (11_501, 499), (11_500, 500)] {
            let numbers = to_20(rate).of_profile(profile);
            let high = high_at(&numbers, last, &year(7)).unwrap();
            assert_eq!(found(&numbers, &year(7), high), Ok(last));
            assert_eq!(found(&numbers, &year(7), high - 1), NONE);
        }
        for quote in [0, 4, 9] {
            let mut numbers = to_20(11_700).of_profile(profile);
            numbers.rates[quote] = 11_900;
            let high = high_at(&numbers, 100, &year(7)).unwrap();
            assert_eq!(found(&numbers, &year(7), high), Ok(100), "{quote}");
            assert_eq!(found(&numbers, &year(7), high - 1), NONE, "{quote}");
        }
    }
}

#[test]
fn a_dropped_quote_is_moved_and_tested_too() {
    let ends = |at: u8, low: i16, other: u8, high: i16| {
        let mut numbers = level().with_rate(at, low).with_rate(other, high);
        for (index, maturity) in [20, 25, 30, 40, 50].into_iter().enumerate() {
            numbers.volumes[index] = u32::from(![at, other].contains(&maturity));
        }
        numbers
    };
    for (at, other) in [(25, 30), (50, 25), (40, 50), (30, 40)] {
        let numbers = ends(at, -1_993, other, 11_995);
        let high = |shift| high_at(&numbers, shift, &year(60));
        assert_eq!((high(-8), high(6)), (Err(3), Err(3)));
        assert_eq!(found(&numbers, &year(60), ANY), Ok(-7));
        assert_eq!(found(&numbers, &year(60), high(-7).unwrap()), Ok(-7));
        assert_eq!(found(&numbers, &year(60), high(5).unwrap()), Ok(5));
        assert_eq!(found(&numbers, &year(60), high(5).unwrap() - 1), NONE);
        let still = ends(at, -2_000, other, 12_000);
        assert_eq!(found(&still, &year(60), ANY), Ok(0));
        let high = high_at(&still, 0, &year(60)).unwrap();
        assert_eq!(found(&still, &year(60), high - 1), NONE);
    }
}

// Checks 7 to 10 of the shifted sheet

/// Sheets that fail this check unshifted, and pass it from some shift on, or up to one.
fn failing() -> Vec<(u8, Numbers)> {
    let tenth = Numbers {
        ufr: 10_000,
        ..flat(3_000).with_rate(10, 1_811)
    };
    let mut vanishing = flat(20);
    vanishing.rates[9..].fill(11_131);
    vec![
        (7, vanishing.of_profile(3)),
        (8, flat(-1_600)),
        (9, tenth.of_profile(2)),
        (
            10,
            Numbers {
                limit: 1,
                ..flat(400)
            },
        ),
    ]
}

#[test]
fn the_unshifted_sheet_may_fail_each_of_7_to_10() {
    for (ground, numbers) in failing() {
        assert_eq!(high_at(&numbers, 0, &year(1)), Err(ground));
        let first = searched(&numbers.bytes(), &year(1), ANY);
        assert!(first.is_some(), "{ground}");
        assert_eq!(found(&numbers, &year(1), ANY).ok(), first, "{ground}");
    }
}

#[test]
fn a_shift_that_fails_a_check_meets_no_target() {
    // Of the one that fails 7 from -19 on all later shifts would cost less.
    let (_, vanishing) = &failing()[0];
    assert_eq!(high_at(vanishing, -19, &year(1)), Err(7));
    let last = high_at(vanishing, -20, &year(1)).unwrap();
    assert_eq!(found(vanishing, &year(1), last), Ok(-20));
    assert_eq!(found(vanishing, &year(1), last - 1), NONE);
}

#[test]
fn where_every_shift_fails_there_is_none() {
    let mut ninth = zero();
    ninth.rates[..9].fill(-1_000);
    ninth.rates[9..].fill(12_000);
    let narrow = Numbers {
        limit: 1,
        ..flat(5_000)
    };
    for (ground, numbers) in [
        (7, ninth.clone()),
        (7, ninth.of_profile(2)),
        (8, flat(-2_000)),
        (9, flat(3_000).with_rate(12, 12_000)),
        (9, flat(3_000).with_rate(10, 5_500).of_profile(2)),
        (10, narrow.of_profile(3)),
    ] {
        assert_eq!(high_at(&numbers, 0, &year(1)), Err(ground));
        assert_eq!(found(&numbers, &year(1), ANY), NONE, "{ground}");
        assert_eq!(found(&numbers, &year(1), 0), NONE, "{ground}");
    }
}

/// Rates of -1.97% to 20 years and rising ones beyond, with nearly all weight on the forward of
/// 15-20: the adjusted curve passes 2 U where the plain one does not.
fn next_to_2_u() -> Numbers {
    let later = [(25, -1_820), (30, -1_670), (40, -1_470), (50, -1_370)];
    let numbers = later
        .into_iter()
        .fold(flat(-1_970), |numbers, (maturity, rate)| {
            numbers.with_rate(maturity, rate)
        });
    Numbers {
        volumes: [1_000_000, 1, 1, 1, 1],
        ..numbers
    }
}

#[test]
fn the_adjusted_curve_must_pass_too() {
    let plain = next_to_2_u();
    let adjusted = plain.clone().adjusted(-500);
    let first = found(&plain, &year(1), ANY).unwrap();
    let later = found(&adjusted, &year(1), ANY).unwrap();
    assert!(-30 <= first && first < later, "{first}, {later}");
    assert_eq!(high_at(&adjusted, later - 1, &year(1)), Err(8));
    assert!(high_at(&plain, later - 1, &year(1)).is_ok());
    assert_eq!(searched(&adjusted.bytes(), &year(1), ANY), Some(later));
    // Within the widest band of the plain curve the adjusted one is wider.
    let widest = |numbers: &Numbers| {
        let page = page_of(&numbers.bytes()).unwrap();
        let number = |at: usize| u32::from_be_bytes(page[at..at + 4].try_into().unwrap());
        let widths = (0..150).map(|year| number(11 + 10 * year) - number(7 + 10 * year));
        widths.max().unwrap()
    };
    let limit = widest(&level());
    let within = Numbers { limit, ..level() };
    assert_eq!(high_at(&within, 0, &year(1)), Ok(970_873_787));
    let both = within.adjusted(-500);
    assert_eq!(high_at(&both, 0, &year(1)), Err(10));
    assert_ne!(found(&both, &year(1), 970_873_787), Ok(0));
}

#[test]
fn the_block_is_valued_on_the_plain_curve() {
    let block = list([(5, MOST), (20, MOST), (60, MOST)]);
    for shift in [-490, -480] {
        let target = high_at(&level(), shift, &block).unwrap();
        for adjustment in [-500, -1, 0, 1, 500] {
            let numbers = level().adjusted(adjustment);
            assert_eq!(found(&numbers, &block, target), Ok(shift), "{adjustment}");
        }
    }
}

// The book is not consulted

#[test]
fn no_month_is_too_late() {
    for profile in [2, 3] {
        for month in [0, 1, 2_398, 2_399] {
            let numbers = Numbers { month, ..level() }.of_profile(profile);
            assert_eq!(found(&numbers, &year(1), 970_873_787), Ok(0));
        }
        let numbers = Numbers {
            month: 2_400,
            ..level()
        };
        assert_eq!(found(&numbers, &year(1), ANY), Err((3, 1)));
        assert_eq!(
            found(&numbers.of_profile(profile), &year(1), ANY),
            Err((3, 2))
        );
    }
}

// Grounds

/// Sheets with the ground that is against them.
fn wrong_sheets() -> Vec<(Vec<u8>, (u8, u16))> {
    [wrong_forms(), wrong_numbers()].concat()
}

fn untraded() -> Numbers {
    Numbers {
        volumes: [0; 5],
        ..level()
    }
}

/// Grounds 19, 1 and 2, some of them before later ones.
fn wrong_forms() -> Vec<(Vec<u8>, (u8, u16))> {
    let with = |at: usize, byte: u8, numbers: Numbers| {
        let mut bytes = numbers.bytes();
        bytes[at] = byte;
        bytes
    };
    let unknown = level().of_profile(9).bytes();
    let unfit = level().of_profile(2).with_x(9_999).adjusted(1);
    vec![
        (unknown.clone(), (19, 0)),
        (unknown[..50].to_vec(), (19, 0)),
        (vec![0x08, 0], (19, 0)),
        (vec![], (1, 0)),
        (vec![0x08], (1, 0)),
        (vec![0x08, 2], (1, 0)),
        (untraded().bytes()[1..].to_vec(), (1, 0)),
        ([level().bytes(), vec![0; 256]].concat(), (1, 0)),
        ([level().bytes(), vec![0; 1 << 16]].concat(), (1, 0)),
        (unfit.bytes(), (1, 0)),
        (with(68, 51, untraded().with_rate(1, 12_001)), (2, 18)),
        (with(0, 7, level()), (2, 1)),
    ]
}

/// Grounds 3 and 4, some of them before later ones.
fn wrong_numbers() -> Vec<(Vec<u8>, (u8, u16))> {
    let failing = Numbers {
        rates: [-2_000; 17],
        ..untraded()
    };
    vec![
        (level().with_rate(1, 12_001).bytes(), (3, 2)),
        (level().with_rate(50, -2_001).bytes(), (3, 18)),
        (untraded().with_rate(10, 12_500).bytes(), (3, 11)),
        (level().with_rate(10, 12_001).of_profile(2).bytes(), (3, 12)),
        (level().with_x(20_001).bytes(), (3, 26)),
        (level().adjusted(501).bytes(), (3, 26)),
        (untraded().bytes(), (4, 0)),
        (untraded().of_profile(2).bytes(), (4, 0)),
        (failing.bytes(), (4, 0)),
    ]
}

/// Lists with the ground that is against them.
fn wrong_lists() -> Vec<(Vec<Flow>, (u8, u16))> {
    let alike = |count: usize, year, cents| vec![Flow { year, cents }; count];
    vec![
        (vec![], (20, 0)),
        (alike(1_001, 0, MOST + 1), (20, 0)),
        (list([(0, MOST + 1)]), (21, 1)),
        (list([(1, 1), (151, 1), (1, MOST + 1)]), (21, 2)),
        (list([(1, 1), (1, MOST + 1), (0, 1)]), (22, 2)),
        (list([(1, 1), (2, 2), (u64::MAX, 1)]), (21, 3)),
    ]
}

#[test]
fn the_sheet_comes_before_the_list_and_the_list_before_23() {
    let mut good: Vec<Vec<u8>> = sheets().iter().map(Numbers::bytes).collect();
    // 7 to 10 are no grounds of the sheet as it is.
    good.extend(failing().iter().map(|(_, numbers)| numbers.bytes()));
    good.push(flat(-2_000).bytes());
    for target in [0, 970_873_787, ANY] {
        let ground = |sheet: &[u8], flows: &[Flow]| {
            let refusal = shift(sheet, flows, target).unwrap_err();
            (refusal.number, refusal.place)
        };
        for (sheet, of_sheet) in wrong_sheets() {
            assert_eq!(ground(&sheet, &year(1)), of_sheet);
            for (flows, _) in wrong_lists() {
                assert_eq!(ground(&sheet, &flows), of_sheet);
            }
        }
        for sheet in &good {
            for (flows, of_list) in wrong_lists() {
                assert_eq!(ground(sheet, &flows), of_list);
            }
        }
    }
}

#[test]
fn a_rate_out_of_its_range_is_refused_even_if_a_shift_would_bring_it_back() {
    let block = list([(1, 0)]);
    for (rate, expected) in [
        (-2_001, Err((3, 3))),
        (-2_000, Ok(0)),
        (12_000, Ok(-500)),
        (12_001, Err((3, 3))),
        (12_400, Err((3, 3))),
        (-2_499, Err((3, 3))),
    ] {
        let numbers = flat(rate).of_profile(2);
        assert_eq!(found(&numbers, &block, 0), expected, "{rate}");
    }
}

#[test]
fn a_list_is_as_for_a_valuation() {
    let sheet = level().of_profile(2).bytes();
    let numbers = vec![1; 2_003];
    for count in [0, 1, 2, 3, 4, 1_999, 2_000, 2_001, 2_002, 2_003] {
        let list = count % 2 == 0 && (2..=2_000).contains(&count);
        let expected = if list { Ok(-500) } else { Err(20) };
        let answer = shift_by(&sheet, &numbers[..count], ANY);
        assert_eq!(answer.map_err(Refusal::code), expected, "{count}");
    }
    for place in [1, 255, 256, 999, 1_000] {
        let mut flows = vec![
            Flow {
                year: 150,
                cents: MOST
            };
            1_000
        ];
        flows[place - 1].year = 151;
        assert_eq!(shift(&sheet, &flows, ANY), Err(Refusal::at(21, place)));
        flows[place - 1] = Flow {
            year: 1,
            cents: MOST + 1,
        };
        assert_eq!(shift(&sheet, &flows, ANY), Err(Refusal::at(22, place)));
        flows[place - 1].cents = MOST;
        assert_eq!(shift(&sheet, &flows, ANY), Ok(-500));
    }
}

#[test]
fn the_ground_in_words() {
    let refusal = shift(&level().of_profile(2).bytes(), &year(1), 0).unwrap_err();
    assert_eq!((refusal, refusal.code()), (Refusal::plain(23), 23));
    assert_eq!(
        refusal.reason(),
        "no shift from -500 to 500 meets the target"
    );
}

// Any sheet, list and target

/// How questions of a sort are drawn.
type Draw = fn(&mut Random) -> Asked;

/// Asserts that the answer is the one that the search of all shifts has.
fn assert_searched(asked: &Asked) {
    let expected = searched(&asked.sheet, &flows_of(&asked.numbers), asked.target);
    let answer = asked.answer().map_err(Refusal::code);
    assert_eq!(answer, expected.ok_or(23), "{asked:?}");
}

#[test]
fn each_sort_of_sheet_has_the_shift_that_a_search_finds() {
    let block = list([
        (1, 3),
        (7, MOST),
        (16, 5),
        (20, MOST),
        (33, MOST),
        (150, MOST),
    ]);
    for (numbers, near) in sheets()
        .into_iter()
        .zip([-480, -300, -470, -450, -490].iter().cycle())
    {
        let high = high_at(&numbers, *near, &block).unwrap();
        for target in [high, high - 1] {
            let expected = searched(&numbers.bytes(), &block, target);
            assert!(expected.is_some());
            assert_eq!(found(&numbers, &block, target).ok(), expected);
        }
    }
}

#[test]
fn narrow_questions_are_answered_as_the_search_does() {
    let mut random = Random::new(1_201);
    for _ in 0..100 {
        assert_searched(&narrow(&mut random));
    }
}

#[test]
fn wide_questions_are_answered_as_the_search_does() {
    let mut random = Random::new(1_202);
    for _ in 0..24 {
        assert_searched(&wide(&mut random));
    }
}

#[test]
fn a_larger_target_is_met_no_later_and_more_cents_no_earlier() {
    let mut random = Random::new(1_203);
    let after = |answer: Result<i16, Refusal>| answer.unwrap_or(501);
    for _ in 0..60 {
        let asked = narrow(&mut random);
        let answer = after(asked.answer());
        let mut larger = asked.clone();
        larger.target = asked.target.saturating_add(random.below(1_000_000));
        assert!(after(larger.answer()) <= answer, "{asked:?}");
        let mut more = asked.clone();
        more.numbers[1] = MOST;
        assert!(after(more.answer()) >= answer, "{asked:?}");
    }
}

#[test]
fn seeded_shifts_meet_everything() {
    let mut random = Random::new(1_204);
    let mut met = Shifts::default();
    let mut grounds = [0; 24];
    let sorts: [(Draw, u64); 3] = [(refused_at_once, 600), (narrow, 120), (wide, 36)];
    for (draw, count) in sorts {
        for _ in 0..count {
            let asked = draw(&mut random);
            let answer = asked.answer();
            grounds[usize::from(answer.map_or_else(|refusal| refusal.number, |_| 0))] += 1;
            met.count(&asked, answer);
        }
    }
    assert_eq!(met.check(), Ok(()), "{met}");
    for (number, times) in (0..).zip(grounds) {
        let due = [0, 1, 2, 3, 4, 19, 20, 21, 22, 23].contains(&number);
        assert_eq!(times > 0, due, "{number}: {times}");
    }
}

#[test]
fn what_was_not_met_is_told() {
    let mut met = Shifts::default();
    assert_eq!(met.check(), Err("no shift was found at -500".to_string()));
    let mut asked = Asked {
        sheet: level().of_profile(2).bytes(),
        numbers: vec![1, MOST],
        target: 970_873_787,
    };
    met.count(&asked, asked.answer());
    let zero = [Meeting::Zero, Meeting::Equal, Meeting::OfAMarket(2)];
    assert_eq!(zero.map(|meeting| met.of(meeting)), [1; 3]);
    assert_eq!(met.of(Meeting::NotByHalving), 0);
    asked.target = 0;
    met.count(&asked, asked.answer());
    assert_eq!(met.of(Meeting::TooDear), 1);
    asked.numbers = vec![];
    met.count(&asked, asked.answer());
    assert_eq!(met.of(Meeting::ListFirst), 1);
    assert!(met.check().is_err());
}
