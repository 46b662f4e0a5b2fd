//! Values of blocks of policies: figures by hand, grounds 20 to 22 at their limits and in their
//! turn, one rounding at the end, the plain curve alone, the curve's dating, and the true curve's
//! value between low and high; on sheets of every market and on seeded journals and lists.

mod common;

use common::{book_of, flat, level, november, read, steep, zero, Numbers};
use reference::accepted::Count;
use reference::bigint::BigInt;
use reference::blocks::{block, numbers, Meeting, Valuations};
use reference::book::{Book, LARGEST_AGE_LIMIT, PAGE_LENGTH};
use reference::curve::{Curve, Curves, Which};
use reference::enclosure::{Enclosure, U};
use reference::journal::{book_after, calls, value_by};
use reference::market::Market;
use reference::questions::{journal, limits_around};
use reference::refusal::Refusal;
use reference::sheet::Sheet;
use reference::streams::Random;
use reference::true_value::check_values;
use reference::valuation::{flows_of, numbers_of, Flow, Valued};

/// An entry's largest number of cents.
const MOST: u64 = 1_000_000_000;

/// A list by hand.
fn list<const N: usize>(entries: [(u64, u64); N]) -> Vec<Flow> {
    let flow = |(year, cents)| Flow { year, cents };
    entries.map(flow).to_vec()
}

/// As many entries, all the same.
fn alike(count: usize, year: u64, cents: u64) -> Vec<Flow> {
    vec![Flow { year, cents }; count]
}

/// A list that no ground is against, with this entry at this place, from 1.
fn with_entry(count: usize, place: usize, year: u64, cents: u64) -> Vec<Flow> {
    let mut flows = alike(count, 20, 100);
    flows[place - 1] = Flow { year, cents };
    flows
}

/// Low and high of a value that is found.
fn ends(book: &Book, flows: &[Flow]) -> (i128, i128) {
    let amount = book.value(flows).expect("a value is found").amount;
    (amount.low, amount.high)
}

/// Number and place of the ground, 0 and 0 where there is none.
fn ground(book: &Book, flows: &[Flow]) -> (u8, u16) {
    let refused = book.value(flows).err();
    refused.map_or((0, 0), |refusal| (refusal.number, refusal.place))
}

/// Entry by entry in numbers of any size, with one quotient at the end.
fn worth(curve: &Curve, flows: &[Flow]) -> Enclosure {
    let (mut low, mut high) = (BigInt::zero(), BigInt::zero());
    for flow in flows {
        let factor = curve.factor(flow.year as usize);
        let cents = BigInt::from(i128::from(flow.cents));
        low = &low + &(&cents * &BigInt::from(factor.low));
        high = &high + &(&cents * &BigInt::from(factor.high));
    }
    let unit = BigInt::from(U);
    let whole = |number: BigInt| number.to_i128().expect("at most 2,000 U");
    Enclosure::new(whole(low.div_down(&unit)), whole(high.div_up(&unit)))
}

/// The values of the entries, each by itself, added up.
fn each_rounded(book: &Book, flows: &[Flow]) -> (i128, i128) {
    let each = flows.iter().map(|flow| ends(book, &[*flow]));
    each.fold((0, 0), |sum, value| (sum.0 + value.0, sum.1 + value.1))
}

/// Sheets of every sort that is accepted, of every market.
fn sheets() -> Vec<Numbers> {
    vec![
        zero(),
        level().adjusted(100),
        flat(-500).adjusted(-500),
        november().with_x(20_000),
        steep(0).adjusted(500),
        steep(10_000),
        level().of_profile(1).adjusted(-500),
        level().of_profile(2),
        flat(-300).of_profile(2).with_x(15_000),
        level().of_profile(3),
        november().of_profile(3).with_x(20_000),
    ]
}

// Worked by hand

#[test]
fn figures_of_the_flat_sheet() {
    let book = book_of(0, &level());
    let block = list([(1, 100), (2, 100), (20, 100_000)]);
    assert_eq!(ends(&book, &block), (55_558, 55_559));
    let largest = alike(1_000, 150, MOST);
    assert_eq!(ends(&book, &largest), (11_869_019_000, 11_869_083_000));
    assert_eq!(ground(&book, &list([(151, 10 * MOST)])), (21, 1));
    assert_eq!(ground(&book, &list([(1, 1), (2, MOST + 1)])), (22, 2));
    assert_eq!(ground(&book, &alike(1_001, 1, 1)), (20, 0));
}

#[test]
fn at_factors_of_one_a_block_is_worth_its_cents() {
    let book = book_of(0, &zero());
    for (flows, cents) in [
        (list([(1, 0)]), 0),
        (list([(1, 1)]), 1),
        (list([(150, 1), (1, 2), (75, 3)]), 6),
        (alike(1_000, 150, MOST), 1_000 * U),
        (
            (1..=150).map(|year| Flow { year, cents: year }).collect(),
            11_325,
        ),
    ] {
        assert_eq!(ends(&book, &flows), (cents, cents));
    }
}

#[test]
fn u_cents_are_worth_the_factor() {
    for numbers in sheets() {
        let curve = Curve::plain(&read(&numbers)).unwrap();
        let book = book_of(0, &numbers);
        for year in 1..=150 {
            let amount = book.value(&alike(1, year, MOST)).unwrap().amount;
            assert_eq!(amount, curve.factor(year as usize), "year {year}");
        }
    }
}

#[test]
fn three_percent_lies_between() {
    // The sum of cents × 1.03^-t is that of cents × 100^t × 103^(150 - t) over 103^150.
    let book = book_of(0, &level());
    let power = |base: i128, exponent| BigInt::from(base).pow(exponent);
    let mut random = Random::new(1_101);
    for _ in 0..50 {
        let flows = block(&mut random);
        let mut value = BigInt::zero();
        for flow in &flows {
            let year = flow.year as usize;
            let part = &power(100, year) * &power(103, 150 - year);
            value = &value + &(&BigInt::from(i128::from(flow.cents)) * &part);
        }
        let (low, high) = ends(&book, &flows);
        let over = |bound: i128| &BigInt::from(bound) * &power(103, 150);
        assert!(over(low) <= value && value <= over(high), "{flows:?}");
    }
}

#[test]
fn the_largest_values_need_more_than_64_bits_on_the_way() {
    // Year 150 of this sheet is 1,872,140,051 to 1,872,142,593.
    let falling = flat(2_000).with_rate(10, 1_100).of_profile(2);
    let book = book_of(0, &falling);
    let largest = alike(1_000, 150, MOST);
    assert_eq!(
        ends(&book, &largest),
        (1_872_140_051_000, 1_872_142_593_000)
    );
    // From 10 entries on the sum in billionths is past 64 bits.
    for count in [9, 10, 11] {
        let low = ends(&book, &alike(count, 150, MOST)).0;
        assert_eq!(low, count as i128 * 1_872_140_051);
        assert_eq!(u64::try_from(low * U).is_err(), count > 9);
    }
}

// Rounded once at the end

#[test]
fn lows_and_highs_are_rounded_once() {
    let book = book_of(0, &level());
    for (flows, value, each) in [
        // Three times 0.5537 of year 20.
        (alike(3, 20, 1), (1, 2), (0, 3)),
        // 0.0119 of year 150, of which the high is still a cent.
        (list([(150, 1)]), (0, 1), (0, 1)),
        // The same over several years: 0.9709 + 0.9426 + 0.9151, and 0.5874 + 0.5703 + 0.5537.
        (list([(1, 1), (2, 1), (3, 1)]), (2, 3), (0, 3)),
        (list([(18, 1), (19, 1), (20, 1)]), (1, 2), (0, 3)),
        // Only lows or only highs would differ.
        (list([(1, 1), (1, 1)]), (1, 2), (0, 2)),
        (list([(60, 1), (60, 1), (60, 1)]), (0, 1), (0, 3)),
        (alike(1_000, 1, 1), (970, 971), (0, 1_000)),
    ] {
        assert_eq!(ends(&book, &flows), value, "{flows:?}");
        assert_eq!(each_rounded(&book, &flows), each, "{flows:?}");
    }
}

#[test]
fn a_whole_end_is_left_as_it_is() {
    // Year 1 is 970,873,786 to 970,873,787: U cents make both ends whole, half of them the low,
    // and half of the high is rounded up.
    let book = book_of(0, &level());
    let whole = (970_873_786, 970_873_787);
    assert_eq!(ends(&book, &list([(1, MOST)])), whole);
    let half = MOST / 2;
    assert_eq!(ends(&book, &list([(1, half)])), (485_436_893, 485_436_894));
    assert_eq!(ends(&book, &list([(1, half), (1, half)])), whole);
    // One cent less takes both down by a cent; of year 2, 942,595,909 to 942,595,910, too.
    let less = (970_873_785, 970_873_787);
    assert_eq!(ends(&book, &list([(1, MOST - 1)])), less);
    assert_eq!(ends(&book, &list([(2, half)])), (471_297_954, 471_297_955));
}

// Limits

#[test]
fn a_list_has_1_to_1000_entries() {
    let book = book_of(0, &level());
    for (count, expected) in [
        (0, (20, 0)),
        (1, (0, 0)),
        (2, (0, 0)),
        (255, (0, 0)),
        (256, (0, 0)),
        (999, (0, 0)),
        (1_000, (0, 0)),
        (1_001, (20, 0)),
        (1_256, (20, 0)),
        (2_000, (20, 0)),
        (66_536, (20, 0)),
    ] {
        assert_eq!(ground(&book, &alike(count, 20, 1)), expected, "{count}");
    }
}

#[test]
fn a_year_is_1_to_150_wherever_it_stands() {
    let book = book_of(0, &level());
    for place in [1, 2, 500, 999, 1_000] {
        for year in [1, 2, 20, 21, 149, 150] {
            assert_eq!(ground(&book, &with_entry(1_000, place, year, 1)), (0, 0));
        }
        let low_bits = [256 + 20, (1 << 16) + 20, (1 << 32) + 20, (1 << 63) + 20];
        for year in [0, 151, 255, 256, u64::MAX].into_iter().chain(low_bits) {
            let expected = (21, place as u16);
            let flows = with_entry(1_000, place, year, 1);
            assert_eq!(ground(&book, &flows), expected, "year {year}");
        }
    }
}

#[test]
fn cents_are_0_to_the_limit_wherever_they_stand() {
    let book = book_of(0, &level());
    for place in [1, 2, 500, 999, 1_000] {
        for cents in [0, 1, MOST - 1, MOST] {
            assert_eq!(ground(&book, &with_entry(1_000, place, 1, cents)), (0, 0));
        }
        let low_bits = [(1 << 32) + 1, 1 << 40, 1 << 63];
        for cents in [MOST + 1, 10 * MOST, u64::MAX].into_iter().chain(low_bits) {
            let expected = (22, place as u16);
            let flows = with_entry(1_000, place, 1, cents);
            assert_eq!(ground(&book, &flows), expected, "{cents} cents");
        }
    }
    assert_eq!(ends(&book, &list([(1, 0)])), (0, 0));
}

#[test]
fn the_place_is_the_entry_from_1() {
    let book = book_of(0, &level());
    for place in 1..=1_000 {
        let year = with_entry(1_000, place, 0, 1);
        let cents = with_entry(1_000, place, 1, MOST + 1);
        for (flows, number) in [(year, 21), (cents, 22)] {
            let refusal = book.value(&flows).unwrap_err();
            assert_eq!(refusal, Refusal::at(number, place));
            assert_eq!(refusal.code(), u64::from(number) + 256 * place as u64);
        }
    }
}

#[test]
fn grounds_in_words() {
    let book = book_of(0, &level());
    let wrong = [vec![], list([(0, 1)]), list([(1, MOST + 1)])];
    let reasons = wrong.map(|flows| book.value(&flows).unwrap_err().reason());
    let limits = ["1,000 entries", "1 to 150", "1,000,000,000"];
    for (reason, limit) in reasons.into_iter().zip(limits) {
        assert!(reason.ends_with(limit), "{reason}");
    }
}

// Order

#[test]
fn curve_and_age_come_before_the_list() {
    let lists = [
        list([(1, 1)]),
        vec![],
        alike(1_001, 1, 1),
        list([(0, MOST + 1)]),
        list([(1, MOST + 1)]),
    ];
    let of_list = [(0, 0), (20, 0), (20, 0), (21, 1), (22, 1)];
    let (mut fresh, mut posted) = (Book::new(3), book_of(3, &level()));
    for age in 0..=5 {
        assert_eq!(
            (fresh.turn(age), posted.turn(age)),
            (Ok(age as u16), Ok(age as u16))
        );
        for (flows, of_list) in lists.iter().zip(of_list) {
            assert_eq!(ground(&fresh, flows), (14, 0));
            let expected = if age > 3 { (16, 0) } else { of_list };
            assert_eq!(ground(&posted, flows), expected, "age {age}");
        }
    }
}

#[test]
fn the_list_comes_before_its_entries() {
    let book = book_of(0, &level());
    for (year, cents) in [(0, 1), (1, MOST + 1), (151, u64::MAX)] {
        for place in [1, 1_000, 1_001] {
            assert_eq!(
                ground(&book, &with_entry(1_001, place, year, cents)),
                (20, 0)
            );
        }
    }
}

#[test]
fn entries_come_in_their_order_and_21_before_22_in_each() {
    let book = book_of(0, &level());
    let (good, year, cents, both) = ((1, 1), (151, 1), (1, MOST + 1), (0, MOST + 1));
    for (flows, expected) in [
        (list([both]), (21, 1)),
        (list([good, both]), (21, 2)),
        (list([cents, year]), (22, 1)),
        (list([cents, both]), (22, 1)),
        (list([year, cents]), (21, 1)),
        (list([both, cents]), (21, 1)),
        (list([good, cents, good, year]), (22, 2)),
        (list([good, good, year, cents]), (21, 3)),
        (list([cents, cents]), (22, 1)),
        (list([year, year]), (21, 1)),
    ] {
        assert_eq!(ground(&book, &flows), expected, "{flows:?}");
    }
}

// The plain curve and its dating

#[test]
fn an_adjustment_has_no_say() {
    let flows = list([(1, MOST), (20, MOST), (60, MOST)]);
    for adjustment in [-500, -1, 0, 1, 500] {
        let numbers = level().adjusted(adjustment);
        let (with, without) = (book_of(0, &numbers), book_of(0, &level()));
        assert_eq!(with.value(&flows), without.value(&flows));
        let curves = Curves::of(&read(&numbers)).unwrap();
        let adjusted = worth(&curves.adjusted.unwrap(), &flows);
        let same = with.value(&flows).unwrap().amount == adjusted;
        assert_eq!(same, adjustment == 0);
    }
}

#[test]
fn a_year_without_a_high_rate_is_valued() {
    let book = book_of(0, &steep(10_000));
    for year in [10, 17, 150] {
        let looked = book.look_up(Which::Plain, year).unwrap_err();
        assert_eq!(looked.number, 17);
        let (low, high) = ends(&book, &alike(1, u64::from(year), MOST));
        assert!(low < high && high < 10_000, "year {year}");
    }
}

#[test]
fn month_and_age_are_a_look_ups() {
    let flows = list([(7, 3), (140, 3)]);
    let dated = |month, numbers| Numbers { month, ..numbers };
    let mut book = Book::new(LARGEST_AGE_LIMIT);
    let assert_dated = |book: &Book, expected| {
        let found = book
            .look_up(Which::Plain, 7)
            .map(|found| (found.month, found.age));
        let valued = book.value(&flows).map(|valued| (valued.month, valued.age));
        assert_eq!(found, expected);
        assert_eq!(valued, expected);
    };
    assert_dated(&book, Err(Refusal::plain(14)));
    assert_eq!(book.turn(7), Ok(7));
    for (month, numbers) in [(5, level()), (6, zero()), (7, november().of_profile(3))] {
        assert_eq!(book.post(&dated(month, numbers).bytes()), Ok(month));
        assert_dated(&book, Ok((month, 7 - month)));
    }
    assert_eq!(book.turn(1_000), Ok(1_000));
    for month in [7, 6, 5] {
        assert_dated(&book, Ok((month, 1_000 - month)));
        assert_eq!(book.withdraw(), Ok(()));
    }
    assert_dated(&book, Err(Refusal::plain(14)));
}

#[test]
fn posts_and_withdrawals_change_the_value() {
    let flows = list([(1, MOST), (15, 7), (16, MOST), (150, MOST)]);
    let sheets = sheets();
    let expected = |numbers| worth(&Curve::plain(&read(numbers)).unwrap(), &flows);
    let mut book = Book::new(0);
    for numbers in &sheets {
        assert_eq!(book.post(&numbers.bytes()), Ok(0));
        assert_eq!(book.value(&flows).unwrap().amount, expected(numbers));
    }
    // A refused post leaves it.
    assert_eq!(book.post(&flat(-2_000).bytes()), Err(Refusal::at(8, 35)));
    for numbers in sheets.iter().rev().take(4) {
        assert_eq!(book.value(&flows).unwrap().amount, expected(numbers));
        // The fourth is refused.
        _ = book.withdraw();
    }
}

#[test]
fn a_value_is_shown_up_to_the_age_limit() {
    for limit in [0, 3, 2_398] {
        let mut book = book_of(limit, &level());
        for (age, expected) in [(limit, (0, 0)), (limit + 1, (16, 0))] {
            assert_eq!(book.turn(age as u32), Ok(age as u16));
            assert_eq!(ground(&book, &list([(1, 1)])), expected);
        }
    }
}

#[test]
fn a_valuation_leaves_the_book() {
    for limit in [0, 5] {
        let mut book = book_of(limit, &level().adjusted(100));
        assert_eq!(book.turn(3), Ok(3));
        let before = book.clone();
        for flows in [
            vec![],
            list([(1, 1)]),
            list([(0, 0)]),
            alike(1_000, 150, MOST + 1),
        ] {
            _ = book.value(&flows);
        }
        assert_eq!(book, before);
    }
}

#[test]
fn each_market_is_valued_on_its_own_curve() {
    // Year 150 of flat 3% with an ultimate rate of 345, by profile.
    let flows = list([(150, MOST)]);
    let numbers = |profile| {
        Numbers {
            ufr: 345,
            ..flat(3_000)
        }
        .of_profile(profile)
    };
    for (profile, value) in [
        (2, (353_841_506, 353_842_578)),
        (3, (310_528_470, 310_529_388)),
    ] {
        assert_eq!(ends(&book_of(0, &numbers(profile)), &flows), value);
    }
    let euro = ends(&book_of(0, &numbers(1)), &flows);
    let without = Numbers {
        ufr: 345,
        ..flat(3_000)
    };
    assert_eq!(ends(&book_of(0, &without), &flows), euro);
    assert!(euro.1 < 310_528_470);
}

// Any list

#[test]
fn every_value_is_the_sum_entry_by_entry() {
    let mut random = Random::new(1_102);
    for numbers in sheets() {
        let curve = Curve::plain(&read(&numbers)).unwrap();
        let book = book_of(0, &numbers);
        for _ in 0..40 {
            let flows = block(&mut random);
            let amount = book.value(&flows).unwrap().amount;
            assert_eq!(amount, worth(&curve, &flows), "{flows:?}");
        }
    }
}

#[test]
fn values_are_those_of_the_page() {
    let mut random = Random::new(1_103);
    for numbers in sheets() {
        let book = book_of(0, &numbers);
        let mut page = [7; PAGE_LENGTH];
        assert_eq!(book.page(Which::Plain, &mut page), Ok(()));
        let sum = |flows: &[Flow], at: usize| -> u128 {
            let part = |flow: &Flow| {
                let record = &page[10 * flow.year as usize - 5..];
                let factor = u32::from_be_bytes(record[at..at + 4].try_into().unwrap());
                u128::from(flow.cents) * u128::from(factor)
            };
            flows.iter().map(part).sum()
        };
        for _ in 0..10 {
            let flows = block(&mut random);
            let (low, high) = (sum(&flows, 2), sum(&flows, 6).div_ceil(U as u128));
            let expected = ((low / U as u128) as i128, high as i128);
            assert_eq!(ends(&book, &flows), expected);
        }
    }
}

#[test]
fn neither_order_nor_equal_years_matter() {
    let mut random = Random::new(1_104);
    let book = book_of(0, &november());
    for _ in 0..200 {
        let mut flows = block(&mut random);
        let value = book.value(&flows);
        flows.reverse();
        assert_eq!(book.value(&flows), value);
        let (one, other) = (0, random.below(flows.len() as u64) as usize);
        flows.swap(one, other);
        assert_eq!(book.value(&flows), value);
        // One entry in two of the same year, wherever the second stands.
        if flows.len() < 1_000 {
            let taken = random.below(flows[0].cents + 1);
            flows[0].cents -= taken;
            let part = Flow {
                year: flows[0].year,
                cents: taken,
            };
            flows.insert(random.below(flows.len() as u64 + 1) as usize, part);
            assert_eq!(book.value(&flows), value);
        }
    }
}

#[test]
fn two_lists_together_are_worth_both_but_for_one_rounding() {
    let mut random = Random::new(1_105);
    let book = book_of(0, &level());
    let (mut low_apart, mut high_apart) = (0, 0);
    for _ in 0..400 {
        let (one, other) = (block(&mut random), block(&mut random));
        let both = [&one[..], &other].concat();
        if both.len() > 1_000 {
            continue;
        }
        let [one, other, both] = [&one, &other, &both].map(|flows| ends(&book, flows));
        let low_gap = both.0 - (one.0 + other.0);
        let high_gap = (one.1 + other.1) - both.1;
        assert!([0, 1].contains(&low_gap) && [0, 1].contains(&high_gap));
        low_apart += low_gap;
        high_apart += high_gap;
    }
    assert!(
        low_apart > 20 && high_apart > 20,
        "{low_apart}, {high_apart}"
    );
}

#[test]
fn more_cents_are_worth_no_less_and_none_are_worth_nothing() {
    let mut random = Random::new(1_106);
    let book = book_of(0, &level());
    for _ in 0..100 {
        let mut flows = block(&mut random);
        let value = ends(&book, &flows);
        flows[0].cents = MOST;
        let more = ends(&book, &flows);
        assert!(more.0 >= value.0 && more.1 >= value.1);
        for flow in &mut flows {
            flow.cents = 0;
        }
        assert_eq!(ends(&book, &flows), (0, 0));
    }
}

// Numbers in turn

#[test]
fn numbers_are_years_and_cents_in_turn() {
    let flows = list([(1, 2), (3, 4), (0, u64::MAX)]);
    assert_eq!(numbers_of(&flows), [1, 2, 3, 4, 0, u64::MAX]);
    let mut random = Random::new(1_107);
    for _ in 0..50 {
        let flows = block(&mut random);
        assert_eq!(flows_of(&numbers_of(&flows)), flows);
    }
}

#[test]
fn an_odd_count_is_no_list() {
    let (mut book, fresh) = (book_of(3, &level()), Book::new(3));
    let numbers = vec![1; 2_003];
    let code = |book: &Book, count| value_by(book, &numbers[..count]).map_err(Refusal::code);
    for count in 0..=2_003 {
        let list = count % 2 == 0 && (2..=2_000).contains(&count);
        assert_eq!(code(&book, count).err(), (!list).then_some(20), "{count}");
        assert_eq!(code(&fresh, count), Err(14));
    }
    // 20 comes before the entries, and after the curve and its age.
    assert_eq!(value_by(&book, &[0, 1, 1]), Err(Refusal::plain(20)));
    assert_eq!(value_by(&book, &[1, MOST + 1, 1]), Err(Refusal::plain(20)));
    assert_eq!(book.turn(4), Ok(4));
    for count in [0, 1, 2, 3, 2_001, 2_002] {
        assert_eq!(code(&book, count), Err(16));
    }
}

#[test]
fn numbers_are_valued_as_their_list() {
    let mut random = Random::new(1_108);
    let book = book_of(0, &level());
    for _ in 0..200 {
        let flows = block(&mut random);
        assert_eq!(value_by(&book, &numbers_of(&flows)), book.value(&flows));
    }
    let expected = Valued {
        amount: Enclosure::new(1_941_747_572, 1_941_747_574),
        month: 0,
        age: 0,
    };
    assert_eq!(value_by(&book, &[1, MOST, 1, MOST]), Ok(expected));
}

// The true curve

/// Asserts that the true values of these orders lie between low and high, of seeded lists, one of
/// them of liquid years alone and one of every year.
fn assert_true_values(random: &mut Random, sheet: &Sheet, orders: std::ops::RangeInclusive<usize>) {
    let curve = Curve::plain(sheet).unwrap();
    let mut lists: Vec<Vec<Flow>> = (0..6).map(|_| block(random)).collect();
    lists.push(
        (1..=10)
            .map(|year| Flow {
                year,
                cents: 7 * year,
            })
            .collect(),
    );
    lists.push(
        (1..=150)
            .map(|year| Flow {
                year,
                cents: MOST - year,
            })
            .collect(),
    );
    lists.push(list([(1, 0), (150, 0)]));
    let values: Vec<_> = lists
        .iter()
        .map(|flows| (&flows[..], worth(&curve, flows)))
        .collect();
    for order in orders {
        let inside = check_values(sheet, &values, order).unwrap();
        assert_eq!(inside, vec![true; lists.len()], "order {order}, {sheet:?}");
    }
}

#[test]
fn the_true_values_lie_between() {
    let mut random = Random::new(1_109);
    for numbers in sheets() {
        assert_true_values(&mut random, &read(&numbers), 0..=3);
    }
}

#[test]
fn the_true_values_of_seeded_sheets_lie_between() {
    let mut random = Random::new(1_110);
    let mut sheets = [0; 3];
    while sheets.iter().any(|&count| count < 4) {
        let journal = journal(&mut random);
        let count = Count::of(calls(&journal));
        let Some(sheet) = count.sheet() else {
            continue;
        };
        let market = Market::ALL
            .iter()
            .position(|&market| market == sheet.market());
        sheets[market.unwrap()] += 1;
        assert_true_values(&mut random, sheet, 0..=1);
    }
}

#[test]
fn other_values_are_found_outside() {
    let numbers = level().adjusted(100);
    let sheet = read(&numbers);
    let curves = Curves::of(&sheet).unwrap();
    for flows in [
        list([(1, MOST), (20, MOST)]),
        list([(20, MOST), (21, MOST)]),
        alike(1_000, 150, MOST),
    ] {
        let value = worth(&curves.plain, &flows);
        let (low, high) = (value.low, value.high);
        let values = [
            value,
            worth(curves.adjusted.as_ref().unwrap(), &flows),
            worth(&curves.plain, &flows[1..]),
            Enclosure::new(low - 1, low),
            Enclosure::new(high, high + 1),
        ];
        let values = values.map(|ends| (&flows[..], ends));
        for order in 0..=1 {
            let inside = check_values(&sheet, &values, order).unwrap();
            assert_eq!(inside, [true, false, false, false, false]);
        }
    }
}

#[test]
fn a_true_value_may_meet_an_end() {
    // Every true factor of the zero sheet is U.
    let flows = list([(1, 3), (20, 4), (150, 5)]);
    let values = [(12, 12), (11, 11), (13, 13), (11, 12), (12, 13)];
    let values = values.map(|(low, high)| (&flows[..], Enclosure::new(low, high)));
    for count in [2, 3] {
        let values = values.map(|(flows, ends)| match count {
            3 => (flows, ends),
            _ => (&flows[..2], Enclosure::new(ends.low - 5, ends.high - 5)),
        });
        let inside = check_values(&read(&zero()), &values, 0).unwrap();
        assert_eq!(inside, [true, false, false, true, true]);
    }
}

// Seeded journals

#[test]
fn seeded_valuations_meet_everything() {
    let mut random = Random::new(1_111);
    let mut met = Valuations::default();
    let mut grounds = [0; 23];
    for _ in 0..150 {
        let journal = journal(&mut random);
        let book = book_after(LARGEST_AGE_LIMIT, &journal);
        for limit in limits_around(book.curve_age().map_or(0, u64::from)) {
            let book = book.with_age_limit(limit);
            for _ in 0..10 {
                let numbers = numbers(&mut random);
                let number = value_by(&book, &numbers).map_or_else(|refusal| refusal.number, |_| 0);
                grounds[usize::from(number)] += 1;
                met.count(&book, &numbers);
            }
        }
    }
    assert_eq!(met.check(), Ok(()), "{met}");
    for (number, times) in (0..).zip(grounds) {
        let due = [0, 14, 16, 20, 21, 22].contains(&number);
        assert_eq!(times > 0, due, "{number}: {times}");
    }
}

#[test]
fn what_was_not_met_is_told() {
    assert_eq!(
        Valuations::default().check(),
        Err("no valuation was accepted, of one entry".to_string())
    );
    let book = book_of(0, &level().adjusted(500));
    let mut met = Valuations::default();
    met.count(&book, &[20, MOST]);
    assert_eq!(met.of(Meeting::OneEntry), 1);
    assert_eq!(met.of(Meeting::BesideAdjusted), 1);
    assert_eq!(met.of(Meeting::RoundedOnce), 0);
    met.count(&book, &[20, 1, 20, 1, 20, 1]);
    assert_eq!(met.of(Meeting::RoundedOnce), 1);
    assert_eq!(met.of(Meeting::YearTwice), 1);
    assert!(met.check().is_err());
}
