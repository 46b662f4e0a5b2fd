//! Values of blocks of policies from the proved library: against figures, bytes and grounds
//! written by hand, against the library's own pages and look-ups, and against the second
//! implementation's on random journals and lists.

mod asked;
mod common;

use asked::{band, level, looked, page, paged, posted, reply, steep, with, PAGE, REPLY};
use common::{cases, journals};
use interface::compare::{lent, Kind, Met, Question, VALUE_LENGTH};
use interface::{answer_after, value_after, ADJUSTED, PLAIN};
use reference::blocks::{block, numbers};
use reference::book::LARGEST_AGE_LIMIT;
use reference::journal::{turn, withdrawal};
use reference::market::Market;
use reference::profiled::in_market;
use reference::questions::journal;
use reference::sheet::Sheet;
use reference::streams::{low_rates, steep_sheet, zero_sheet, Random};
use reference::valuation::{numbers_of, Flow};

/// U, and an entry's largest number of cents.
const U: u64 = 1_000_000_000;

/// Number and place of the answer to a valuation into `length` bytes, all of which a refusal
/// leaves.
fn ground(age_limit: u64, journal: &[u8], numbers: &[u64], length: usize) -> (u64, u64) {
    let lent = lent(length);
    let mut out = lent.clone();
    let answer = value_after(age_limit, journal, numbers, &mut out);
    assert!(answer == 0 || out == lent);
    (answer % 256, answer / 256)
}

/// The reply to an accepted valuation.
fn value_reply(journal: &[u8], numbers: &[u64]) -> [u8; VALUE_LENGTH] {
    let mut out = [9; VALUE_LENGTH];
    let answer = value_after(LARGEST_AGE_LIMIT, journal, numbers, &mut out);
    assert_eq!(answer, 0, "{numbers:?}");
    out
}

/// Low and high of an accepted valuation.
fn value(journal: &[u8], numbers: &[u64]) -> (u64, u64) {
    let reply = value_reply(journal, numbers);
    let number = |at: usize| u64::from_be_bytes(reply[at..at + 8].try_into().unwrap());
    (number(0), number(8))
}

/// As many entries, all the same.
fn alike(count: usize, year: u64, cents: u64) -> Vec<u64> {
    [year, cents].repeat(count)
}

/// A list that no ground is against, with this entry at this place, from 1.
fn with_entry(count: usize, place: usize, year: u64, cents: u64) -> Vec<u64> {
    let mut numbers = alike(count, 20, 100);
    numbers[2 * place - 2..2 * place].copy_from_slice(&[year, cents]);
    numbers
}

/// What the page adds up to.
fn by_page(page: &[u8; PAGE], flows: &[Flow]) -> (u64, u64) {
    let sum = |at: usize| {
        let part = |flow: &Flow| {
            let record = &page[5 + 10 * (flow.year as usize - 1)..];
            let factor = u32::from_be_bytes(record[at..at + 4].try_into().unwrap());
            u128::from(flow.cents) * u128::from(factor)
        };
        flows.iter().map(part).sum::<u128>()
    };
    let unit = u128::from(U);
    ((sum(2) / unit) as u64, sum(6).div_ceil(unit) as u64)
}

/// Sheets of every sort and market, all of month 0.
fn sheets() -> Vec<Sheet> {
    vec![
        zero_sheet(0),
        with(100, level(0)),
        with(-500, low_rates(0, Some(20_000))),
        steep(),
        steep_sheet(&mut Random::new(111), 0),
        in_market(&level(0), Market::EURO),
        in_market(&low_rates(0, Some(15_000)), Market::TO_10),
        in_market(&level(0), Market::TO_15),
    ]
}

// By hand

#[test]
fn figures() {
    let journal = posted(&level(0));
    let block = [1, 100, 2, 100, 20, 100_000];
    assert_eq!(value(&journal, &block), (55_558, 55_559));
    let largest = alike(1_000, 150, U);
    assert_eq!(value(&journal, &largest), (11_869_019_000, 11_869_083_000));
    assert_eq!(ground(0, &journal, &[151, 10 * U], VALUE_LENGTH), (21, 1));
    assert_eq!(
        ground(0, &journal, &[1, 1, 2, U + 1], VALUE_LENGTH),
        (22, 2)
    );
    assert_eq!(
        ground(0, &journal, &alike(1_001, 1, 1), VALUE_LENGTH),
        (20, 0)
    );
    // At factors of exactly 1 nothing is rounded; the sum on the way is past 64 bits.
    let zero = posted(&zero_sheet(0));
    assert_eq!(value(&zero, &[1, 0]), (0, 0));
    assert_eq!(value(&zero, &[1, 1, 150, 2, 1, 3]), (6, 6));
    assert_eq!(value(&zero, &largest), (1_000 * U, 1_000 * U));
}

#[test]
fn every_byte_of_a_reply() {
    let journal = [turn(0x0102), posted(&level(0x0102)), turn(0x0305)].concat();
    // 11,869,019,000 to 11,869,083,000, month 258, age 515.
    let expected = [
        0, 0, 0, 0x02, 0xC3, 0x72, 0xDB, 0x78, 0, 0, 0, 0x02, 0xC3, 0x73, 0xD5, 0x78, 0x01, 0x02,
        0x02, 0x03,
    ];
    assert_eq!(value_reply(&journal, &alike(1_000, 150, U)), expected);
}

#[test]
fn lows_and_highs_are_rounded_once() {
    let journal = posted(&level(0));
    for (numbers, expected, each) in [
        // Three times 0.5537 of year 20.
        (alike(3, 20, 1), (1, 2), (0, 3)),
        // 0.0119 of year 150, of which the high is still a cent.
        (vec![150, 1], (0, 1), (0, 1)),
        // 0.9709 + 0.9426 + 0.9151, and 0.5874 + 0.5703 + 0.5537.
        (vec![1, 1, 2, 1, 3, 1], (2, 3), (0, 3)),
        (vec![18, 1, 19, 1, 20, 1], (1, 2), (0, 3)),
        (alike(1_000, 1, 1), (970, 971), (0, 1_000)),
    ] {
        assert_eq!(value(&journal, &numbers), expected, "{numbers:?}");
        let (mut low, mut high) = (0, 0);
        for entry in numbers.chunks(2) {
            let value = value(&journal, entry);
            (low, high) = (low + value.0, high + value.1);
        }
        assert_eq!((low, high), each, "{numbers:?}");
    }
    // Whole ends are left as they are, and half of year 2, 942,595,909 to 942,595,910, is rounded.
    let whole = (970_873_786, 970_873_787);
    assert_eq!(value(&journal, &[1, U / 2, 1, U / 2]), whole);
    assert_eq!(value(&journal, &[2, U / 2]), (471_297_954, 471_297_955));
}

#[test]
fn u_cents_are_worth_the_factor() {
    for sheet in sheets() {
        let journal = [posted(&sheet), turn(1)].concat();
        for year in 1..=150 {
            // A look-up has the same first 20 bytes, unless its year has no rates.
            if looked(LARGEST_AGE_LIMIT, &journal, PLAIN, year, REPLY) == 0 {
                let expected = reply(&journal, PLAIN, year);
                assert_eq!(value_reply(&journal, &[year, U]), expected[..VALUE_LENGTH]);
                assert_eq!(value(&journal, &[year, U]), band(&expected));
            }
        }
    }
}

#[test]
fn values_add_up_to_the_page() {
    let mut random = Random::new(112);
    for sheet in sheets() {
        let journal = posted(&sheet);
        let page = page(&journal, PLAIN);
        for _ in 0..40 {
            let flows = block(&mut random);
            let found = value(&journal, &numbers_of(&flows));
            assert_eq!(found, by_page(&page, &flows), "{flows:?}");
        }
    }
}

#[test]
fn neither_order_nor_equal_years_matter() {
    let journal = posted(&low_rates(0, None));
    let mut random = Random::new(113);
    for _ in 0..100 {
        let mut flows = block(&mut random);
        let expected = value(&journal, &numbers_of(&flows));
        flows.sort_by_key(|flow| flow.year);
        assert_eq!(value(&journal, &numbers_of(&flows)), expected);
        flows.sort_by_key(|flow| flow.cents);
        assert_eq!(value(&journal, &numbers_of(&flows)), expected);
    }
    let [year_5, year_9] = [value(&journal, &[5, 30]), value(&journal, &[9, 30])];
    assert_eq!(value(&journal, &[5, 10, 5, 10, 5, 10]), year_5);
    assert_eq!(value(&journal, &[9, 10, 9, 0, 9, 20]), year_9);
}

#[test]
fn an_adjustment_has_no_say() {
    let numbers = [1, U, 20, U, 150, U];
    let (plain, adjusted) = (posted(&level(0)), posted(&with(100, level(0))));
    assert_eq!(
        value_reply(&adjusted, &numbers),
        value_reply(&plain, &numbers)
    );
    let bands = [1, 20, 150].map(|year| band(&reply(&adjusted, ADJUSTED, year)).1);
    assert!(bands.iter().sum::<u64>() < value(&adjusted, &numbers).0);
}

#[test]
fn a_year_without_a_high_rate_is_valued() {
    let journal = posted(&steep());
    assert_eq!(looked(0, &journal, PLAIN, 10, REPLY), 17);
    let (low, high) = value(&journal, &[10, U]);
    assert!(0 < low && low < high && high < 10_000);
}

// Grounds

#[test]
fn a_list_has_1_to_1000_entries_and_an_even_count() {
    let journal = posted(&level(0));
    let numbers = vec![1; 4_002];
    for count in (0..=2_003).chain([2_256, 4_000, 4_001, 4_002]) {
        let list = count % 2 == 0 && (2..=2_000).contains(&count);
        let expected = if list { (0, 0) } else { (20, 0) };
        let found = ground(0, &journal, &numbers[..count], VALUE_LENGTH);
        assert_eq!(found, expected, "{count} numbers");
    }
}

#[test]
fn years_and_cents_have_their_limits_at_every_place() {
    let journal = posted(&level(0));
    let ground = |numbers: &[u64]| ground(0, &journal, numbers, VALUE_LENGTH);
    for place in 1..=1_000 {
        let at = place as u64;
        assert_eq!(ground(&with_entry(1_000, place, 151, 1)), (21, at));
        assert_eq!(ground(&with_entry(1_000, place, 1, U + 1)), (22, at));
    }
    for place in [1, 2, 3] {
        let at = place as u64;
        for year in [0, 151, 255, 256, 276, (1 << 32) + 20, u64::MAX] {
            assert_eq!(ground(&with_entry(3, place, year, 1)), (21, at));
        }
        for cents in [U + 1, (1 << 32) + 1, 1 << 63, u64::MAX] {
            assert_eq!(ground(&with_entry(3, place, 1, cents)), (22, at));
        }
        for (year, cents) in [(1, 0), (1, U), (150, 0), (150, U)] {
            assert_eq!(ground(&with_entry(3, place, year, cents)), (0, 0));
        }
    }
}

#[test]
fn grounds_come_in_their_order_into_every_buffer() {
    let aged = |age| [posted(&level(0)), turn(age)].concat();
    let mut lists = vec![
        (vec![], (20, 0)),
        (vec![1], (20, 0)),
        (vec![1, 1, 1], (20, 0)),
        (vec![0, U + 1, 1], (20, 0)),
        (alike(1_001, 1, 1), (20, 0)),
        (with_entry(1_001, 1, 0, U + 1), (20, 0)),
        (vec![0, U + 1], (21, 1)),
        (vec![1, U + 1, 0, 1], (22, 1)),
        (vec![0, 1, 1, U + 1], (21, 1)),
        (vec![1, 1, 1, U + 1, 0, U + 1], (22, 2)),
        (vec![1, 1, 1, 1, 151, U + 1], (21, 3)),
    ];
    for length in (0..=21).chain([28, 60]) {
        let short = if length < VALUE_LENGTH { 15 } else { 0 };
        lists.push((vec![1, 1], (short, 0)));
        for (numbers, expected) in &lists {
            assert_eq!(ground(3, &turn(4), numbers, length), (14, 0));
            assert_eq!(ground(3, &aged(4), numbers, length), (16, 0));
            assert_eq!(ground(3, &aged(3), numbers, length), *expected);
        }
        lists.pop();
    }
}

#[test]
fn buffers_of_every_length() {
    let journal = posted(&level(0));
    let expected = value_reply(&journal, &[1, U, 60, 7]);
    for length in 0..=64 {
        let lent = lent(length);
        let mut out = lent.clone();
        let answer = value_after(0, &journal, &[1, U, 60, 7], &mut out);
        if length < VALUE_LENGTH {
            assert_eq!((answer, &out), (15, &lent), "{length} bytes");
            continue;
        }
        assert_eq!((answer, &out[..VALUE_LENGTH]), (0, &expected[..]));
        assert_eq!(out[VALUE_LENGTH..], lent[VALUE_LENGTH..], "{length} bytes");
    }
}

// The curve that stands

#[test]
fn month_and_age_are_a_look_ups_after_posts_turns_and_withdrawals() {
    let numbers = [1, 5, 150, 5];
    let of_months = [
        posted(&level(5)),
        posted(&in_market(&low_rates(6, None), Market::TO_10)),
        posted(&with(1, zero_sheet(7))),
    ];
    let mut journal = turn(7);
    assert_eq!(ground(0, &journal, &numbers, VALUE_LENGTH), (14, 0));
    let assert_dated = |journal: &[u8], month: u16, age: u16| {
        let found = value_reply(journal, &numbers);
        assert_eq!(found[16..], reply(journal, PLAIN, 1)[16..20]);
        assert_eq!(found[16..18], month.to_be_bytes());
        assert_eq!(found[18..], age.to_be_bytes());
    };
    for (month, post) in (5..).zip(&of_months) {
        journal.extend(post);
        assert_dated(&journal, month, 7 - month);
    }
    journal.extend(turn(1_000));
    for month in [7, 6, 5] {
        assert_dated(&journal, month, 1_000 - month);
        // It is worth what it is where the sheet alone was posted.
        let alone = [turn(7), of_months[usize::from(month) - 5].clone()].concat();
        assert_eq!(value(&journal, &numbers), value(&alone, &numbers));
        journal.extend(withdrawal());
    }
    assert_eq!(
        ground(LARGEST_AGE_LIMIT, &journal, &numbers, VALUE_LENGTH),
        (14, 0)
    );
}

#[test]
fn a_value_is_shown_up_to_the_age_limit() {
    for age in [0, 1, 2_398, 2_399] {
        let journal = [posted(&with(1, level(0))), turn(age)].concat();
        let age = u64::from(age);
        for limit in [
            0,
            1,
            2,
            2_397,
            2_398,
            2_399,
            2_400,
            1 << 16,
            1 << 32,
            u64::MAX,
        ] {
            let expected = if age > limit { 16 } else { 0 };
            let found = ground(limit, &journal, &[20, 1], VALUE_LENGTH);
            assert_eq!(found, (expected, 0), "age {age}, limit {limit}");
            // As a page is.
            assert_eq!(paged(limit, &journal, PLAIN, PAGE), expected);
        }
    }
}

#[test]
fn nothing_is_kept_between_two_valuations() {
    let (one, other) = (posted(&level(0)), posted(&zero_sheet(0)));
    let largest = alike(1_000, 150, U);
    let expected = value_reply(&one, &[20, U]);
    for _ in 0..3 {
        assert_eq!(value_reply(&one, &[20, U]), expected);
        assert_eq!(value(&other, &largest), (1_000 * U, 1_000 * U));
        assert_eq!(ground(0, &[], &largest, VALUE_LENGTH), (14, 0));
        assert_eq!(ground(0, &one, &[0, 0], VALUE_LENGTH), (21, 1));
    }
    // No answer to a record is another one after it.
    assert_eq!(answer_after(0, &one, &other), 0);
    assert_eq!(answer_after(0, &[], &withdrawal()), 18);
}

// Beside the second implementation

#[test]
fn values_agree() {
    let mut random = Random::new(114);
    let mut met = Met::default();
    for number in 0..journals() {
        let journal = journal(&mut random);
        for case in cases(&mut random, &journal) {
            for numbers in [numbers(&mut random), numbers(&mut random)] {
                let question = Question::Value {
                    numbers,
                    length: random.one_of(&[0, 19, 20, 20, 21, 28, 64]),
                };
                let answer = met.ask(&case, &question);
                assert!(answer.is_ok(), "journal {number}: {answer:?}");
            }
        }
    }
    println!("{met}\n{}", met.valuations);
    assert_eq!(met.check(&[Kind::Value, Kind::ShortValue]), Ok(()));
    assert_eq!(met.valuations.check(), Ok(()));
}

#[test]
fn what_was_not_met_of_values_is_told() {
    let met = Met::default();
    for kind in [Kind::Value, Kind::ShortValue] {
        assert!(met.check(&[kind]).unwrap_err().contains("values"));
    }
    assert!(met.valuations.check().is_err());
}
