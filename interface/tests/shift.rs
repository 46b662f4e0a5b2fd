//! Shifts that meet a target from the proved library: against figures, bytes and grounds written by
//! hand, against the library's own valuations of shifted sheets, and against the second
//! implementation's on random sheets, lists and targets.

mod asked;

use asked::{level, posted, steep, with};
use interface::compare::{lent, Case, Kind, Met, Question, SHIFT_LENGTH, VALUE_LENGTH};
use interface::{answer_after, shift, value_after};
use reference::book::LARGEST_AGE_LIMIT;
use reference::journal::turn;
use reference::market::Market;
use reference::profiled::in_market;
use reference::sheet::Sheet;
use reference::shift::shift_by;
use reference::shifts::{narrow, refused_at_once, wide, Asked};
use reference::streams::{low_rates, sheet_bytes, zero_sheet, Random};

/// U, and an entry's largest number of cents.
const U: u64 = 1_000_000_000;

/// A target that every block meets.
const ANY: u64 = u64::MAX;

/// The answer where no shift does.
const NONE: Result<i16, (u64, u64)> = Err((23, 0));

/// The shift, or number and place of the ground, which leaves the whole buffer.
fn answered(sheet: &[u8], numbers: &[u64], target: u64) -> Result<i16, (u64, u64)> {
    let lent = lent(SHIFT_LENGTH + 6);
    let mut out = lent.clone();
    let answer = shift(sheet, numbers, target, &mut out);
    assert_eq!(out[SHIFT_LENGTH..], lent[SHIFT_LENGTH..]);
    match answer {
        0 => Ok(i16::from_be_bytes([out[0], out[1]])),
        _ => {
            assert_eq!(out, lent);
            Err((answer % 256, answer / 256))
        }
    }
}

fn found(sheet: &Sheet, numbers: &[u64], target: u64) -> Result<i16, (u64, u64)> {
    answered(&sheet_bytes(sheet), numbers, target)
}

/// The sheet with every rate moved, which may take them out of their range.
fn moved(sheet: &Sheet, by: i16) -> Sheet {
    let mut moved = sheet.clone();
    let quotes = sheet.quoted_rates().len();
    for rate in &mut moved.rates[..quotes] {
        *rate += by;
    }
    moved
}

/// What the library's own valuation has as the block's high on the moved sheet, which was posted in
/// its month, or the number of the ground that was against the post.
fn high_at(sheet: &Sheet, by: i16, numbers: &[u64]) -> Result<u64, u64> {
    let journal = turn(sheet.month);
    let post = posted(&moved(sheet, by));
    match answer_after(LARGEST_AGE_LIMIT, &journal, &post) % 256 {
        0 => {}
        number => return Err(number),
    }
    let mut out = [0; VALUE_LENGTH];
    let journal = [journal, post].concat();
    assert_eq!(value_after(0, &journal, numbers, &mut out), 0);
    Ok(u64::from_be_bytes(out[8..16].try_into().unwrap()))
}

/// The first of all shifts that meets the target by the library's own valuations.
fn searched(sheet: &Sheet, numbers: &[u64], target: u64) -> Result<i16, (u64, u64)> {
    let meets = |by: &i16| high_at(sheet, *by, numbers).is_ok_and(|high| high <= target);
    (-500..=500).find(meets).ok_or((23, 0))
}

fn to_10(sheet: &Sheet) -> Sheet {
    in_market(sheet, Market::TO_10)
}

fn within(limit: u32, sheet: Sheet) -> Sheet {
    Sheet { limit, ..sheet }
}

fn with_x(x: u16, sheet: Sheet) -> Sheet {
    Sheet {
        phase_in: Some(x),
        ..sheet
    }
}

fn flat(rate: i16) -> Sheet {
    Sheet {
        rates: [rate; 17],
        ..zero_sheet(0)
    }
}

/// The flat sheet with two quotes that have no volume, at these rates.
fn between_dropped(low: i16, high: i16) -> Sheet {
    let mut sheet = level(7);
    sheet.volumes = [1, 1, 1, 0, 0];
    (sheet.rates[15], sheet.rates[16]) = (low, high);
    sheet
}

// By hand

#[test]
fn figures() {
    // Year 1 at 3% and s is 100,000 U / (103,000 + s), rounded up.
    for sheet in [
        level(0),
        to_10(&level(0)),
        in_market(&level(0), Market::TO_15),
    ] {
        for (target, expected) in [
            (975_609_757, Ok(-500)),
            (975_609_756, Ok(-499)),
            (970_873_787, Ok(0)),
            (970_873_786, Ok(1)),
            (966_183_575, Ok(500)),
            (966_183_574, NONE),
        ] {
            assert_eq!(found(&sheet, &[1, U], target), expected, "{target}");
        }
    }
    // Only at rates of 0 is this limit kept, and all factors are U.
    let exact = within(1, flat(490));
    assert_eq!(found(&exact, &[1, 2, 150, 3, 1, 4], 9), Ok(-490));
    assert_eq!(found(&to_10(&exact), &[1, 2, 150, 3, 1, 4], 8), NONE);
}

/// The figures of docs/SPECIFICATION.md, 12, from both implementations.
#[test]
fn figures_of_the_specification() {
    let thirty: Vec<u64> = (1..=30).flat_map(|year| [year, 1_000]).collect();
    let mut unmoved = between_dropped(-2_000, 12_000);
    unmoved.month = 1;
    let mut turning = between_dropped(-2_000, 11_998);
    turning.rates[..15].fill(-1);
    (turning.ufr, turning.limit) = (0, 1);
    for (sheet, target, expected) in [
        (level(0), 19_601, Ok(0)),
        (level(0), 19_600, Ok(1)),
        (level(0), 19_000, Ok(249)),
        (level(0), 1_000_000_000_000, Ok(-500)),
        (level(0), 0, NONE),
        (unmoved.clone(), 19_601, Ok(0)),
        (unmoved, 19_600, NONE),
        (turning.clone(), 30_000, Ok(1)),
        (turning, 29_999, NONE),
    ] {
        let second = shift_by(&sheet_bytes(&sheet), &thirty, target);
        let second = second.map_err(|ground| (ground.number.into(), ground.place.into()));
        assert_eq!(second, expected, "target {target}");
        assert_eq!(found(&sheet, &thirty, target), expected, "target {target}");
    }
}

#[test]
fn every_byte_of_a_reply() {
    for (by, expected) in [
        (-500, [0xFE, 0x0C]),
        (-257, [0xFE, 0xFF]),
        (-256, [0xFF, 0x00]),
        (-1, [0xFF, 0xFF]),
        (0, [0x00, 0x00]),
        (1, [0x00, 0x01]),
        (255, [0x00, 0xFF]),
        (258, [0x01, 0x02]),
        (500, [0x01, 0xF4]),
    ] {
        let sheet = sheet_bytes(&to_10(&within(1, flat(-by))));
        for length in [2, 3, 4, 8, 64] {
            let lent = lent(length);
            let mut out = lent.clone();
            assert_eq!(shift(&sheet, &[150, 7], 7, &mut out), 0);
            assert_eq!(out[..2], expected, "{by}");
            assert_eq!(out[2..], lent[2..], "{length} bytes");
        }
    }
}

#[test]
fn the_high_is_rounded_once_and_may_be_the_target() {
    let sheet = to_10(&level(0));
    // A cent of year 1 is worth 0 to 1; three of year 20 cost 1.6 to 1.8.
    assert_eq!(found(&sheet, &[1, 1], 0), NONE);
    assert_eq!(found(&sheet, &[1, 1], 1), Ok(-500));
    assert_eq!(found(&sheet, &[20, 1, 20, 1, 20, 1], 2), Ok(-500));
    assert_eq!(found(&sheet, &[20, 1, 20, 1, 20, 1], 1), NONE);
    // A thousand of year 1 cost 971 at 100,000 / 0.971 = 102,987.
    assert_eq!(found(&sheet, &[1, 1].repeat(1_000), 971), Ok(-13));
    assert_eq!(found(&sheet, &[1, 0, 150, 0], 0), Ok(-500));
}

#[test]
fn targets_up_to_the_largest() {
    let sheet = to_10(&level(0));
    let largest = [1, U].repeat(1_000);
    for by in [-500, 0, 500] {
        let high = high_at(&sheet, by, &largest).unwrap();
        let later = if by < 500 { Ok(by + 1) } else { NONE };
        assert_eq!(found(&sheet, &largest, high), Ok(by));
        assert_eq!(found(&sheet, &largest, high - 1), later);
        assert_eq!(found(&sheet, &largest, high % (1 << 32)), NONE);
    }
    for target in [1 << 32, 1 << 40, (1 << 63) - 1, 1 << 63, ANY - 1, ANY] {
        assert_eq!(found(&sheet, &[1, U], target), Ok(-500), "{target}");
        assert_eq!(found(&level(0), &[1, U], target), Ok(-500), "{target}");
    }
}

#[test]
fn the_smallest_is_found_where_later_ones_cost_more_or_fail() {
    // A higher rate slows down the convergence to a far higher ultimate rate.
    let sheet = with_x(20_000, flat(300));
    let sheet = to_10(&Sheet {
        ufr: 10_000,
        ..sheet
    });
    let high = |by| high_at(&sheet, by, &[60, U]).unwrap();
    let (first, highest, last) = (high(-500), high(200), high(500));
    assert!(first < last && last < highest);
    for target in [first, last, highest] {
        assert_eq!(found(&sheet, &[60, U], target), Ok(-500));
    }
    assert_eq!(found(&sheet, &[60, U], first - 1), NONE);
    // With this one the tenth year is gone from 1 on.
    assert_eq!(high_at(&steep(), 1, &[1, U]), Err(7));
    let sheet = in_market(&moved(&steep(), 490), Market::TO_15);
    assert_eq!(high_at(&sheet, 0, &[1, U]), Err(7));
    let high = high_at(&sheet, -490, &[1, U]).unwrap();
    assert_eq!(found(&sheet, &[1, U], high), Ok(-490));
    assert_eq!(found(&sheet, &[1, U], high - 1), NONE);
}

#[test]
fn sheets_may_pass_fail_and_pass_again() {
    // The widest band comes and goes by a few billionths from shift to shift.
    let sheet = to_10(&within(207, level(0)));
    let passes: Vec<i16> = (-500..=500)
        .filter(|&by| high_at(&sheet, by, &[1, U]).is_ok())
        .collect();
    let gaps = passes.windows(2).filter(|pair| pair[0] + 1 < pair[1]);
    // The cost of year 1 at a shift that fails is met at the next one that passes.
    for pair in gaps.take(3) {
        let (fails, next) = (i64::from(pair[0]) + 1, pair[1]);
        let target = 100_000_000_000_000_u64.div_ceil((103_000 + fails) as u64);
        assert_eq!(found(&sheet, &[1, U], target), Ok(next));
    }
    assert!(passes.len() < 900 && passes[0] < 400);
}

#[test]
fn every_quote_stays_in_its_range_and_dropped_ones_too() {
    let sheet = between_dropped(-1_993, 11_995);
    let high = |by| high_at(&sheet, by, &[60, U]);
    assert_eq!((high(-8), high(6)), (Err(3), Err(3)));
    assert_eq!(found(&sheet, &[60, U], ANY), Ok(-7));
    for by in -7..=5 {
        assert_eq!(found(&sheet, &[60, U], high(by).unwrap()), Ok(by));
    }
    assert_eq!(found(&sheet, &[60, U], high(5).unwrap() - 1), NONE);
    for market in Market::SMALLER {
        for (rate, expected) in [(-2_000, 0), (-1_990, -10), (-1_500, -500)] {
            let sheet = in_market(&flat(rate), market);
            assert_eq!(found(&sheet, &[20, U], ANY), Ok(expected), "{rate}");
        }
        for (rate, last) in [(12_000, 0), (11_900, 100), (11_500, 500)] {
            let sheet = in_market(&flat(rate), market);
            let high = high_at(&sheet, last, &[7, U]).unwrap();
            assert_eq!(found(&sheet, &[7, U], high), Ok(last), "{rate}");
            assert_eq!(found(&sheet, &[7, U], high - 1), NONE, "{rate}");
        }
    }
}

#[test]
fn the_adjusted_curve_must_pass_and_has_no_other_say() {
    // Nearly all weight is on the forward of 15-20, which alone gains the adjustment.
    let mut sheet = flat(-1_970);
    sheet.rates[13..].copy_from_slice(&[-1_820, -1_670, -1_470, -1_370]);
    sheet.volumes = [1_000_000, 1, 1, 1, 1];
    let plain = found(&sheet, &[1, U], ANY).unwrap();
    let adjusted = with(-500, sheet);
    let later = found(&adjusted, &[1, U], ANY).unwrap();
    assert!(plain < later);
    assert_eq!(high_at(&adjusted, later - 1, &[1, U]), Err(8));
    let block = [5, U, 20, U, 60, U];
    let target = high_at(&level(0), -490, &block).unwrap();
    for adjustment in [-500, 0, 500] {
        let sheet = with(adjustment, level(0));
        assert_eq!(found(&sheet, &block, target), Ok(-490), "{adjustment}");
    }
}

#[test]
fn no_month_is_too_late_and_nothing_is_kept() {
    for month in [0, 1, 2_399] {
        let sheet = to_10(&level(month));
        assert_eq!(found(&sheet, &[1, U], 970_873_787), Ok(0));
        assert_eq!(found(&sheet, &[1, U], 0), NONE);
        assert_eq!(found(&to_10(&flat(0)), &[], 0), Err((20, 0)));
    }
    assert_eq!(found(&level(2_400), &[1, U], ANY), Err((3, 1)));
    // No post was made by any of these.
    assert_eq!(answer_after(0, &[], &[0x4C, 1]), 14);
}

// Beside the library's own valuations

#[test]
fn shifts_are_those_of_the_librarys_own_valuations() {
    let block = [1, 3, 7, U, 16, 5, 20, U, 33, U, 150, U];
    for (sheet, near) in [
        (low_rates(3, None), -480),
        (with(-100, low_rates(3, Some(20_000))), -490),
        (between_dropped(-2_000, 11_990), 4),
        (to_10(&low_rates(3, Some(20_000))), 40),
        (in_market(&low_rates(2_399, None), Market::TO_15), -300),
    ] {
        let high = high_at(&sheet, near, &block).unwrap();
        for target in [high, high - 1, high + 1] {
            let expected = searched(&sheet, &block, target);
            assert!(expected.is_ok());
            assert_eq!(found(&sheet, &block, target), expected, "{target}");
        }
    }
}

// Grounds

/// What is asked of, with number and place of the ground that is against it, 0 and 0 where none is.
type Grounds<T> = Vec<(Vec<T>, (u64, u64))>;

fn sheets() -> Grounds<u8> {
    let good = sheet_bytes(&to_10(&level(0)));
    let wrong_volume = Sheet {
        volumes: [0; 5],
        ..level(0)
    };
    let out_of_range = |rate| {
        let mut sheet = wrong_volume.clone();
        sheet.rates[16] = rate;
        sheet_bytes(&sheet)
    };
    vec![
        (vec![0x08, 4], (19, 0)),
        (vec![], (1, 0)),
        (vec![0x08], (1, 0)),
        (good[..58].to_vec(), (1, 0)),
        ([&good[..], &[7, 0, 1]].concat(), (2, 16)),
        (out_of_range(12_001), (3, 18)),
        (out_of_range(-2_001), (3, 18)),
        (sheet_bytes(&wrong_volume), (4, 0)),
        (good.clone(), (0, 0)),
        // No ground of a shift is 7 to 10 of the sheet as it is.
        (sheet_bytes(&flat(-2_000)), (0, 0)),
    ]
}

fn wrong_lists() -> Grounds<u64> {
    vec![
        (vec![], (20, 0)),
        (vec![1], (20, 0)),
        (vec![0, U + 1, 1], (20, 0)),
        ([1, 1].repeat(1_001), (20, 0)),
        (vec![0, U + 1], (21, 1)),
        (vec![1, 1, 1, U + 1, 0, 1], (22, 2)),
        (vec![1, 1, 1, 1, 151, U + 1], (21, 3)),
    ]
}

#[test]
fn grounds_come_in_their_order_into_every_buffer() {
    let (sheets, lists) = (sheets(), wrong_lists());
    for length in [0, 1, 2, 3, 20] {
        for (sheet, of_sheet) in &sheets {
            for (numbers, of_list) in &lists {
                let expected = if *of_sheet == (0, 0) {
                    of_list
                } else {
                    of_sheet
                };
                for target in [0, ANY] {
                    let lent = lent(length);
                    let mut out = lent.clone();
                    let answer = shift(sheet, numbers, target, &mut out);
                    assert_eq!((answer % 256, answer / 256), *expected);
                    assert_eq!(out, lent);
                }
            }
        }
    }
}

#[test]
fn a_sheet_has_its_length_and_no_other() {
    // As many bytes more as 8 or 16 bits can tell are not the same length.
    for market in [
        None,
        Some(Market::EURO),
        Some(Market::TO_10),
        Some(Market::TO_15),
    ] {
        let sheet = market.map_or(level(0), |market| in_market(&level(0), market));
        let good = sheet_bytes(&sheet);
        let mut bytes = good.clone();
        bytes.resize(good.len() + (1 << 16) + 1, 0);
        let lengths =
            (0..good.len()).chain([1, 2, 4, 5, 7, 256, 259, 1 << 16].map(|n| good.len() + n));
        for length in lengths {
            let found = answered(&bytes[..length], &[1, U], ANY);
            assert_eq!(found, Err((1, 0)), "{length} bytes");
        }
        assert_eq!(answered(&good, &[1, U], ANY), Ok(-500));
    }
}

#[test]
fn a_short_buffer_is_tried_after_23() {
    let sheet = sheet_bytes(&to_10(&level(0)));
    for length in 0..=1 {
        for (target, expected) in [(0, 23), (966_183_574, 23), (966_183_575, 15), (ANY, 15)] {
            let lent = lent(length);
            let mut out = lent.clone();
            assert_eq!(shift(&sheet, &[1, U], target, &mut out), expected);
            assert_eq!(out, lent);
        }
    }
}

#[test]
fn a_list_has_1_to_1000_entries_and_an_even_count() {
    let sheet = to_10(&level(0));
    let numbers = vec![1; 131_074];
    for count in (0..=40)
        .chain(1_990..=2_010)
        .chain([2_256, 4_000, 4_001, 4_002, 65_538, 131_074])
    {
        let list = count % 2 == 0 && (2..=2_000).contains(&count);
        let expected = if list { Ok(-500) } else { Err((20, 0)) };
        assert_eq!(found(&sheet, &numbers[..count], ANY), expected, "{count}");
    }
    for place in [1, 2, 255, 256, 257, 999, 1_000] {
        let at = place as u64;
        let mut numbers = [20, 100].repeat(1_000);
        numbers[2 * place - 2] = 151;
        assert_eq!(found(&sheet, &numbers, ANY), Err((21, at)));
        numbers[2 * place - 2] = 150;
        numbers[2 * place - 1] = U + 1;
        assert_eq!(found(&sheet, &numbers, ANY), Err((22, at)));
        numbers[2 * place - 1] = U;
        assert_eq!(found(&sheet, &numbers, ANY), Ok(-500));
    }
}

// Beside the second implementation

/// How questions of a sort are drawn.
type Draw = fn(&mut Random) -> Asked;

#[test]
fn shifts_agree() {
    let mut random = Random::new(124);
    let mut met = Met::default();
    let case = Case::replayed(0, &[]);
    let sorts: [(Draw, u64); 3] = [(refused_at_once, 600), (narrow, 150), (wide, 32)];
    for (draw, count) in sorts {
        for number in 0..count {
            let asked = draw(&mut random);
            let length = random.one_of(&[0, 1, 2, 2, 2, 3, 28]);
            let answer = met.ask(&case, &Question::shift(asked, length));
            assert!(answer.is_ok(), "{number}: {answer:?}");
        }
    }
    println!("{met}\n{}", met.shifts);
    assert_eq!(met.check(&[Kind::Shift, Kind::ShortShift]), Ok(()));
    assert_eq!(met.shifts.check(), Ok(()));
}

#[test]
fn what_was_not_met_of_shifts_is_told() {
    let met = Met::default();
    for kind in [Kind::Shift, Kind::ShortShift] {
        assert!(met.check(&[kind]).unwrap_err().contains("shifts"));
    }
    assert!(met.shifts.check().is_err());
}
