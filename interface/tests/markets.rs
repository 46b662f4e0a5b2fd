//! Sheets of three markets in the proved library: the profile record and its grounds, figures,
//! bytes and answers written by hand, journals of several markets and withdrawals from one to
//! another, and seeded sheets and journals beside the second implementation.

mod asked;
mod common;

use asked::{band, looked, page, paged, posted, reply, with, PAGE, REPLY};
use common::journals;
use interface::compare::{Case, Kind, Met, Question, VALUE_LENGTH};
use interface::{answer_after, page_after, ADJUSTED, PLAIN, SUM};
use reference::blocks::block;
use reference::book::LARGEST_AGE_LIMIT;
use reference::counts::PostCounts;
use reference::curve::Which;
use reference::journal::{look_up, post, turn, withdrawal};
use reference::market::Market;
use reference::profiled::{in_market, typed_profiled_sheet, FORMS, GROUNDS};
use reference::questions::{call, journal, kind, limits_around, page_kind};
use reference::sheet::Sheet;
use reference::streams::{low_rates, sheet_bytes, zero_sheet, Random};
use reference::sums::Wanted;
use reference::valuation::numbers_of;

const U: u64 = 1_000_000_000;

/// The years that are looked up by hand: around the smoothing years, the first and the last.
const YEARS: [u64; 9] = [1, 9, 10, 11, 15, 16, 20, 21, 150];

fn flat(rate: i16, ufr: u16) -> Sheet {
    Sheet {
        rates: [rate; 17],
        ufr,
        ..zero_sheet(0)
    }
}

fn within(limit: u32, sheet: Sheet) -> Sheet {
    Sheet { limit, ..sheet }
}

fn with_x(x: u16, sheet: Sheet) -> Sheet {
    Sheet {
        phase_in: Some(x),
        ..sheet
    }
}

/// The sheet with another rate at the quote of this index.
fn with_rate(quote: usize, rate: i16, mut sheet: Sheet) -> Sheet {
    sheet.rates[quote] = rate;
    sheet
}

/// The indices of the quotes of maturities 10, 12 and 15.
const QUOTE_10: usize = 9;
const QUOTE_12: usize = 10;
const QUOTE_15: usize = 11;

/// The record of the post of what the market takes of the sheet.
fn in_its_market(sheet: &Sheet, market: Market) -> Vec<u8> {
    posted(&in_market(sheet, market))
}

/// Number and place of the answer to these bytes as a sheet, on a fresh book.
fn answered(bytes: &[u8]) -> (u64, u64) {
    let answer = answer_after(LARGEST_AGE_LIMIT, &[], &post(bytes));
    (answer % 256, answer / 256)
}

/// The same of what the market takes of a sheet.
fn answered_in(sheet: &Sheet, market: Market) -> (u64, u64) {
    answered(&sheet_bytes(&in_market(sheet, market)))
}

fn band_of(journal: &[u8], year: u64) -> (u64, u64) {
    band(&reply(journal, PLAIN, year))
}

/// Asserts that the page's pairs are those of the look-ups, that the sums are theirs, and that there
/// is no adjusted curve.
fn assert_shown(journal: &[u8], month: u16, age: u16) {
    let page = page(journal, PLAIN);
    assert_eq!(page[0], 0x48);
    assert_eq!(page[1..3], month.to_be_bytes());
    assert_eq!(page[3..5], age.to_be_bytes());
    let (mut low, mut high) = (0, 0);
    for (year, record) in (1..=150_u8).zip(page[5..].chunks_exact(10)) {
        let found = reply(journal, PLAIN, u64::from(year));
        let factor = band(&found);
        assert_eq!(record[..2], [0x59, year]);
        assert_eq!(record[2..6], (factor.0 as u32).to_be_bytes());
        assert_eq!(record[6..], (factor.1 as u32).to_be_bytes());
        (low, high) = (low + factor.0, high + factor.1);
        let sum = reply(journal, PLAIN | SUM, u64::from(year));
        assert_eq!(band(&sum), (low, high), "year {year}");
        assert_eq!(sum[16..], found[16..]);
        assert_eq!(found[16..18], month.to_be_bytes());
        assert_eq!(found[18..20], age.to_be_bytes());
    }
    for kind in [ADJUSTED, ADJUSTED | SUM, u64::MAX] {
        for year in YEARS {
            assert_eq!(looked(LARGEST_AGE_LIMIT, journal, kind, year, REPLY), 14);
        }
        assert_eq!(paged(LARGEST_AGE_LIMIT, journal, kind, PAGE), 14);
    }
}

// By hand

#[test]
fn figures() {
    let level = in_its_market(&flat(3_000, 345), Market::TO_10);
    assert_eq!(band_of(&level, 10), (744_093_914, 744_093_916));
    assert_eq!(band_of(&level, 11), (723_334_460, 723_334_480));
    assert_eq!(band_of(&level, 150), (353_841_506, 353_842_578));
    assert_shown(&level, 0, 0);
    let level = in_its_market(&flat(3_000, 345), Market::TO_15);
    assert_eq!(band_of(&level, 15), (641_861_946, 641_861_948));
    assert_eq!(band_of(&level, 16), (623_954_660, 623_954_676));
    assert_eq!(band_of(&level, 150), (310_528_470, 310_529_388));
    assert_shown(&level, 0, 0);
    let rising = Sheet {
        rates: std::array::from_fn(|i| 100 + 7 * i as i16),
        ..with_x(20_000, flat(0, 345))
    };
    let rising = in_its_market(&rising, Market::TO_15);
    assert_eq!(band_of(&rising, 16), (971_702_115, 971_702_138));
    assert_eq!(band_of(&rising, 150), (618_168_163, 618_169_865));
    let falling = with_rate(QUOTE_10, 2_000, flat(3_000, 345));
    let falling = in_its_market(&falling, Market::TO_10);
    assert_eq!(band_of(&falling, 11), (890_464_081, 890_464_101));
}

#[test]
fn the_last_entry_of_the_table_shows_in_year_150() {
    // At 875 in place of 874 the low would be 1,872,140,053, at 873 the high 1,872,142,591.
    let falling = with_rate(QUOTE_10, 1_100, flat(2_000, 0));
    let falling = in_its_market(&falling, Market::TO_10);
    assert_eq!(band_of(&falling, 150), (1_872_140_051, 1_872_142_593));
}

#[test]
fn the_zero_sheet_is_exact_in_every_market() {
    for market in Market::ALL {
        for sheet in [zero_sheet(0), with_x(20_000, zero_sheet(0))] {
            let journal = in_its_market(&within(1, sheet), market);
            for year in 1..=150 {
                assert_eq!(band_of(&journal, year), (U, U));
                let sum = reply(&journal, PLAIN | SUM, year);
                assert_eq!(band(&sum), (year * U, year * U));
                assert_eq!(sum[20..], [0; 8], "rates of 0");
            }
        }
    }
}

#[test]
fn profile_1_is_the_sheet_without_the_record() {
    for sheet in [
        flat(3_000, 345),
        low_rates(0, None),
        low_rates(0, Some(20_000)),
        with(100, low_rates(0, Some(15_000))),
        with(-500, flat(-300, 0)),
        with(0, zero_sheet(0)),
    ] {
        let recorded = [&[0x08, 0x01], &sheet_bytes(&sheet)[..]].concat();
        let (without, with) = (posted(&sheet), post(&recorded));
        assert_eq!(page(&with, PLAIN), page(&without, PLAIN));
        for year in YEARS {
            for kind in [PLAIN, SUM] {
                assert_eq!(reply(&with, kind, year), reply(&without, kind, year));
            }
        }
        let adjusted = |journal: &[u8]| {
            let mut out = [9; PAGE];
            let ground = page_after(LARGEST_AGE_LIMIT, journal, ADJUSTED, &mut out);
            (ground, out)
        };
        assert_eq!(adjusted(&with), adjusted(&without));
    }
}

#[test]
fn every_profile_byte_is_answered() {
    assert_eq!(answered(&[]), (1, 0));
    assert_eq!(answered(&[0x08]), (1, 0));
    for byte in 0..=255 {
        let known = (1..=3).contains(&byte);
        let expected = if known { (1, 0) } else { (19, 0) };
        assert_eq!(answered(&[0x08, byte]), expected);
        for length in [3, 58, 60, 109, 115, 300] {
            let mut bytes = vec![0x08, byte];
            bytes.resize(length, 0x08);
            assert_eq!(answered(&bytes), expected, "{byte}, {length} bytes");
        }
        for market in Market::ALL {
            let mut bytes = sheet_bytes(&in_market(&flat(3_000, 0), market));
            bytes[1] = byte;
            let expected = match byte {
                _ if byte == market.profile => (0, 0),
                1..=3 => (1, 0),
                _ => (19, 0),
            };
            assert_eq!(answered(&bytes), expected);
        }
    }
}

#[test]
fn sheets_of_every_length_are_answered() {
    for (market, shortest) in [
        (Market::EURO, 111),
        (Market::TO_10, 59),
        (Market::TO_15, 67),
    ] {
        let sheet = with(5, with_x(20_000, low_rates(0, None)));
        let sheet = sheet_bytes(&in_market(&sheet, market));
        let longest = if market == Market::EURO {
            shortest + 6
        } else {
            shortest + 3
        };
        assert_eq!(sheet.len(), longest);
        for length in 2..=400 {
            let mut bytes = sheet.clone();
            bytes.resize(length, 0);
            let allowed = (shortest..=longest).step_by(3).any(|l| l == length);
            let expected = if allowed { (0, 0) } else { (1, 0) };
            assert_eq!(answered(&bytes), expected, "{length} bytes");
        }
    }
}

#[test]
fn last_records_are_answered_with_their_places() {
    let followed_by = |market, tail: &[u8]| {
        let sheet = sheet_bytes(&in_market(&zero_sheet(0), market));
        answered(&[&sheet, tail].concat())
    };
    for (market, place) in [(Market::EURO, 27), (Market::TO_10, 16), (Market::TO_15, 18)] {
        for kind in (0..=255).filter(|kind| ![0x06, 0x07].contains(kind)) {
            assert_eq!(followed_by(market, &[kind, 0x27, 0x10]), (2, place));
        }
        for (x, inside) in [
            (9_999_u16, false),
            (10_000, true),
            (20_000, true),
            (20_001, false),
        ] {
            let [high, low] = x.to_be_bytes();
            let expected = if inside { (0, 0) } else { (3, place) };
            assert_eq!(followed_by(market, &[0x06, high, low]), expected);
        }
        // An adjustment goes with the euro alone.
        let euro = market == Market::EURO;
        for adjustment in [-500_i16, 0, 500] {
            let [high, low] = adjustment.to_be_bytes();
            let expected = if euro { (0, 0) } else { (2, place) };
            assert_eq!(followed_by(market, &[0x07, high, low]), expected);
            let both = [0x06, 0x4E, 0x20, 0x07, high, low];
            let expected = if euro { (0, 0) } else { (1, 0) };
            assert_eq!(followed_by(market, &both), expected);
        }
    }
    assert_eq!(followed_by(Market::EURO, &[0x07, 0x01, 0xF5]), (3, 27));
    let both = [0x06, 0x4E, 0x20, 0x07, 0x01, 0xF5];
    assert_eq!(followed_by(Market::EURO, &both), (3, 28));
}

#[test]
fn records_are_answered_with_their_places() {
    for (market, quotes, volumes) in [
        (Market::EURO, 17, 5),
        (Market::TO_10, 10, 1),
        (Market::TO_15, 12, 1),
    ] {
        let sheet = sheet_bytes(&in_market(&zero_sheet(0), market));
        let with = |at: usize, bytes: &[u8]| {
            let mut sheet = sheet.clone();
            sheet[at..at + bytes.len()].copy_from_slice(bytes);
            answered(&sheet)
        };
        assert_eq!(with(2, &[0x09]), (2, 2));
        assert_eq!(with(3, &[0x09, 0x60]), (3, 2));
        for i in 0..quotes {
            let (at, place) = (5 + 4 * i, 3 + i as u64);
            assert_eq!(with(at, &[0x03]), (2, place));
            assert_eq!(with(at + 1, &[0x33]), (2, place));
            assert_eq!(with(at + 2, &12_001_i16.to_be_bytes()), (3, place));
            assert_eq!(with(at + 2, &(-2_001_i16).to_be_bytes()), (3, place));
        }
        for i in 0..volumes {
            let (at, place) = (5 + 4 * quotes + 6 * i, (3 + quotes + i) as u64);
            assert_eq!(with(at, &[0x02]), (2, place));
            assert_eq!(with(at + 1, &[0x33]), (2, place));
            assert_eq!(with(at + 2, &1_000_001_u32.to_be_bytes()), (3, place));
        }
        let (at, place) = (5 + 4 * quotes + 6 * volumes, (3 + quotes + volumes) as u64);
        assert_eq!(with(at, &[0x05]), (2, place));
        assert_eq!(with(at + 1, &10_001_u16.to_be_bytes()), (3, place));
        assert_eq!(with(at + 3, &[0x04]), (2, place + 1));
        assert_eq!(with(at + 4, &0_u32.to_be_bytes()), (3, place + 1));
        assert_eq!(with(at + 4, &100_001_u32.to_be_bytes()), (3, place + 1));
        let untraded = Sheet {
            volumes: [0; 5],
            ..zero_sheet(0)
        };
        assert_eq!(answered_in(&untraded, market), (4, 0));
    }
}

#[test]
fn months_are_those_of_the_months_record() {
    let told = turn(0x0103);
    for market in Market::ALL {
        let of_month = |month| in_its_market(&zero_sheet(month), market);
        let answer = |journal: &[u8], call: &[u8]| answer_after(LARGEST_AGE_LIMIT, journal, call);
        assert_eq!(answer(&told, &of_month(0x0104)), 5);
        assert_eq!(answer(&told, &of_month(0x0103)), 0);
        let journal = [told.clone(), of_month(0x0102), turn(0x0305)].concat();
        assert_eq!(answer(&journal, &of_month(0x0101)), 6);
        assert_eq!(answer(&journal, &posted(&zero_sheet(0x0101))), 6);
        assert_eq!(answer(&journal, &of_month(0x0306)), 5);
        assert_shown(&journal, 0x0102, 0x0203);
    }
}

#[test]
fn grounds_7_to_10() {
    let mut fall = with_rate(QUOTE_10, 12_000, zero_sheet(0));
    fall.rates[..9].fill(-2_000);
    let tenth = |rate| with_rate(QUOTE_10, rate, flat(3_000, 0));
    let (to_10, to_15) = (Market::TO_10, Market::TO_15);
    for (sheet, market, expected) in [
        (fall.clone(), to_10, (7, 10)),
        (fall, to_15, (7, 10)),
        (with_rate(QUOTE_10, 0, flat(1_000, 0)), to_10, (8, 25)),
        (with_rate(QUOTE_15, -770, flat(1_000, 0)), to_15, (8, 31)),
        (tenth(2_000), to_10, (0, 0)),
        (tenth(1_800), to_10, (9, 10)),
        (tenth(5_000), to_10, (9, 10)),
        (within(1, tenth(5_000)), to_10, (9, 10)),
        (with_rate(QUOTE_12, 12_000, flat(3_000, 0)), to_15, (9, 12)),
        (with_rate(QUOTE_15, 12_000, flat(3_000, 0)), to_15, (9, 15)),
        (with_rate(QUOTE_15, 12_000, flat(3_000, 0)), to_10, (0, 0)),
        (flat(-2_000, 0), to_10, (0, 0)),
        (flat(-2_000, 0), to_15, (0, 0)),
        (within(1, flat(3_000, 0)), to_10, (10, 10)),
        (within(2, flat(3_000, 0)), to_10, (10, 11)),
        (within(853, flat(3_000, 0)), to_10, (10, 150)),
        (within(854, flat(3_000, 0)), to_10, (0, 0)),
        (within(721, flat(3_000, 0)), to_15, (10, 150)),
        (within(722, flat(3_000, 0)), to_15, (0, 0)),
    ] {
        assert_eq!(answered_in(&sheet, market), expected, "{sheet:?}");
    }
}

#[test]
fn year_10_over_year_9_at_its_ends() {
    // Rates to year 8, of year 9 and of year 10. The low is 800,000,000 or one below, the high
    // 1,100,000,000 or one above.
    for (level, ninth, tenth, expected) in [
        (1_200, 1_009, 2_910, (0, 0)),
        (2_978, 4_343, 5_681, (0, 0)),
        (3_718, 4_366, 5_751, (9, 10)),
        (6_493, 6_429, 7_622, (9, 10)),
        (3_422, 4_843, 3_660, (0, 0)),
        (388, 1_366, 323, (9, 10)),
        (5_800, 5_985, 4_680, (9, 10)),
    ] {
        let mut sheet = flat(level, 0);
        sheet.rates[8..10].copy_from_slice(&[ninth, tenth]);
        assert_eq!(answered_in(&sheet, Market::TO_10), expected, "{level}");
    }
}

#[test]
fn the_factor_follows_the_quote_of_the_smoothing_year() {
    for market in Market::ALL {
        let quote = market.smoothing_quote();
        let page_of = |rate, x| {
            let sheet = with_rate(quote, rate, flat(0, 345));
            page(&in_its_market(&with_x(x, sheet), market), PLAIN)
        };
        for rate in [500, 501] {
            assert_eq!(page_of(rate, 20_000), page_of(rate, 10_000));
        }
        for rate in [-501, -500, 0, 499] {
            assert_ne!(page_of(rate, 20_000), page_of(rate, 10_000));
        }
        // No other quote decides it: at 10% the page is that of the table.
        let others = |x| {
            let mut sheet = with_x(x, flat(0, 345));
            sheet.rates[quote] = 500;
            page(&in_its_market(&sheet, market), PLAIN)
        };
        assert_eq!(others(20_000), others(10_000));
    }
}

#[test]
fn curves_of_smaller_markets_age_as_others_do() {
    for market in Market::SMALLER {
        let journal = [turn(4), in_its_market(&zero_sheet(1), market)].concat();
        for told in 4..=9 {
            let journal = [&journal[..], &turn(told)].concat();
            let age = u64::from(told) - 1;
            for limit in (0..=10).chain([2_399, 2_400, u64::MAX]) {
                let expected = if age <= limit { 0 } else { 16 };
                assert_eq!(looked(limit, &journal, PLAIN, 11, REPLY), expected);
                assert_eq!(looked(limit, &journal, SUM, 11, REPLY), expected);
                assert_eq!(paged(limit, &journal, PLAIN, PAGE), expected);
                assert_eq!(answer_after(limit, &journal, &look_up(11)), expected);
                assert_eq!(looked(limit, &journal, ADJUSTED, 11, REPLY), 14);
                let or_short = if expected == 0 { 15 } else { expected };
                assert_eq!(looked(limit, &journal, PLAIN, 11, REPLY - 1), or_short);
                assert_eq!(paged(limit, &journal, PLAIN, PAGE - 1), or_short);
                assert_eq!(looked(limit, &journal, PLAIN, 151, REPLY), 13);
            }
        }
    }
}

/// Asserts that what stands is the sheet's curves and nothing else, or no curve.
fn assert_stands(journal: &[u8], sheet: Option<&Sheet>) {
    let Some(sheet) = sheet else {
        assert_eq!(paged(LARGEST_AGE_LIMIT, journal, PLAIN, PAGE), 14);
        assert_eq!(looked(LARGEST_AGE_LIMIT, journal, SUM, 11, REPLY), 14);
        return;
    };
    let alone = [turn(10), posted(sheet)].concat();
    assert_eq!(page(journal, PLAIN), page(&alone, PLAIN));
    for year in [10, 11, 16, 21, 150] {
        for kind in [PLAIN, SUM] {
            assert_eq!(reply(journal, kind, year), reply(&alone, kind, year));
        }
    }
    match sheet.adjustment {
        Some(_) => assert_eq!(page(journal, ADJUSTED), page(&alone, ADJUSTED)),
        None => assert_eq!(paged(LARGEST_AGE_LIMIT, journal, ADJUSTED, PAGE), 14),
    }
}

#[test]
fn every_short_list_of_posts_and_withdrawals_across_markets() {
    // What a list of four may hold at each place: a post of some market, refused or not, or a
    // withdrawal.
    let sheets = [
        in_market(&flat(300, 345), Market::TO_10),
        in_market(&flat(200, 345), Market::TO_15),
        with(50, flat(100, 345)),
        in_market(&flat(150, 345), Market::EURO),
    ];
    let refused = [vec![0x08, 0x04], vec![0x08]];
    let choices = sheets.len() + refused.len() + 1;
    for list in 0..choices.pow(4) {
        let mut journal = turn(10);
        let mut standing: Vec<Option<&Sheet>> = vec![None];
        for place in 0..4 {
            let choice = list / choices.pow(place) % choices;
            if let Some(sheet) = sheets.get(choice) {
                journal.extend(posted(sheet));
                standing.push(Some(sheet));
            } else if let Some(bytes) = refused.get(choice - sheets.len()) {
                journal.extend(post(bytes));
            } else {
                journal.extend(withdrawal());
                if standing.len() > 1 {
                    standing.pop();
                }
            }
        }
        // Of four posts only three can be taken back, which no list of four shows.
        let stands = *standing.last().expect("at least none");
        if list % 7 == 0 {
            assert_stands(&journal, stands);
        } else {
            let ground = paged(LARGEST_AGE_LIMIT, &journal, PLAIN, PAGE);
            assert_eq!(ground, if stands.is_some() { 0 } else { 14 });
        }
    }
}

#[test]
fn withdrawals_from_one_market_to_another() {
    let sheets = [
        in_market(&zero_sheet(1), Market::TO_10),
        with(-7, low_rates(2, Some(20_000))),
        in_market(&low_rates(2, Some(20_000)), Market::TO_15),
        in_market(&with(9, low_rates(3, None)), Market::EURO),
        in_market(&low_rates(4, Some(15_000)), Market::TO_10),
    ];
    let posts = sheets.iter().flat_map(posted);
    let mut journal: Vec<u8> = turn(10).into_iter().chain(posts).collect();
    for (times, sheet) in sheets.iter().rev().take(4).enumerate() {
        assert_stands(&journal, Some(sheet));
        // What stands is what 6 goes by, whichever market it is of.
        for market in Market::ALL {
            let before = in_its_market(&zero_sheet(sheet.month - 1), market);
            assert_eq!(answer_after(LARGEST_AGE_LIMIT, &journal, &before), 6);
            let same = in_its_market(&zero_sheet(sheet.month), market);
            assert_eq!(answer_after(LARGEST_AGE_LIMIT, &journal, &same), 0);
        }
        let expected = if times < 3 { 0 } else { 18 };
        let answer = answer_after(LARGEST_AGE_LIMIT, &journal, &withdrawal());
        assert_eq!(answer, expected);
        journal.extend(withdrawal());
    }
}

// Beside the second implementation

/// Look-ups of factors and sums and a page of either curve, and a value, under the limits around
/// its age.
fn ask(random: &mut Random, case: &Case, met: &mut Met) {
    let around = case.age().into_iter().flat_map(limits_around);
    for limit in around.chain([LARGEST_AGE_LIMIT]) {
        let case = case.under(limit);
        let question = Question::Value {
            numbers: numbers_of(&block(random)),
            length: VALUE_LENGTH,
        };
        met.ask(&case, &question).unwrap();
        for which in Which::ALL {
            let named = page_kind(random, which);
            let length = random.one_of(&[PAGE - 1, PAGE, PAGE + 1]);
            met.ask(&case, &Question::Page { named, length }).unwrap();
            let any = random.between(1, 150) as u64;
            for year in [random.one_of(&YEARS), any] {
                for wanted in Wanted::ALL {
                    let question = Question::LookUp {
                        named: kind(random, which, wanted),
                        year,
                        length: random.one_of(&[REPLY - 1, REPLY, REPLY]),
                    };
                    met.ask(&case, &question).unwrap();
                }
            }
        }
    }
}

#[test]
fn seeded_sheets_agree() {
    let mut random = Random::new(101);
    let (mut met, mut counts) = (Met::default(), PostCounts::default());
    for _ in 0..900 {
        // Behind a post that is accepted, so that a curve stands after refused ones too.
        let before = [turn(7), posted(&with(1, flat(2_000, 0)))].concat();
        let call = post(&typed_profiled_sheet(&mut random, 7));
        let journal = [&before[..], &call].concat();
        counts.count_journal(&journal);
        let replayed = Case::replayed(LARGEST_AGE_LIMIT, &before);
        met.ask(&replayed, &Question::Answer { call }).unwrap();
        let replayed = Case::replayed(LARGEST_AGE_LIMIT, &journal);
        ask(&mut random, &replayed, &mut met);
    }
    println!("{met}\n{}", counts.markets);
    for form in FORMS {
        assert!(counts.markets.of_form(form).accepted > 2, "{form:?}");
    }
    // Nothing stood there that a month could be before.
    for due in GROUNDS.into_iter().filter(|due| due.number != 6) {
        assert!(counts.markets.refused(due) > 2, "{due}");
    }
}

#[test]
fn seeded_journals_agree() {
    let mut random = Random::new(102);
    let mut met = Met::default();
    for number in 0..journals() {
        let mut journal = journal(&mut random);
        if number % 3 == 0 {
            // A curve with a profile, of a month that is told, stands more often so.
            let market = random.one_of(&Market::ALL);
            let sheet = in_market(&low_rates(0, None), market);
            let start = [posted(&sheet), turn(random.below(3) as u16)].concat();
            journal = match random.below(2) {
                0 => start,
                _ => [start, journal].concat(),
            };
        }
        let case = Case::replayed(LARGEST_AGE_LIMIT, &journal);
        ask(&mut random, &case, &mut met);
        for _ in 0..4 {
            let call = call(&mut random);
            met.ask(&case, &Question::Answer { call }).unwrap();
        }
    }
    println!("{met}");
    assert_eq!(met.check_markets(), Ok(()));
    for market in Market::ALL {
        for kind in [Kind::LookUp(Which::Plain), Kind::Sum(Which::Plain)] {
            assert!(met.where_stood(market.profile, kind, 0) > 20);
        }
    }
}

#[test]
fn what_was_not_met_of_markets_is_told() {
    let mut met = Met::default();
    assert!(met.check_markets().is_err());
    let journal = in_its_market(&zero_sheet(0), Market::TO_15);
    let case = Case::replayed(LARGEST_AGE_LIMIT, &journal);
    ask(&mut Random::new(103), &case, &mut met);
    let text = met.check_markets().unwrap_err();
    assert!(text.ends_with("profile 1"), "{text}");
}
