//! Sheets with quotes that are dropped, since their maturity beyond 20 has no volume: the proved
//! library against figures and grounds written by hand, and against the second implementation's
//! look-ups, pages and answers in every pattern of volumes.

use interface::compare::{Case, Question};
use interface::{answer_after, look_after, page_after, PLAIN};
use reference::book::LARGEST_AGE_LIMIT;
use reference::counts::answered_posts;
use reference::dropped::{dropped_sheet, typed_dropped_sheet, DroppedPosts};
use reference::journal::{look_up, post, turn};
use reference::sheet::Sheet;
use reference::streams::{sheet_bytes, worked, Random};

/// The length of a page.
const PAGE: usize = 1_505;

/// The length of a look-up's reply.
const REPLY: usize = 28;

/// Rates that rise to maturity 40.
const RISING: [i16; 17] = [
    500, 700, 900, 1_100, 1_300, 1_500, 1_700, 1_850, 2_000, 2_100, 2_250, 2_400, 2_500, 2_550,
    2_580, 2_590, 2_580,
];

/// The indices of the quotes and of the volumes of maturities 25, 30, 40 and 50.
const DROPPABLE: [(usize, usize); 4] = [(13, 1), (14, 2), (15, 3), (16, 4)];

fn sheet(rates: [i16; 17], volumes: [u32; 5]) -> Sheet {
    Sheet {
        profile: None,
        month: 0,
        rates,
        volumes,
        ufr: 345,
        limit: 100_000,
        phase_in: None,
        adjustment: None,
    }
}

fn flat(rate: i16, volumes: [u32; 5]) -> Sheet {
    sheet([rate; 17], volumes)
}

fn with_quote(mut sheet: Sheet, quote: usize, rate: i16) -> Sheet {
    sheet.rates[quote] = rate;
    sheet
}

/// Volumes of 1 where the pattern has a bit, 20's the lowest.
fn pattern(bits: usize) -> [u32; 5] {
    std::array::from_fn(|i| (bits >> i & 1) as u32)
}

fn posted(sheet: &Sheet) -> Vec<u8> {
    post(&sheet_bytes(sheet))
}

/// The answer to the post of the sheet on a fresh book: number and place.
fn answered(sheet: &Sheet) -> (u64, u64) {
    let answer = answer_after(LARGEST_AGE_LIMIT, &[], &posted(sheet));
    (answer % 256, answer / 256)
}

/// Low and high of a year of an accepted sheet.
fn band(sheet: &Sheet, year: u64) -> (u64, u64) {
    let mut out = [9; REPLY];
    let answer = look_after(LARGEST_AGE_LIMIT, &posted(sheet), PLAIN, year, &mut out);
    assert_eq!(answer, 0, "year {year} of {sheet:?}");
    let number = |at: usize| u64::from_be_bytes(out[at..at + 8].try_into().unwrap());
    (number(0), number(8))
}

fn page(sheet: &Sheet) -> [u8; PAGE] {
    let mut out = [9; PAGE];
    assert_eq!(
        page_after(0, &posted(sheet), PLAIN, &mut out),
        0,
        "{sheet:?}"
    );
    out
}

// By hand

#[test]
fn figures() {
    let rising = |volumes| sheet(RISING, volumes);
    let (to_50, to_30, to_20) = ([1, 0, 0, 0, 1], [1, 0, 1, 0, 0], [1, 0, 0, 0, 0]);
    assert_eq!(band(&rising(to_50), 21), (584_050_196, 584_050_213));
    assert_eq!(band(&rising(to_30), 21), (583_661_829, 583_661_847));
    assert_eq!(band(&rising(to_20), 21), (583_457_516, 583_457_533));
    assert_eq!(band(&rising(to_50), 150), (301_117_935, 301_118_796));
    let below_zero = flat(-500, to_50);
    assert_eq!(band(&below_zero, 20), (1_105_448_169, 1_105_448_171));
    assert_eq!(band(&below_zero, 150), (768_808_537, 768_810_555));
    let untraded_25 = with_quote(flat(3_000, [1, 0, 1, 1, 1]), 13, 12_000);
    assert_eq!(band(&untraded_25, 150), (272_517_314, 272_518_113));
}

#[test]
fn grounds_7_to_9_end_with_the_last_used_quote() {
    for bits in 1..32 {
        let volumes = pattern(bits);
        for (quote, volume) in DROPPABLE {
            // From 3% no gap reaches 12%.
            let maturity = [25, 30, 40, 50][volume - 1];
            let expected = if volumes[volume] > 0 {
                (9, maturity)
            } else {
                (0, 0)
            };
            let sheet = with_quote(flat(3_000, volumes), quote, 12_000);
            assert_eq!(answered(&sheet), expected, "{sheet:?}");
        }
        assert_eq!(
            answered(&with_quote(flat(3_000, volumes), 12, 12_000)),
            (9, 20),
            "20 is always used"
        );
        // Year 35 is the first above 2 U.
        let late = volumes[3] + volumes[4] > 0;
        let expected = if late { (8, 35) } else { (0, 0) };
        assert_eq!(answered(&flat(-2_000, volumes)), expected, "{volumes:?}");
    }
    assert_eq!(answered(&flat(3_000, [0; 5])), (4, 0));
}

#[test]
fn dropped_quotes_are_tested_under_2_and_3() {
    for bits in 1..32 {
        let sheet = sheet(RISING, pattern(bits));
        for (quote, _) in DROPPABLE {
            let record = 2 + quote as u64;
            for rate in [-2_001, 12_001, i16::MIN, i16::MAX] {
                let answer = answered(&with_quote(sheet.clone(), quote, rate));
                assert_eq!(answer, (3, record));
            }
            for (at, byte) in [(0, 0x03), (0, 0x00), (1, 20), (1, 0)] {
                let mut bytes = sheet_bytes(&sheet);
                bytes[3 + 4 * quote + at] = byte;
                assert_eq!(answer_after(0, &[], &post(&bytes)), 2 + 256 * record);
            }
        }
    }
}

#[test]
fn the_rate_of_a_dropped_quote_changes_no_byte_of_a_page() {
    for bits in 1..32 {
        let volumes = pattern(bits);
        let sheet = sheet(RISING, volumes);
        let expected = page(&sheet);
        for (quote, volume) in DROPPABLE {
            for rate in [-2_000, -1, 0, 1, 2_000, 12_000] {
                if volumes[volume] == 0 {
                    assert_eq!(page(&with_quote(sheet.clone(), quote, rate)), expected);
                }
            }
            if volumes[volume] > 0 {
                let other = with_quote(sheet.clone(), quote, 2_600);
                assert_ne!(page(&other), expected, "a quote that is used");
            }
        }
    }
}

// Beside the second implementation

fn agree(case: &Case, question: Question) -> u64 {
    case.ask(&question).unwrap()
}

/// Look-ups of the years, with factors and rates, a page, and the answers to look-ups.
fn ask_curve(case: &Case, years: impl Iterator<Item = u8>) {
    agree(
        case,
        Question::Page {
            named: PLAIN,
            length: PAGE,
        },
    );
    for year in years {
        let asked = Question::LookUp {
            named: PLAIN,
            year: u64::from(year),
            length: REPLY,
        };
        let call = look_up(year);
        assert_eq!(agree(case, asked), agree(case, Question::Answer { call }));
    }
}

/// Sheets of a pattern at rates of every sort, some of them with a phase-in; volumes differ.
fn sheets_of(bits: usize) -> Vec<Sheet> {
    let volumes: [u32; 5] = std::array::from_fn(|i| pattern(bits)[i] * (1 + 7 * i as u32));
    let shapes = [RISING, RISING.map(|rate| 2_400 - rate)];
    let flats = [-1_200, -500, 0, 4_000, 11_000].map(|rate| [rate; 17]);
    let mut sheets = Vec::new();
    for (i, rates) in shapes.into_iter().chain(flats).enumerate() {
        let mut sheet = sheet(rates, volumes);
        sheet.phase_in = (i % 2 == 0).then_some(14_000 + bits as u16);
        for (quote, volume) in DROPPABLE {
            if volumes[volume] == 0 {
                sheet.rates[quote] = [12_000, -2_000][(bits + quote) % 2];
            }
        }
        sheets.push(sheet);
    }
    sheets
}

#[test]
fn every_pattern_agrees() {
    for bits in 1..32 {
        for sheet in sheets_of(bits) {
            assert_eq!(answered(&sheet), (0, 0), "{sheet:?}");
            let journal = [posted(&sheet), turn(2)].concat();
            let case = Case::replayed(2, &journal);
            ask_curve(&case, [1, 15, 20, 21, 25, 30, 40, 50, 150].into_iter());
        }
    }
}

#[test]
fn every_year_of_long_gaps_agrees() {
    for volumes in [[1, 0, 0, 0, 1], [0, 0, 0, 0, 1], [1, 1, 0, 0, 1]] {
        for rate in [-1_300, -300, 0, 12_000] {
            let journal = posted(&flat(rate, volumes));
            let case = Case::replayed(LARGEST_AGE_LIMIT, &journal);
            ask_curve(&case, 0..=151);
        }
    }
}

#[test]
fn trials_beyond_64_bits_agree() {
    // The largest product of the gap 20-50: 29 years at the upper end, times it once more.
    let mut tried = 0;
    for rate in (-1_370..=-280).step_by(15) {
        let sheet = flat(rate, [1, 0, 0, 0, 1]);
        let start = worked(&sheet)
            .expect("an accepted sheet")
            .plain
            .factor(20)
            .high;
        let grown = (0..29).fold(start, |high, _| high * 1_100_000_000 / 1_000_000_000);
        assert!(grown * 1_100_000_000 > 1 << 64, "rate {rate}");
        let journal = posted(&sheet);
        let case = Case::replayed(LARGEST_AGE_LIMIT, &journal);
        ask_curve(&case, [20, 21, 150].into_iter());
        tried += 1;
    }
    assert!(tried > 50);
}

#[test]
fn seeded_sheets_agree() {
    let mut random = Random::new(44);
    let mut dropped = DroppedPosts::default();
    for _ in 0..400 {
        let journal = [posted(&dropped_sheet(&mut random, 0)), turn(1)].concat();
        for (sheet, number) in answered_posts(&journal) {
            dropped.count(&sheet, number == 0);
        }
        let case = Case::replayed(1, &journal);
        let years = [random.between(18, 52), random.between(1, 150)];
        ask_curve(&case, years.into_iter().map(|year| year as u8));
        for _ in 0..5 {
            let call = post(&typed_dropped_sheet(&mut random, 0));
            dropped.count(
                &call[3..],
                agree(&case, Question::Answer { call: call.clone() }) == 0,
            );
        }
    }
    println!("{dropped}");
    assert_eq!(dropped.check(), Ok(()));
}

#[test]
fn a_curve_follows_the_last_accepted_sheet() {
    // Accepted and refused sheets with and without dropped quotes, one after another.
    let all = sheet(RISING, [1; 5]);
    let some = sheet(RISING, [1, 0, 1, 0, 1]);
    let refused = with_quote(some.clone(), 16, 12_000);
    for (sheets, shown) in [
        (vec![&all, &some], &some),
        (vec![&some, &all], &all),
        (vec![&some, &refused], &some),
        (vec![&all, &refused, &some, &refused], &some),
    ] {
        let journal: Vec<u8> = sheets.into_iter().flat_map(posted).collect();
        let mut found = [9; PAGE];
        assert_eq!(page_after(0, &journal, PLAIN, &mut found), 0);
        assert_eq!(found, page(shown));
    }
}
