//! The rates in the proved library's replies, and ground 17: against bytes and answers written
//! by hand, and against the second implementation's on every year of steep curves.

use interface::compare::{Case, Kind, Met, Question};
use interface::{answer_after, look_after, page_after, PLAIN};
use reference::book::LARGEST_AGE_LIMIT;
use reference::curve::Which;
use reference::journal::{look_up, post, turn};
use reference::questions::age_limits;
use reference::sheet::Sheet;
use reference::streams::{low_rates, sheet_bytes, steep_sheet, worked, zero_sheet, Random};

/// The length of a reply.
const REPLY: usize = 28;

/// What lent bytes hold.
const LENT: u8 = 9;

/// The zero sheet with these rates for maturities 8, 9 and all later ones.
fn tail(rate_8: i16, rate_9: i16, later: i16) -> Sheet {
    let mut sheet = zero_sheet(0);
    sheet.rates[7..9].copy_from_slice(&[rate_8, rate_9]);
    sheet.rates[9..].fill(later);
    sheet
}

/// Year 9 is U, year 10 is U / 111,111 with a low of 9,000. With the ultimate forward rate at
/// its highest the lows of the last years are 0.
fn steep(ufr: u16) -> Sheet {
    Sheet {
        ufr,
        ..tail(0, 0, 11_111)
    }
}

fn posted(sheet: &Sheet) -> Vec<u8> {
    post(&sheet_bytes(sheet))
}

/// The reply to an accepted look-up.
fn reply(journal: &[u8], year: u64) -> [u8; REPLY] {
    let mut out = [LENT; REPLY];
    let answer = look_after(LARGEST_AGE_LIMIT, journal, PLAIN, year, &mut out);
    assert_eq!(answer, 0, "year {year}");
    out
}

fn rates(sheet: &Sheet, year: u64) -> (i32, i32) {
    let reply = reply(&posted(sheet), year);
    let number = |at: usize| i32::from_be_bytes(reply[at..at + 4].try_into().unwrap());
    (number(20), number(24))
}

/// The ground of a look-up into `length` bytes, all of which a refusal leaves.
fn looked(age_limit: u64, journal: &[u8], year: u64, length: usize) -> u64 {
    let mut out = vec![LENT; length];
    let ground = look_after(age_limit, journal, PLAIN, year, &mut out);
    assert!(ground == 0 || out == vec![LENT; length]);
    ground
}

#[test]
fn every_byte_of_a_reply() {
    let mut sheet = zero_sheet(0x0102);
    sheet.rates[0] = -500;
    let journal = [turn(0x0102), posted(&sheet), turn(0x0305)].concat();
    // 1,005,025,125 to 1,005,025,126, month 258, age 515, rates -501 and -499.
    let expected = [
        0, 0, 0, 0, 0x3B, 0xE7, 0x77, 0x65, 0, 0, 0, 0, 0x3B, 0xE7, 0x77, 0x66, 0x01, 0x02, 0x02,
        0x03, 0xFF, 0xFF, 0xFE, 0x0B, 0xFF, 0xFF, 0xFE, 0x0D,
    ];
    assert_eq!(1_005_025_125_u32.to_be_bytes(), [0x3B, 0xE7, 0x77, 0x65]);
    assert_eq!(reply(&journal, 1), expected);
}

#[test]
fn bytes_past_the_reply_are_kept() {
    let journal = posted(&low_rates(0, None));
    let expected = reply(&journal, 60);
    for length in REPLY..=64 {
        let mut out = vec![LENT; length];
        assert_eq!(look_after(0, &journal, PLAIN, 60, &mut out), 0);
        assert_eq!(out[..REPLY], expected);
        assert_eq!(out[REPLY..], vec![LENT; length - REPLY]);
    }
}

#[test]
fn rates_worked_by_hand() {
    let flat = |rate| Sheet {
        rates: [rate; 17],
        ..zero_sheet(0)
    };
    // U to U in every year, and growth at 0 is U.
    for year in 1..=150 {
        assert_eq!(rates(&zero_sheet(0), year), (0, 0));
    }
    // U - 492 to U - 482 in year 21, where a step of the rate is 210,000 of the factor.
    let rising = Sheet {
        ufr: 1,
        ..zero_sheet(0)
    };
    assert_eq!(rates(&rising, 21), (0, 1));
    assert_eq!(rates(&flat(3_000), 1), (2_999, 3_001));
    assert_eq!(rates(&flat(3_000), 2), (2_999, 3_001));
    assert_eq!(rates(&flat(2_400), 1), (2_400, 2_400));
    assert_eq!(rates(&flat(2_400), 2), (2_399, 2_401));
    // A low of 976,563 in year 10 just reaches par at the highest rate.
    assert_eq!(rates(&tail(2, 1_088, 11_220), 10), (99_999, 100_000));
}

#[test]
fn a_year_without_a_high_rate_answers_17() {
    let cases = [
        (
            steep(0),
            vec![10, 11, 12, 13, 14, 15, 16, 17],
            vec![1, 9, 18, 19, 20, 21, 150],
        ),
        (steep(10_000), vec![10, 17, 150], vec![1, 9, 18, 20, 60]),
        (tail(-13, 1_498, 11_264), vec![10], vec![1, 8, 9]),
        (tail(2, 1_088, 11_220), vec![], vec![1, 8, 9, 10]),
    ];
    for (sheet, without, with) in cases {
        let journal = posted(&sheet);
        for year in without {
            assert_eq!(answer_after(0, &journal, &look_up(year)), 17);
            // Whatever the buffer: one that is too short is tried last.
            for length in 0..=40 {
                assert_eq!(looked(0, &journal, u64::from(year), length), 17);
            }
        }
        for year in with {
            assert_eq!(answer_after(0, &journal, &look_up(year)), 0);
            for length in 0..=40 {
                let expected = if length < REPLY { 15 } else { 0 };
                assert_eq!(looked(0, &journal, u64::from(year), length), expected);
            }
        }
    }
}

#[test]
fn grounds_13_14_and_16_come_before_17() {
    let shown = [posted(&steep(10_000)), turn(3)].concat();
    let old = [posted(&steep(10_000)), turn(4)].concat();
    for length in [0, 12, 27, 28, 29, 60] {
        assert_eq!(looked(3, &turn(4), 10, length), 14);
        for (year, outside) in [(10, 0), (17, 151), (150, u64::MAX)] {
            assert_eq!(looked(3, &shown, year, length), 17);
            assert_eq!(looked(3, &old, year, length), 16);
            assert_eq!(looked(4, &old, year, length), 17);
            assert_eq!(looked(3, &shown, outside, length), 13);
            assert_eq!(looked(3, &old, outside, length), 13);
        }
    }
}

#[test]
fn a_page_still_has_the_pair() {
    for sheet in [steep(0), steep(10_000)] {
        let journal = posted(&sheet);
        let mut page = [LENT; 1_505];
        assert_eq!(page_after(0, &journal, PLAIN, &mut page), 0);
        let curve = worked(&sheet).expect("an accepted sheet").plain;
        for (year, record) in (1..).zip(page[5..].chunks_exact(10)) {
            let factor = curve.factor(year);
            let four_bytes = |value| u32::try_from(value).unwrap().to_be_bytes();
            assert_eq!(record[..2], [0x59, year as u8]);
            assert_eq!(record[2..6], four_bytes(factor.low));
            assert_eq!(record[6..], four_bytes(factor.high));
        }
        assert_eq!(page_after(0, &journal, PLAIN, &mut page[..1_504]), 15);
    }
}

/// Both libraries' answers to look-ups of all years, as questions and as records.
fn ask_all_years(case: &Case, met: &mut Met) {
    for year in 0..=151 {
        let questions = [
            Question::LookUp {
                named: PLAIN,
                year: u64::from(year),
                length: REPLY,
            },
            Question::Answer {
                call: look_up(year),
            },
        ];
        let answers = questions.map(|question| met.ask(case, &question).unwrap());
        assert_eq!(answers[0], answers[1], "year {year}");
    }
}

#[test]
fn every_year_of_steep_curves_agrees() {
    let mut random = Random::new(42);
    let mut met = Met::default();
    for _ in 0..25 {
        let journal = [posted(&steep_sheet(&mut random, 0)), turn(1)].concat();
        let replayed = Case::replayed(LARGEST_AGE_LIMIT, &journal);
        let any = age_limits(&mut random)[random.below(10) as usize];
        for age_limit in [0, 1, any] {
            ask_all_years(&replayed.under(age_limit), &mut met);
        }
    }
    println!("{met}");
    assert_eq!(
        met.check(&[Kind::LookUp(Which::Plain), Kind::Answer]),
        Ok(())
    );
}
