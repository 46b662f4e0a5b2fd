//! Annuity sums in the proved library's look-ups: against figures, bytes and grounds written by
//! hand, against the library's own pages added up, and against the second implementation's on
//! random journals.

mod asked;
mod common;

use asked::{band, level, looked, page, paged, posted, reply, steep, with, PAGE, REPLY};
use common::{cases, journals};
use interface::compare::{lent, Case, Kind, Met, Question};
use interface::{answer_after, look_after, ADJUSTED, PLAIN, SUM};
use reference::book::LARGEST_AGE_LIMIT;
use reference::curve::Which;
use reference::journal::{look_up, turn, withdrawal, NO_RECORD};
use reference::questions::{age_limits, journal, kind};
use reference::sheet::Sheet;
use reference::streams::{low_rates, steep_sheet, zero_sheet, Random};
use reference::sums::{kind_of, Wanted};

const U: u64 = 1_000_000_000;

/// Bits of a `kind` that have no meaning, in every sort.
const OTHERS: [u64; 6] = [0, 4, 1 << 8, 1 << 32, 1 << 63, 0xFFFF_FFFF_FFFF_FFFC];

/// Buffers for look-ups, whose reply has 28 bytes.
const BUFFERS: [usize; 9] = [0, 1, 12, 20, 26, 27, 28, 29, 60];

/// Low and high of a sum that is shown.
fn sum(journal: &[u8], curve: u64, year: u64) -> (u64, u64) {
    band(&reply(journal, curve | SUM, year))
}

/// Asserts that each year's sum is what the page adds up to, and that the rest of its reply, or its
/// ground, is that of the year's factor.
fn assert_sums(journal: &[u8], curve: u64) {
    let (mut low, mut high) = (0, 0);
    for (year, record) in (1..).zip(page(journal, curve)[5..].chunks_exact(10)) {
        let number = |at: usize| u32::from_be_bytes(record[at..at + 4].try_into().unwrap());
        low += u64::from(number(2));
        high += u64::from(number(6));
        let [factor, sum] = [curve, curve | SUM].map(|kind| {
            let mut out = [9; REPLY];
            let ground = look_after(LARGEST_AGE_LIMIT, journal, kind, year, &mut out);
            (ground, out)
        });
        let mut expected = factor;
        if factor.0 == 0 {
            expected.1[..8].copy_from_slice(&low.to_be_bytes());
            expected.1[8..16].copy_from_slice(&high.to_be_bytes());
        }
        assert_eq!(sum, expected, "year {year}");
    }
}

// By hand

#[test]
fn figures() {
    let journal = posted(&with(100, level(0)));
    for (year, plain) in [
        (1, (970_873_786, 970_873_787)),
        (2, (1_913_469_695, 1_913_469_697)),
        (20, (14_877_474_821, 14_877_474_897)),
        (60, (27_675_560_170, 27_675_565_273)),
        (150, (32_937_687_927, 32_937_702_762)),
    ] {
        assert_eq!(sum(&journal, PLAIN, year), plain, "year {year}");
    }
    let adjusted = sum(&journal, ADJUSTED, 2);
    assert_eq!(adjusted, (1_910_615_980, 1_910_616_003));
    let adjusted = sum(&journal, ADJUSTED, 150);
    assert_eq!(adjusted, (32_411_770_804, 32_411_789_723));
}

#[test]
fn figures_of_the_zero_sheet() {
    // Every year is U to U: G(U) is 0 to 0, and E(0) is U to U.
    let journal = posted(&with(0, zero_sheet(0)));
    for year in 1..=150 {
        assert_eq!(sum(&journal, PLAIN, year), (year * U, year * U));
        assert_eq!(sum(&journal, ADJUSTED, year), (year * U, year * U));
    }
    // With an ultimate forward rate of 1 year 21 is U - 492 to U - 482.
    let rising = posted(&Sheet {
        ufr: 1,
        ..zero_sheet(0)
    });
    assert_eq!(sum(&rising, PLAIN, 21), (21 * U - 492, 21 * U - 482));
}

#[test]
fn every_byte_of_a_sum() {
    let journal = [turn(0x0102), posted(&level(0x0102)), turn(0x0305)].concat();
    // 14,877,474,821 to 14,877,474,897, month 258, age 515, rates 2,999 and 3,001.
    let expected = [
        0, 0, 0, 0x03, 0x76, 0xC4, 0x40, 0x05, 0, 0, 0, 0x03, 0x76, 0xC4, 0x40, 0x51, 0x01, 0x02,
        0x02, 0x03, 0, 0, 0x0B, 0xB7, 0, 0, 0x0B, 0xB9,
    ];
    assert_eq!(14_877_474_821_u64.to_be_bytes(), expected[..8]);
    assert_eq!(reply(&journal, SUM, 20), expected);
}

#[test]
fn every_year_adds_up_to_the_page() {
    let any = steep_sheet(&mut Random::new(81), 0);
    for sheet in [
        zero_sheet(0),
        level(0),
        steep(),
        low_rates(0, Some(20_000)),
        any,
    ] {
        for adjustment in [-500, 0, 100] {
            let journal = posted(&with(adjustment, sheet.clone()));
            assert_sums(&journal, PLAIN);
            assert_sums(&journal, ADJUSTED);
        }
        assert_sums(&posted(&sheet), PLAIN);
    }
}

#[test]
fn bits_0_and_1_alone_name_curve_and_amount() {
    let journal = posted(&with(-37, low_rates(0, Some(15_000))));
    let named = [PLAIN, ADJUSTED, SUM, ADJUSTED | SUM];
    let replies = named.map(|kind| reply(&journal, kind, 60));
    for (kind, expected) in named.into_iter().zip(replies) {
        for others in OTHERS {
            assert_eq!(reply(&journal, kind | others, 60), expected, "{kind:#x}");
        }
        let same = replies.iter().filter(|&&reply| reply == expected);
        assert_eq!(same.count(), 1, "{kind:#x}");
    }
}

#[test]
fn a_sum_may_be_wider_than_the_limit() {
    let limited = |limit| posted(&Sheet { limit, ..level(0) });
    assert_eq!(answer_after(0, &[], &limited(159)) % 256, 10);
    let (low, high) = sum(&limited(160), PLAIN, 150);
    assert_eq!(high - low, 14_835);
}

#[test]
fn posts_and_withdrawals_keep_the_sums() {
    let sheets = [
        with(100, level(0)),
        low_rates(0, None),
        with(0, zero_sheet(0)),
        with(-500, steep()),
    ];
    let records = sheets.each_ref().map(posted);
    // Each after those before it, and again after those behind it are taken back.
    for (count, sheet) in (1..).zip(&sheets) {
        let journal = records[..count].concat();
        let back = [records.concat(), withdrawal().repeat(4 - count)].concat();
        for journal in [&journal, &back] {
            assert_sums(journal, PLAIN);
            let alone = posted(sheet);
            assert_eq!(reply(journal, SUM, 150), reply(&alone, SUM, 150));
            match sheet.adjustment {
                Some(_) => assert_sums(journal, ADJUSTED),
                None => assert_eq!(looked(0, journal, ADJUSTED | SUM, 150, REPLY), 14),
            }
        }
    }
    // Three posts are taken back, and to no curve.
    let none = [records[..3].concat(), withdrawal().repeat(3)].concat();
    for curve in [PLAIN, ADJUSTED] {
        assert_eq!(looked(0, &none, curve | SUM, 150, REPLY), 14);
    }
}

#[test]
fn grounds_come_in_their_order() {
    let aged = |sheet: &Sheet, age| [posted(sheet), turn(age)].concat();
    let (without, with) = (steep(), with(500, steep()));
    for others in OTHERS {
        let [plain, adjusted] = [PLAIN, ADJUSTED].map(|curve| curve | SUM | others);
        for length in BUFFERS {
            let short = if length < REPLY { 15 } else { 0 };
            for age in [3, 4] {
                for year in [0, 151, (1 << 32) + 20, u64::MAX] {
                    assert_eq!(looked(3, &aged(&without, age), adjusted, year, length), 13);
                    assert_eq!(looked(3, &aged(&with, age), plain, year, length), 13);
                }
                assert_eq!(looked(3, &turn(age), plain, 10, length), 14);
                assert_eq!(looked(3, &aged(&without, age), adjusted, 10, length), 14);
            }
            for kind in [plain, adjusted] {
                assert_eq!(looked(3, &aged(&with, 4), kind, 10, length), 16);
                assert_eq!(looked(3, &aged(&with, 4), kind, 9, length), 16);
                assert_eq!(looked(3, &aged(&with, 3), kind, 10, length), 17);
                assert_eq!(looked(3, &aged(&with, 3), kind, 9, length), short);
            }
        }
    }
}

#[test]
fn ground_17_goes_by_the_factor_of_the_year() {
    let journal = posted(&steep());
    for year in 1..=150 {
        let expected = if (10..=17).contains(&year) { 17 } else { 0 };
        for kind in [PLAIN, SUM] {
            assert_eq!(looked(0, &journal, kind, year, REPLY), expected);
        }
    }
    assert_eq!(sum(&journal, PLAIN, 9), (9 * U, 9 * U));
    let next = sum(&journal, PLAIN, 18);
    assert_eq!(next, (9_000_055_112, 9_000_055_156));
}

#[test]
fn buffers_of_every_length() {
    let journal = posted(&with(100, level(0)));
    for curve in [PLAIN, ADJUSTED] {
        let expected = reply(&journal, curve | SUM, 60);
        for length in 0..=60 {
            let lent = lent(length);
            let mut out = lent.clone();
            let answer = look_after(0, &journal, curve | SUM, 60, &mut out);
            if length < REPLY {
                assert_eq!((answer, &out), (15, &lent), "{length} bytes");
                continue;
            }
            assert_eq!((answer, &out[..REPLY]), (0, &expected[..]));
            assert_eq!(out[REPLY..], lent[REPLY..], "{length} bytes");
        }
    }
}

#[test]
fn a_page_ignores_bit_1() {
    let (with, without) = (posted(&with(100, level(0))), posted(&level(0)));
    for curve in [PLAIN, ADJUSTED] {
        let expected = page(&with, curve);
        for others in OTHERS {
            let kind = curve | SUM | others;
            assert_eq!(page(&with, kind), expected, "{kind:#x}");
            assert_eq!(paged(0, &with, kind, PAGE - 1), 15);
            assert_eq!(paged(0, &[&with[..], &turn(1)].concat(), kind, PAGE), 16);
            let missing = if curve == PLAIN { 0 } else { 14 };
            assert_eq!(paged(0, &without, kind, PAGE), missing);
        }
    }
}

#[test]
fn a_record_never_asks_for_a_sum() {
    let journal = posted(&steep());
    for year in 0..=255 {
        let expected = looked(0, &journal, PLAIN, u64::from(year), REPLY);
        for behind in [&[][..], &[2], &[3, 2]] {
            let call = [&look_up(year)[..], behind].concat();
            assert_eq!(answer_after(0, &journal, &call), expected);
        }
    }
    let known = [0x4C, 0x4D, 0x50, 0x57];
    for kind in (0..=255).filter(|kind| !known.contains(kind)) {
        assert_eq!(answer_after(0, &journal, &[kind, 20, 20]), NO_RECORD);
    }
}

#[test]
fn nothing_is_kept_between_two_questions() {
    let (one, other) = (posted(&with(100, level(0))), posted(&zero_sheet(0)));
    let kinds = [PLAIN, SUM, ADJUSTED, ADJUSTED | SUM];
    let expected = kinds.map(|kind| reply(&one, kind, 150));
    for _ in 0..3 {
        for (kind, expected) in kinds.into_iter().zip(expected) {
            assert_eq!(reply(&one, kind, 150), expected);
            assert_eq!(sum(&other, PLAIN, 20), (20 * U, 20 * U));
            assert_eq!(looked(0, &[], kind, 150, REPLY), 14);
        }
    }
}

// Beside the second implementation

#[test]
fn sums_agree() {
    let mut random = Random::new(82);
    let mut met = Met::default();
    for number in 0..journals() {
        let journal = journal(&mut random);
        for case in cases(&mut random, &journal) {
            let (early, any) = (random.between(9, 20), random.between(1, 150));
            let years = [
                0,
                1,
                early as u64,
                20,
                any as u64,
                150,
                151,
                random.number(),
            ];
            for (which, year) in Which::ALL.into_iter().flat_map(|w| years.map(|y| (w, y))) {
                let question = Question::LookUp {
                    named: kind(&mut random, which, Wanted::Sum),
                    year,
                    length: random.one_of(&BUFFERS),
                };
                let answer = met.ask(&case, &question);
                assert!(answer.is_ok(), "journal {number}: {answer:?}");
            }
        }
    }
    println!("{met}");
    assert_eq!(met.check(&Which::ALL.map(Kind::Sum)), Ok(()));
    assert_eq!(met.check(&Which::ALL.map(Kind::ShortSum)), Ok(()));
}

#[test]
fn every_year_agrees() {
    let mut random = Random::new(83);
    let mut met = Met::default();
    for adjustment in [-500, -1, 0, 1, 500] {
        let any = steep_sheet(&mut random, 0);
        for sheet in [zero_sheet(0), steep(), low_rates(0, Some(20_000)), any] {
            let journal = [posted(&with(adjustment, sheet)), turn(1)].concat();
            let replayed = Case::replayed(LARGEST_AGE_LIMIT, &journal);
            let any_limit = age_limits(&mut random)[random.below(10) as usize];
            for (which, year) in Which::ALL
                .into_iter()
                .flat_map(|w| (0..=151).map(move |y| (w, y)))
            {
                let question = Question::LookUp {
                    named: kind_of(which, Wanted::Sum),
                    year,
                    length: REPLY,
                };
                for age_limit in [0, 1, any_limit] {
                    met.ask(&replayed.under(age_limit), &question).unwrap();
                }
            }
        }
    }
    println!("{met}");
}
