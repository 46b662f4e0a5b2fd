//! Sheets with a volatility adjustment: the proved library's curves, named by numbers of every
//! sort, against figures and grounds written by hand, and against the second implementation's.

mod asked;

use asked::{looked, page, paged, posted, reply, with, PAGE, REPLY};
use interface::compare::{Case, Kind, Met, Question};
use interface::{answer_after, ADJUSTED, PLAIN, SUM};
use reference::adjusted::{adjusted_sheet, typed_adjusted_sheet, Alone, TAIL_GROUNDS};
use reference::book::LARGEST_AGE_LIMIT;
use reference::counts::PostCounts;
use reference::curve::Which;
use reference::journal::{look_up, post, turn};
use reference::questions::{age_limits, kind, page_kind};
use reference::sheet::Sheet;
use reference::streams::{low_rates, sheet_bytes, steep_sheet, zero_sheet, Random};
use reference::sums::Wanted;

/// Numbers that name the plain curve's factors: bits 0 and 1 alone count.
const PLAIN_KINDS: [u64; 6] = [PLAIN, 4, 1 << 8, 1 << 32, 1 << 63, 0xFFFF_FFFF_FFFF_FFFC];

/// Numbers that name the adjusted curve's factors.
const ADJUSTED_KINDS: [u64; 6] = [
    ADJUSTED,
    5,
    257,
    (1 << 32) + 1,
    (1 << 63) + 1,
    u64::MAX - SUM,
];

fn flat(rate: i16, ufr: u16) -> Sheet {
    Sheet {
        rates: [rate; 17],
        ufr,
        ..zero_sheet(0)
    }
}

/// The plain curve stays below 1.8 U.
fn near_2_u() -> Sheet {
    let mut sheet = flat(-1_900, 0);
    sheet.rates[13..].copy_from_slice(&[-1_750, -1_600, -1_400, -1_300]);
    Sheet {
        volumes: [1_000_000, 1, 1, 1, 1],
        ..sheet
    }
}

/// Years 10 to 17 have no high rate.
fn steep() -> Sheet {
    let mut sheet = zero_sheet(0);
    sheet.rates[9..].fill(11_111);
    sheet
}

/// The answer to a post on a fresh book: number and place.
fn answered(record: &[u8]) -> (u64, u64) {
    let answer = answer_after(LARGEST_AGE_LIMIT, &[], record);
    (answer % 256, answer / 256)
}

/// Low and high of a year of a sheet that is accepted.
fn band(sheet: &Sheet, kind: u64, year: u64) -> (u64, u64) {
    asked::band(&reply(&posted(sheet), kind, year))
}

// By hand

#[test]
fn figures() {
    let sheet = with(100, flat(3_000, 3_000));
    for (year, plain, adjusted) in [
        (1, (970_873_786, 970_873_787), (969_903_391, 969_903_399)),
        (20, (553_675_753, 553_675_756), (542_712_164, 542_712_255)),
        (150, (11_869_019, 11_869_083), (11_610_751, 11_610_817)),
    ] {
        assert_eq!(band(&sheet, PLAIN, year), plain);
        assert_eq!(band(&sheet, ADJUSTED, year), adjusted);
    }
    // E(0) is U to U, so that no step changes a factor.
    for year in 1..=150 {
        let exact = (1_000_000_000, 1_000_000_000);
        assert_eq!(band(&with(0, zero_sheet(0)), ADJUSTED, year), exact);
    }
    let at_0 = posted(&with(0, flat(3_000, 3_000)));
    assert_eq!(page(&at_0, ADJUSTED), page(&at_0, PLAIN));
    // E(10,000) is U + 10,000 to U + 10,007.
    let below = with(-1, zero_sheet(0));
    assert_eq!(band(&below, ADJUSTED, 1), (1_000_010_000, 1_000_010_007));
}

#[test]
fn every_byte_of_an_adjusted_reply() {
    let journal = [posted(&with(-1, zero_sheet(0))), turn(0x0203)].concat();
    // 1,000,010,000 to 1,000,010,007, month 0, age 515, rates -2 and 0: growth at -1 is
    // 999,990,000, which times the low is just below U × U and times the high just above.
    let expected = [
        0, 0, 0, 0, 0x3B, 0x9A, 0xF1, 0x10, 0, 0, 0, 0, 0x3B, 0x9A, 0xF1, 0x17, 0, 0, 0x02, 0x03,
        0xFF, 0xFF, 0xFF, 0xFE, 0, 0, 0, 0,
    ];
    assert_eq!(1_000_010_000_u32.to_be_bytes(), [0x3B, 0x9A, 0xF1, 0x10]);
    assert_eq!(reply(&journal, ADJUSTED, 1), expected);
}

#[test]
fn bit_0_alone_names_the_curve() {
    let sheet = with(-37, low_rates(0, Some(15_000)));
    let without = posted(&low_rates(0, Some(15_000)));
    let journal = posted(&sheet);
    let (plain, adjusted) = (page(&journal, PLAIN), page(&journal, ADJUSTED));
    assert_eq!(plain, page(&without, PLAIN));
    assert_ne!(plain, adjusted);
    for kind in PLAIN_KINDS {
        assert_eq!(page(&journal, kind), plain, "{kind:#x}");
        // A page has no use for the amount.
        assert_eq!(page(&journal, kind | SUM), plain, "{kind:#x}");
        assert_eq!(reply(&journal, kind, 60), reply(&without, PLAIN, 60));
    }
    for kind in ADJUSTED_KINDS {
        assert_eq!(page(&journal, kind), adjusted, "{kind:#x}");
        assert_eq!(page(&journal, kind | SUM), adjusted, "{kind:#x}");
        assert_eq!(reply(&journal, kind, 60), reply(&journal, ADJUSTED, 60));
    }
}

#[test]
fn a_page_has_the_bands_of_its_look_ups() {
    let journal = posted(&with(250, low_rates(0, None)));
    for kind in [PLAIN, ADJUSTED] {
        for (year, record) in (1..).zip(page(&journal, kind)[5..].chunks_exact(10)) {
            let reply = reply(&journal, kind, year);
            assert_eq!(record[2..6], reply[4..8], "year {year}");
            assert_eq!(record[6..], reply[12..16], "year {year}");
        }
    }
}

#[test]
fn a_missing_adjusted_curve_answers_14() {
    let refused = posted(&with(-500, near_2_u()));
    let none = [vec![], turn(9), refused.clone()];
    let some = [posted(&zero_sheet(0)), posted(&low_rates(0, Some(20_000)))];
    let replaced = [posted(&with(0, zero_sheet(0))), posted(&zero_sheet(0))].concat();
    for age_limit in age_limits(&mut Random::new(45)) {
        for kind in ADJUSTED_KINDS.into_iter().chain([ADJUSTED | SUM, u64::MAX]) {
            for journal in none.iter().chain(&some).chain([&replaced]) {
                assert_eq!(looked(age_limit, journal, kind, 1, REPLY), 14);
                assert_eq!(paged(age_limit, journal, kind, PAGE), 14);
            }
            let kept = [posted(&with(0, zero_sheet(0))), refused.clone()].concat();
            assert_eq!(looked(age_limit, &kept, kind, 1, REPLY), 0);
            assert_eq!(paged(age_limit, &kept, kind, PAGE), 0);
        }
        for kind in PLAIN_KINDS.into_iter().chain([SUM, u64::MAX - ADJUSTED]) {
            for journal in some.iter().chain([&replaced]) {
                assert_eq!(looked(age_limit, journal, kind, 1, REPLY), 0);
                assert_eq!(paged(age_limit, journal, kind, PAGE), 0);
            }
        }
    }
}

#[test]
fn grounds_come_in_their_order() {
    let aged = |sheet: &Sheet, age| [posted(sheet), turn(age)].concat();
    let (without, with) = (steep(), with(500, steep()));
    for length in [0, 12, 27, 28, 29, 60] {
        for age in [3, 4] {
            for year in [0, 151, u64::MAX] {
                assert_eq!(looked(3, &aged(&without, age), ADJUSTED, year, length), 13);
                assert_eq!(looked(3, &aged(&with, age), ADJUSTED, year, length), 13);
            }
            // Missing comes before too old.
            assert_eq!(looked(3, &aged(&without, age), ADJUSTED, 10, length), 14);
        }
        assert_eq!(looked(3, &aged(&with, 4), ADJUSTED, 10, length), 16);
        assert_eq!(looked(3, &aged(&with, 3), ADJUSTED, 10, length), 17);
        let short = if length < REPLY { 15 } else { 0 };
        assert_eq!(looked(3, &aged(&with, 3), ADJUSTED, 9, length), short);
    }
    for length in [0, 1_504, 1_505, 2_000] {
        assert_eq!(paged(3, &aged(&without, 4), ADJUSTED, length), 14);
        assert_eq!(paged(3, &aged(&with, 4), ADJUSTED, length), 16);
        let short = if length < PAGE { 15 } else { 0 };
        assert_eq!(paged(3, &aged(&with, 3), ADJUSTED, length), short);
    }
}

#[test]
fn tails() {
    let followed_by = |tail: &[u8]| answered(&post(&[&sheet_bytes(&zero_sheet(0)), tail].concat()));
    assert_eq!(followed_by(&[0x07, 0, 0]), (0, 0));
    assert_eq!(followed_by(&[0x05, 0, 0]), (2, 26));
    assert_eq!(followed_by(&[0x07, 0x01, 0xF5]), (3, 26));
    assert_eq!(followed_by(&[0x07, 0xFE, 0x0B]), (3, 26));
    assert_eq!(followed_by(&[0x07, 0, 0, 0x06, 0x27, 0x10]), (2, 26));
    for kind in 0..=255 {
        let first = if kind == 0x06 { (0, 0) } else { (2, 26) };
        assert_eq!(followed_by(&[kind, 0x27, 0x10, 0x07, 0, 0]), first);
        let second = if kind == 0x07 { (0, 0) } else { (2, 27) };
        assert_eq!(followed_by(&[0x06, 0x27, 0x10, kind, 0, 0]), second);
    }
    for adjustment in [i16::MIN, -501, -500, -1, 0, 1, 500, 501, i16::MAX] {
        let outside = !(-500..=500).contains(&adjustment);
        let [high, low] = adjustment.to_be_bytes();
        let expected = if outside { (3, 26) } else { (0, 0) };
        assert_eq!(followed_by(&[0x07, high, low]), expected);
        let expected = if outside { (3, 27) } else { (0, 0) };
        assert_eq!(followed_by(&[0x06, 0x27, 0x10, 0x07, high, low]), expected);
    }
    for length in [1, 2, 4, 5, 7, 8, 9] {
        assert_eq!(followed_by(&[0x07; 9][..length]), (1, 0));
    }
}

#[test]
fn a_post_fails_as_a_whole() {
    let limited = |limit, sheet| Sheet { limit, ..sheet };
    for (sheet, adjustment, expected) in [
        (near_2_u(), -500, (8, 41)),
        (limited(2_242, near_2_u()), -500, (8, 41)),
        // The widest plain band is 636, in year 150, the widest adjusted one 672, in year 150.
        (limited(636, flat(3_000, 0)), 100, (10, 142)),
        (limited(671, flat(3_000, 0)), 100, (10, 150)),
        // Plain bands are U to U, adjusted ones 7 wide in year 1 and 15 wide in year 2.
        (limited(6, zero_sheet(0)), -1, (10, 1)),
        (limited(7, zero_sheet(0)), -1, (10, 2)),
    ] {
        assert_eq!(answered(&posted(&sheet)), (0, 0));
        let refused = posted(&with(adjustment, sheet));
        assert_eq!(answered(&refused), expected);
        let before = posted(&with(7, flat(3_000, 0)));
        let journal = [before.clone(), refused].concat();
        for kind in [PLAIN, ADJUSTED] {
            assert_eq!(page(&journal, kind), page(&before, kind));
        }
    }
    // The plain curve comes first.
    assert_eq!(
        answered(&posted(&with(-500, limited(1, near_2_u())))),
        (10, 11)
    );
    for (limit, adjustment, expected) in [
        (635, 100, (10, 150)),
        (672, 100, (0, 0)),
        (635, 0, (10, 150)),
        (636, 0, (0, 0)),
    ] {
        let sheet = with(adjustment, limited(limit, flat(3_000, 0)));
        assert_eq!(answered(&posted(&sheet)), expected);
    }
}

// Beside the second implementation

/// Look-ups of the years and a page of either curve, and the answers to look-ups.
fn ask_curves(random: &mut Random, case: &Case, met: &mut Met, years: &[u8]) {
    for which in Which::ALL {
        let named = page_kind(random, which);
        for length in [PAGE - 1, PAGE] {
            met.ask(case, &Question::Page { named, length }).unwrap();
        }
        for &year in years {
            let question = Question::LookUp {
                named: kind(random, which, Wanted::Factor),
                year: u64::from(year),
                length: random.one_of(&[REPLY - 1, REPLY]),
            };
            met.ask(case, &question).unwrap();
        }
    }
    for &year in years {
        let call = look_up(year);
        met.ask(case, &Question::Answer { call }).unwrap();
    }
}

#[test]
fn every_year_of_every_adjustment_agrees() {
    let mut random = Random::new(46);
    let mut met = Met::default();
    let years: Vec<u8> = (0..=151).collect();
    for adjustment in [-500, -1, 0, 1, 500] {
        for sheet in [zero_sheet(0), steep(), low_rates(0, Some(20_000))] {
            let journal = posted(&with(adjustment, sheet));
            let case = Case::replayed(LARGEST_AGE_LIMIT, &journal);
            ask_curves(&mut random, &case, &mut met, &years);
        }
    }
    for adjustment in (-500..=500).step_by(9) {
        let journal = posted(&with(adjustment, low_rates(0, None)));
        let case = Case::replayed(LARGEST_AGE_LIMIT, &journal);
        ask_curves(&mut random, &case, &mut met, &[1, 19, 20, 21, 22, 150]);
    }
}

#[test]
fn seeded_sheets_agree() {
    let mut random = Random::new(47);
    let (mut met, mut counts) = (Met::default(), PostCounts::default());
    for number in 0..400 {
        let mut sheet = match number % 4 {
            0 => steep_sheet(&mut random, 0),
            _ => adjusted_sheet(&mut random, 0),
        };
        // One in 8 has no adjusted curve.
        let adjustment = random.between(-500, 500) as i16;
        sheet.adjustment = match number % 8 {
            0 => None,
            _ => sheet.adjustment.or(Some(adjustment)),
        };
        let journal = [posted(&sheet), turn(1)].concat();
        counts.count_journal(&journal);
        let years = [(1, 20), (9, 16), (21, 150)].map(|(a, b)| random.between(a, b) as u8);
        let replayed = Case::replayed(0, &journal);
        for age_limit in [0, 1] {
            ask_curves(&mut random, &replayed.under(age_limit), &mut met, &years);
        }
        for _ in 0..4 {
            let call = post(&typed_adjusted_sheet(&mut random, 0));
            let sheet = call[3..].to_vec();
            let answer = met.ask(&replayed, &Question::Answer { call }).unwrap();
            counts.count(&sheet, (answer % 256) as u8);
        }
    }
    println!("{met}\n{counts}");
    for alone in Alone::ALL {
        assert!(counts.adjusted.refused_alone(alone) > 5, "{alone}");
    }
    for ground in TAIL_GROUNDS {
        assert!(counts.adjusted.refused_tails(ground) > 5, "{ground:?}");
    }
    assert_eq!(met.check(&Which::ALL.map(Kind::LookUp)), Ok(()));
    assert_eq!(met.check(&Which::ALL.map(Kind::Page)), Ok(()));
}
