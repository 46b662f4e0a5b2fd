//! Zero without slack in the proved library: nothing is added to the high of a logarithm at U and of
//! a growth at 0. Figures, bytes and grounds written by hand, and seeded sheets that meet known
//! values beside the second implementation.

mod asked;

use asked::{band, looked, page, paged, posted, reply, with, PAGE, REPLY};
use interface::compare::{Case, Met, Question};
use interface::{answer_after, ADJUSTED, PLAIN, SUM};
use reference::book::LARGEST_AGE_LIMIT;
use reference::counts::PostCounts;
use reference::curve::Which;
use reference::journal::{turn, withdrawal};
use reference::known::{known_sheet, Otherwise};
use reference::questions::{kind, page_kind};
use reference::sheet::Sheet;
use reference::streams::{low_rates, zero_sheet, Random};
use reference::sums::Wanted;

const U: u64 = 1_000_000_000;

/// The years that are looked up by hand.
const YEARS: [u64; 5] = [1, 20, 21, 22, 150];

fn within(limit: u32, sheet: Sheet) -> Sheet {
    Sheet { limit, ..sheet }
}

fn flat(rate: i16, ufr: u16) -> Sheet {
    Sheet {
        rates: [rate; 17],
        ufr,
        ..zero_sheet(0)
    }
}

/// The answer to a post on a fresh book: number and place.
fn answered(sheet: &Sheet) -> (u64, u64) {
    let answer = answer_after(LARGEST_AGE_LIMIT, &[], &posted(sheet));
    (answer % 256, answer / 256)
}

/// Low and high of a year of a sheet that is accepted.
fn band_of(sheet: &Sheet, kind: u64, year: u64) -> (u64, u64) {
    band(&reply(&posted(sheet), kind, year))
}

/// The bytes of the reply to a look-up of `amount` to `amount` with rates 0 and 0.
fn exact_reply(amount: u64, month: u16, age: u16) -> [u8; REPLY] {
    let mut reply = [0; REPLY];
    reply[..8].copy_from_slice(&amount.to_be_bytes());
    reply[8..16].copy_from_slice(&amount.to_be_bytes());
    reply[16..18].copy_from_slice(&month.to_be_bytes());
    reply[18..20].copy_from_slice(&age.to_be_bytes());
    reply
}

/// The page of U to U in every year. U is hex 3B9ACA00.
fn exact_page(month: u16, age: u16) -> [u8; PAGE] {
    let mut page = [0; PAGE];
    page[0] = 0x48;
    page[1..3].copy_from_slice(&month.to_be_bytes());
    page[3..5].copy_from_slice(&age.to_be_bytes());
    for (year, record) in (1..).zip(page[5..].chunks_exact_mut(10)) {
        let pair = [0x3B, 0x9A, 0xCA, 0x00, 0x3B, 0x9A, 0xCA, 0x00];
        record[..2].copy_from_slice(&[0x59, year]);
        record[2..].copy_from_slice(&pair);
    }
    page
}

/// Asserts that every look-up and the page of the curve are exact.
fn assert_exact(journal: &[u8], curve: u64, month: u16, age: u16) {
    for year in YEARS {
        assert_eq!(reply(journal, curve, year), exact_reply(U, month, age));
        let sum = exact_reply(year * U, month, age);
        assert_eq!(reply(journal, curve | SUM, year), sum, "year {year}");
    }
    assert_eq!(page(journal, curve), exact_page(month, age));
}

// By hand

#[test]
fn the_zero_sheet_passes_with_limit_1() {
    assert_eq!(answered(&within(1, zero_sheet(0))), (0, 0));
    assert_eq!(answered(&within(0, zero_sheet(0))), (3, 25));
    let sheet = within(1, zero_sheet(0x0102));
    let journal = [turn(0x0102), posted(&sheet), turn(0x0305)].concat();
    assert_exact(&journal, PLAIN, 0x0102, 0x0203);
    for year in 1..=150 {
        assert_eq!(band(&reply(&journal, PLAIN, year)), (U, U));
        assert_eq!(band(&reply(&journal, SUM, year)), (year * U, year * U));
    }
}

#[test]
fn every_form_of_the_zero_sheet_is_exact() {
    for volumes in [[1; 5], [1, 0, 0, 0, 0], [0, 0, 0, 0, 1], [0, 7, 0, 1, 0]] {
        for phase_in in [None, Some(10_000), Some(20_000)] {
            let mut sheet = Sheet {
                volumes,
                phase_in,
                ..within(1, zero_sheet(0))
            };
            for i in (1..5).filter(|&i| volumes[i] == 0) {
                // Not used, whatever it is.
                sheet.rates[12 + i] = [12_000, -2_000, 1, -1][i - 1];
            }
            assert_exact(&posted(&sheet), PLAIN, 0, 0);
            let journal = posted(&with(0, sheet));
            assert_exact(&journal, PLAIN, 0, 0);
            assert_exact(&journal, ADJUSTED, 0, 0);
        }
    }
}

#[test]
fn the_zero_sheet_stands_after_others_and_comes_back() {
    let zero = || within(1, zero_sheet(0));
    let others = [
        flat(3_000, 0),
        with(100, low_rates(0, Some(20_000))),
        within(2_209, zero_sheet(0)),
    ];
    for other in others {
        let both = [posted(&other), posted(&with(0, zero()))].concat();
        assert_exact(&both, PLAIN, 0, 0);
        assert_exact(&both, ADJUSTED, 0, 0);
        let back = [posted(&zero()), posted(&other), withdrawal()].concat();
        assert_exact(&back, PLAIN, 0, 0);
        assert_eq!(
            page(&[both, withdrawal()].concat(), PLAIN),
            page(&posted(&other), PLAIN)
        );
    }
}

#[test]
fn the_grounds_of_look_ups_and_pages_are_as_ever() {
    let zero = || within(1, zero_sheet(0));
    for (journal, missing) in [(posted(&zero()), 14), (posted(&with(0, zero())), 0)] {
        let old = [&journal[..], &turn(4)].concat();
        for (curve, ground) in [(PLAIN, 0), (ADJUSTED, missing)] {
            let or_else = |other| if ground == 0 { other } else { ground };
            for kind in [curve, curve | SUM] {
                assert_eq!(looked(3, &journal, kind, 151, REPLY), 13);
                assert_eq!(looked(3, &journal, kind, 150, REPLY), ground);
                assert_eq!(looked(3, &journal, kind, 150, REPLY - 1), or_else(15));
                assert_eq!(looked(3, &old, kind, 150, REPLY), or_else(16));
            }
            assert_eq!(paged(3, &journal, curve, PAGE), ground);
            assert_eq!(paged(3, &journal, curve, PAGE - 1), or_else(15));
            assert_eq!(paged(3, &old, curve, PAGE), or_else(16));
        }
    }
}

#[test]
fn bands_beside_a_known_value() {
    // An ultimate forward rate of 0: year 150 was 411,986,547 to 411,987,233.
    let level = flat(3_000, 0);
    assert_eq!(band_of(&level, PLAIN, 150), (411_986_547, 411_987_183));
    // Forwards of 0: year 21 was 998,360,571 to 998,360,582.
    let rising = flat(0, 3_450);
    assert_eq!(band_of(&rising, PLAIN, 21), (998_360_572, 998_360_582));
    let rising = flat(0, 1);
    assert_eq!(band_of(&rising, PLAIN, 21), (U - 492, U - 482));
    // An adjustment of 0: year 20 was 997,198,860 to 997,198,881.
    let low = with(0, low_rates(0, None));
    assert_eq!(band_of(&low, ADJUSTED, 20), (997_198_880, 997_198_881));
    assert_eq!(band_of(&low, ADJUSTED, 150), (647_775_926, 647_777_646));
}

#[test]
fn an_adjustment_of_0_is_the_plain_curve_once_more() {
    for sheet in [zero_sheet(0), flat(3_000, 0), low_rates(0, Some(20_000))] {
        let journal = posted(&with(0, sheet));
        assert_eq!(page(&journal, ADJUSTED), page(&journal, PLAIN));
        for year in YEARS {
            for amount in [0, SUM] {
                let [plain, adjusted] =
                    [PLAIN, ADJUSTED].map(|curve| reply(&journal, curve | amount, year));
                assert_eq!(plain, adjusted, "year {year}");
            }
        }
    }
}

#[test]
fn limits() {
    let mut near_2_u = flat(-1_911, 0);
    near_2_u.rates[13..].copy_from_slice(&[-1_750, -1_600, -1_400, -1_300]);
    near_2_u.volumes = [1_000_000, 17, 1, 1, 1];
    for (sheet, expected) in [
        (within(635, flat(3_000, 0)), (10, 150)),
        (within(636, flat(3_000, 0)), (0, 0)),
        (within(635, with(0, flat(3_000, 0))), (10, 150)),
        (within(636, with(0, flat(3_000, 0))), (0, 0)),
        (within(9, flat(0, 1)), (10, 21)),
        (within(10, flat(0, 1)), (10, 22)),
        (within(1, with(0, zero_sheet(0))), (0, 0)),
        (within(1, with(-1, zero_sheet(0))), (10, 1)),
        (within(1, with(1, zero_sheet(0))), (10, 1)),
        // Refused on 10 with slack at known values, the last one on 8.
        (within(2_208, zero_sheet(0)), (0, 0)),
        (within(685, flat(3_000, 0)), (0, 0)),
        (within(690, with(0, flat(3_000, 0))), (0, 0)),
        (with(-381, near_2_u), (0, 0)),
    ] {
        assert_eq!(answered(&sheet), expected, "{sheet:?}");
    }
}

// Beside the second implementation

/// Look-ups of factors and sums and a page of either curve.
fn ask(random: &mut Random, case: &Case, met: &mut Met) {
    for which in Which::ALL {
        let named = page_kind(random, which);
        let length = PAGE;
        met.ask(case, &Question::Page { named, length }).unwrap();
        let any = random.between(23, 149) as u64;
        for year in YEARS.into_iter().chain([any]) {
            for wanted in Wanted::ALL {
                let question = Question::LookUp {
                    named: kind(random, which, wanted),
                    year,
                    length: REPLY,
                };
                met.ask(case, &question).unwrap();
            }
        }
    }
}

#[test]
fn seeded_sheets_agree() {
    let mut random = Random::new(91);
    let (mut met, mut counts) = (Met::default(), PostCounts::default());
    for _ in 0..600 {
        // Behind a post that is accepted, so that a curve stands after refused ones too.
        let sheet = known_sheet(&mut random, 0);
        let before = posted(&with(1, flat(2_000, 0)));
        let journal = [before.clone(), posted(&sheet)].concat();
        counts.count_journal(&journal);
        let call = posted(&sheet);
        let replayed = Case::replayed(LARGEST_AGE_LIMIT, &before);
        met.ask(&replayed, &Question::Answer { call }).unwrap();
        let replayed = Case::replayed(LARGEST_AGE_LIMIT, &journal);
        ask(&mut random, &replayed, &mut met);
    }
    println!("{met}\n{}", counts.known);
    for otherwise in Otherwise::ALL {
        assert!(counts.known.of(otherwise) > 20, "{otherwise}");
    }
}
