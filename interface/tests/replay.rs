//! The proved library's look-ups and pages against the second implementation's, on random
//! journals under many age limits, and against figures and grounds written by hand.

mod common;

use common::{cases, journals};
use interface::compare::{Case, Kind, Met, Question};
use interface::{look_after, page_after, PLAIN};
use reference::book::LARGEST_AGE_LIMIT;
use reference::convergence::TEN_PERCENT;
use reference::curve::Which;
use reference::journal::{post, turn};
use reference::questions::{age_limits, journal, kind, page_kind};
use reference::sheet::Sheet;
use reference::streams::{low_rates, sheet, sheet_bytes, worked, Random};
use reference::sums::Wanted;

const BUFFERS: [usize; 5] = [0, 1_504, 1_505, 1_506, 2_000];
const LOOK_UP_BUFFERS: [usize; 9] = [0, 1, 12, 20, 26, 27, 28, 29, 60];

/// The page of a sheet that is accepted, which is the same under every age limit.
fn page_of(sheet: &Sheet) -> Vec<u8> {
    let journal = post(&sheet_bytes(sheet));
    let page = |age_limit| {
        let mut page = vec![0; 1_505];
        assert_eq!(page_after(age_limit, &journal, PLAIN, &mut page), 0);
        page
    };
    let shown = page(0);
    for age_limit in age_limits(&mut Random::new(36)) {
        assert_eq!(page(age_limit), shown, "age limit {age_limit}");
    }
    shown
}

/// The reply to the look-up of a year of a sheet that is accepted, the same under every age
/// limit.
fn reply_of(sheet: &Sheet, year: u64) -> [u8; 28] {
    let journal = post(&sheet_bytes(sheet));
    let reply = |age_limit| {
        let mut out = [0; 28];
        assert_eq!(look_after(age_limit, &journal, PLAIN, year, &mut out), 0);
        out
    };
    let shown = reply(0);
    for age_limit in age_limits(&mut Random::new(37)) {
        assert_eq!(reply(age_limit), shown, "age limit {age_limit}");
    }
    shown
}

/// Low and high of a year of a sheet that is accepted.
fn band_of(sheet: &Sheet, year: u64) -> (u64, u64) {
    let reply = reply_of(sheet, year);
    let number = |at: usize| u64::from_be_bytes(reply[at..at + 8].try_into().unwrap());
    (number(0), number(8))
}

/// Low rate and high rate of a year of a sheet that is accepted.
fn rates_of(sheet: &Sheet, year: u64) -> (i32, i32) {
    let reply = reply_of(sheet, year);
    let number = |at: usize| i32::from_be_bytes(reply[at..at + 4].try_into().unwrap());
    (number(20), number(24))
}

/// Both curves with each of these.
fn of_each_curve<T: Copy>(each: &[T]) -> Vec<(Which, T)> {
    let pairs = |which| each.iter().map(move |&one| (which, one));
    Which::ALL.into_iter().flat_map(pairs).collect()
}

#[test]
fn pages_agree() {
    let mut random = Random::new(31);
    let mut met = Met::default();
    for number in 0..journals() {
        let journal = journal(&mut random);
        for case in cases(&mut random, &journal) {
            for (which, length) in of_each_curve(&BUFFERS) {
                let named = page_kind(&mut random, which);
                let answer = met.ask(&case, &Question::Page { named, length });
                assert!(answer.is_ok(), "journal {number}: {answer:?}");
            }
        }
    }
    println!("{met}");
    assert_eq!(met.check(&Which::ALL.map(Kind::Page)), Ok(()));
    assert_eq!(met.check(&Which::ALL.map(Kind::ShortPage)), Ok(()));
}

#[test]
fn look_ups_agree() {
    let mut random = Random::new(32);
    let mut met = Met::default();
    for number in 0..journals() {
        let journal = journal(&mut random);
        for case in cases(&mut random, &journal) {
            let early = random.between(9, 20) as u64;
            let years = [0, 1, early, 20, 21, 150, 151, random.number()];
            for (which, year) in of_each_curve(&years) {
                let question = Question::LookUp {
                    named: kind(&mut random, which, Wanted::Factor),
                    year,
                    length: random.one_of(&LOOK_UP_BUFFERS),
                };
                let answer = met.ask(&case, &question);
                assert!(answer.is_ok(), "journal {number}: {answer:?}");
            }
        }
    }
    println!("{met}");
    assert_eq!(met.check(&Which::ALL.map(Kind::LookUp)), Ok(()));
    assert_eq!(met.check(&Which::ALL.map(Kind::ShortLookUp)), Ok(()));
}

/// A curve of month 0, accepted, that is `age` months old.
fn aged(age: u16) -> Vec<u8> {
    [post(&sheet_bytes(&low_rates(0, None))), turn(age)].concat()
}

/// The ground of a look-up into `length` bytes, all of which a refusal leaves.
fn looked(age_limit: u64, journal: &[u8], year: u64, length: usize) -> u64 {
    let mut out = vec![9; length];
    let ground = look_after(age_limit, journal, PLAIN, year, &mut out);
    assert!(ground == 0 || out == vec![9; length]);
    ground
}

/// The ground of a page into `length` bytes, all of which a refusal leaves.
fn paged(age_limit: u64, journal: &[u8], length: usize) -> u64 {
    let mut out = vec![9; length];
    let ground = page_after(age_limit, journal, PLAIN, &mut out);
    assert!(ground == 0 || out == vec![9; length]);
    ground
}

#[test]
fn grounds_come_in_their_order() {
    for age_limit in age_limits(&mut Random::new(33)) {
        for length in LOOK_UP_BUFFERS {
            assert_eq!(looked(age_limit, &turn(2_399), 0, length), 13);
            assert_eq!(looked(age_limit, &turn(2_399), 1, length), 14);
        }
        for length in BUFFERS {
            assert_eq!(paged(age_limit, &turn(2_399), length), 14);
        }
    }
    let (shown, old) = (aged(3), aged(4));
    for length in LOOK_UP_BUFFERS {
        assert_eq!(looked(3, &old, 151, length), 13);
        assert_eq!(looked(3, &old, 150, length), 16);
        let short = if length < 28 { 15 } else { 0 };
        assert_eq!(looked(3, &shown, 150, length), short);
    }
    for length in BUFFERS {
        assert_eq!(paged(3, &old, length), 16);
        let short = if length < 1_505 { 15 } else { 0 };
        assert_eq!(paged(3, &shown, length), short);
    }
}

#[test]
fn a_curve_is_shown_up_to_the_limit() {
    for (age_limit, greatest) in [
        (0, 0),
        (1, 1),
        (255, 255),
        (256, 256),
        (2_398, 2_398),
        (2_399, 2_399),
        (2_400, 2_399),
        (1 << 16, 2_399),
        (1 << 32, 2_399),
        (1 << 63, 2_399),
        (u64::MAX, 2_399),
    ] {
        for age in [0, 1, 2, 254, 255, 256, 257, 2_397, 2_398, 2_399] {
            let expected = if age <= greatest { 0 } else { 16 };
            let journal = aged(age);
            assert_eq!(looked(age_limit, &journal, 1, 28), expected);
            assert_eq!(paged(age_limit, &journal, 1_505), expected);
        }
    }
}

#[test]
fn short_buffers_are_refused() {
    for age_limit in age_limits(&mut Random::new(41)) {
        for length in 0..28 {
            assert_eq!(looked(age_limit, &aged(0), 1, length), 15);
        }
        assert_eq!(paged(age_limit, &aged(0), 1_504), 15);
        assert_eq!(paged(age_limit, &[], 2_000), 14);
    }
}

#[test]
fn pages_with_x_agree() {
    let mut random = Random::new(35);
    let mut done = 0;
    while done < journals() / 4 {
        let sheet = sheet(&mut random, 0);
        if sheet.convergence() == TEN_PERCENT || worked(&sheet).is_none() {
            continue;
        }
        let journal = post(&sheet_bytes(&sheet));
        let replayed = Case::replayed(LARGEST_AGE_LIMIT, &journal);
        for age_limit in age_limits(&mut random) {
            let answer = replayed.under(age_limit).ask(&Question::Page {
                named: PLAIN,
                length: 1_505,
            });
            assert!(matches!(answer, Ok(0)), "{answer:?}");
        }
        done += 1;
    }
}

#[test]
fn november_2020() {
    let phased_in = low_rates(0, Some(20_000));
    assert_eq!(band_of(&phased_in, 21), (996_928_761, 996_928_786));
    assert_eq!(band_of(&phased_in, 60), (884_663_358, 884_664_093));
    assert_eq!(band_of(&phased_in, 150), (640_244_924, 640_246_623));
    let plain = low_rates(0, None);
    assert_eq!(band_of(&plain, 150), (647_775_926, 647_777_646));
    // By logarithms: 996,928,7xx ^ (-1/21) is 1.0001465, 640,245,xxx ^ (-1/150) is 1.0029771.
    assert_eq!(rates_of(&phased_in, 21), (14, 15));
    assert_eq!(rates_of(&phased_in, 150), (297, 298));
}

#[test]
fn a_factor_of_ten_percent_pages_as_without_the_record() {
    let plain = low_rates(0, None);
    assert_eq!(page_of(&low_rates(0, Some(10_000))), page_of(&plain));
    assert_ne!(page_of(&low_rates(0, Some(10_001))), page_of(&plain));
    for rate in [500, 501, 3_000] {
        let flat = |phase_in| Sheet {
            rates: [rate; 17],
            ..low_rates(0, phase_in)
        };
        assert_eq!(page_of(&flat(Some(20_000))), page_of(&flat(None)));
    }
}
