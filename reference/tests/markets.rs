//! Two smaller markets: the profile record and its grounds, what each profile quotes, the forward
//! just before its smoothing year, the table to h = 140, the convergence factor, the true curves, and
//! what the book makes of sheets of several markets.

mod common;
mod model;

use common::{flat, november, zero, Numbers, MATURITIES};
use model::{Model, Series, RULE};
use reference::accepted::Count;
use reference::adjusted::typed_adjusted_sheet;
use reference::bigint::BigInt;
use reference::book::{Book, LARGEST_AGE_LIMIT, PAGE_LENGTH};
use reference::bootstrap::{bootstrap, par_factors, yearly_factor};
use reference::convergence::TEN_PERCENT;
use reference::counts::{answered_posts, PostCounts};
use reference::curve::{Curve, Curves, Which};
use reference::desk::run_desk;
use reference::dropped::typed_dropped_sheet;
use reference::enclosure::{Enclosure, U};
use reference::extrapolation::last_liquid_forward;
use reference::journal::{book_after, calls, look_up, post, turn, withdrawal};
use reference::known::known_sheet;
use reference::market::Market;
use reference::profiled::{
    in_market, profiled_sheet, small_sheet, typed_profiled_sheet, Meeting, FORMS, GROUNDS,
};
use reference::questions::journal;
use reference::rates::ZeroRates;
use reference::refusal::Refusal;
use reference::series::AtKnown;
use reference::sheet::Sheet;
use reference::streams::{sheet_bytes, stream, typed_sheet, worked, Random};
use reference::sums::{Sums, Wanted};
use reference::true_curve::{check, check_all, true_convergence};
use reference::weights::{table, weights, HORIZON};

/// Profiles, each with its quotes, its volumes and its smoothing year.
const PROFILES: [(u8, usize, usize, usize); 3] = [(1, 17, 5, 20), (2, 10, 1, 10), (3, 12, 1, 15)];

/// The profiles of the smaller markets, each with its smoothing year.
const SMALLER: [(u8, usize); 2] = [(2, 10), (3, 15)];

fn read(numbers: &Numbers) -> Sheet {
    Sheet::read(&numbers.bytes()).expect("a sheet")
}

/// Number and place of the sheet's ground among 19 and 1 to 4.
fn sheet_refusal(bytes: &[u8]) -> Option<(u8, u16)> {
    let refusal = Sheet::read(bytes).err()?;
    Some((refusal.number, refusal.place))
}

/// Number and place of any ground on a fresh book.
fn refusal(numbers: &Numbers) -> Option<(u8, u16)> {
    let posted = Book::new(LARGEST_AGE_LIMIT).post(&numbers.bytes());
    posted.err().map(|refusal| (refusal.number, refusal.place))
}

fn curve(numbers: &Numbers) -> Curve {
    Curve::plain(&read(numbers)).expect("an accepted sheet")
}

fn band(curve: &Curve, year: usize) -> (i128, i128) {
    let factor = curve.factor(year);
    (factor.low, factor.high)
}

fn within(limit: u32, numbers: Numbers) -> Numbers {
    Numbers { limit, ..numbers }
}

fn with_ufr(ufr: u16, numbers: Numbers) -> Numbers {
    Numbers { ufr, ..numbers }
}

/// Rates of `level` to year 8, and those of years 9 and 10.
fn with_last(level: i16, ninth: i16, tenth: i16) -> Numbers {
    flat(level)
        .with_rate(9, ninth)
        .with_rate(10, tenth)
        .of_profile(2)
}

/// Rates of 100, 107, 114 and so on.
fn rising() -> Numbers {
    let rates = std::array::from_fn(|i| 100 + 7 * i as i16);
    Numbers { rates, ..zero() }
}

fn is_exact(curve: &Curve) -> bool {
    let exact = Enclosure::new(U, U);
    (1..=150).all(|year| curve.factor(year) == exact)
}

// The profile record

#[test]
fn lengths_are_the_sums_of_the_records() {
    let lengths = |profile: u8| {
        let sheet = || november().of_profile(profile);
        [sheet(), sheet().with_x(20_000)].map(|numbers| numbers.bytes().len())
    };
    // 2 + 3 + 17 × 4 + 5 × 6 + 3 + 5, and 3 for an X.
    assert_eq!(lengths(1), [111, 114]);
    // 2 + 3 + 10 × 4 + 6 + 3 + 5, and 2 + 3 + 12 × 4 + 6 + 3 + 5.
    assert_eq!(lengths(2), [59, 62]);
    assert_eq!(lengths(3), [67, 70]);
    for (profile, ..) in PROFILES {
        assert_eq!(refusal(&november().of_profile(profile)), None);
        let with_x = november().of_profile(profile).with_x(20_000);
        assert_eq!(refusal(&with_x), None);
    }
    let both = november().of_profile(1).with_x(20_000).adjusted(5);
    assert_eq!((both.bytes().len(), refusal(&both)), (117, None));
    let adjusted = november().of_profile(1).adjusted(5);
    assert_eq!((adjusted.bytes().len(), refusal(&adjusted)), (114, None));
}

#[test]
fn ground_1_any_other_length() {
    let allowed: [(u8, &[usize]); 3] = [(1, &[111, 114, 117]), (2, &[59, 62]), (3, &[67, 70])];
    for (profile, allowed) in allowed {
        for length in (2..700).filter(|length| !allowed.contains(length)) {
            let mut bytes = zero().of_profile(profile).with_x(20_000).bytes();
            bytes.resize(length, 0x06);
            let found = sheet_refusal(&bytes);
            assert_eq!(found, Some((1, 0)), "profile {profile}, {length} bytes");
        }
    }
    // Three bytes more than the longest length are too long, whatever they are.
    for (profile, _) in SMALLER {
        let longest = zero().of_profile(profile).with_x(20_000).bytes();
        for tail in [[0x07, 0, 0], [0x06, 0x4E, 0x20], [0, 0, 0]] {
            let bytes = [&longest[..], &tail].concat();
            assert_eq!(sheet_refusal(&bytes), Some((1, 0)));
        }
    }
}

#[test]
fn ground_19_any_other_profile_byte() {
    for byte in (0..=255).filter(|byte| ![1, 2, 3].contains(byte)) {
        for (profile, ..) in PROFILES {
            let mut bytes = november().of_profile(profile).bytes();
            bytes[1] = byte;
            assert_eq!(sheet_refusal(&bytes), Some((19, 0)), "{byte}");
        }
        for length in [2, 3, 57, 58, 65, 109, 112, 115, 255, 256, 65_535] {
            let mut bytes = vec![0x08, byte];
            bytes.resize(length, 0x08);
            assert_eq!(sheet_refusal(&bytes), Some((19, 0)), "{byte}");
        }
    }
    for byte in 1..=3 {
        assert_eq!(sheet_refusal(&[0x08, byte]), Some((1, 0)));
    }
}

#[test]
fn a_lone_kind_byte_is_ground_1() {
    assert_eq!(sheet_refusal(&[0x08]), Some((1, 0)));
    assert_eq!(sheet_refusal(&[]), Some((1, 0)));
}

#[test]
fn ground_19_comes_before_all_others() {
    let mut book = Book::new(LARGEST_AGE_LIMIT);
    book.turn(5).unwrap();
    book.post(&Numbers { month: 5, ..zero() }.bytes()).unwrap();
    let before = book.clone();
    let late = Numbers { month: 6, ..zero() };
    let early = Numbers { month: 4, ..zero() };
    let untraded = Numbers {
        volumes: [0; 5],
        ..zero()
    };
    for numbers in [late, early, untraded, zero().with_rate(3, 12_001)] {
        for profile in [0, 4, 8, 255] {
            let mut bytes = numbers.clone().of_profile(profile).bytes();
            assert_eq!(book.post(&bytes), Err(Refusal::plain(19)));
            bytes[2] = 0x09;
            assert_eq!(book.post(&bytes), Err(Refusal::plain(19)));
            bytes.pop();
            assert_eq!(book.post(&bytes), Err(Refusal::plain(19)));
        }
    }
    assert_eq!(book, before);
}

#[test]
fn the_record_stands_first_or_not_at_all() {
    for (profile, quotes, ..) in PROFILES {
        let bytes = november().of_profile(profile).bytes();
        let (record, rest) = bytes.split_at(2);
        // Twice, or behind the month, where a quote is due, or at the end.
        assert_eq!(sheet_refusal(&[record, &bytes].concat()), Some((1, 0)));
        assert_eq!(sheet_refusal(&[rest, record].concat()), Some((1, 0)));
        let behind_month = [&rest[..3], record, &rest[3..]].concat();
        assert_eq!(sheet_refusal(&behind_month), Some((1, 0)));
        // Without it a sheet is the euro's.
        let expected = (quotes < 17).then_some((1, 0));
        assert_eq!(sheet_refusal(rest), expected);
    }
    // As a last record it is of another kind than is due.
    let last = [&zero().bytes()[..], &[0x08, 0x02, 0x00]].concat();
    assert_eq!(sheet_refusal(&last), Some((2, 26)));
}

#[test]
fn a_sheet_is_read_by_its_profile() {
    let numbers = Numbers {
        month: 0x0102,
        volumes: [7, 6, 5, 4, 3],
        ..rising()
    };
    for ((profile, quotes, volumes, _), market) in PROFILES.into_iter().zip(Market::ALL) {
        let sheet = read(&numbers.clone().of_profile(profile).with_x(12_345));
        assert_eq!(sheet.profile, Some(market));
        assert_eq!(sheet.market().profile, profile);
        assert_eq!(sheet.month, 0x0102);
        assert_eq!(sheet.quoted_rates(), &numbers.rates[..quotes]);
        assert_eq!(sheet.rates[quotes..], [0; 17][quotes..]);
        assert_eq!(sheet.carried_volumes(), &numbers.volumes[..volumes]);
        assert_eq!((sheet.ufr, sheet.limit), (0, 100_000));
        assert_eq!((sheet.phase_in, sheet.adjustment), (Some(12_345), None));
        assert_eq!(
            sheet_bytes(&sheet),
            numbers.clone().of_profile(profile).with_x(12_345).bytes()
        );
    }
    let plain = read(&numbers);
    assert_eq!((plain.profile, plain.market()), (None, Market::EURO));
}

// Places

/// Where the records of a sheet of this profile start, each with the length of its number.
fn records(profile: u8) -> Vec<(usize, usize)> {
    let (_, quotes, volumes, _) = PROFILES[usize::from(profile) - 1];
    let lengths = [
        vec![(2, 1), (3, 2)],
        vec![(4, 2); quotes],
        vec![(6, 4); volumes],
    ];
    let lengths = [lengths.concat(), vec![(3, 2), (5, 4), (3, 2)]].concat();
    let mut start = 0;
    let record = |(length, number): (usize, usize)| {
        start += length;
        (start - length, number)
    };
    lengths.into_iter().map(record).collect()
}

#[test]
fn ground_2_names_the_first_record_of_other_kind_or_maturity() {
    for (profile, quotes, volumes, _) in PROFILES {
        let bytes = zero().of_profile(profile).with_x(20_000).bytes();
        let with = |at: usize, byte: u8| {
            let mut bytes = bytes.clone();
            bytes[at] = byte;
            sheet_refusal(&bytes)
        };
        let last = 5 + quotes + volumes;
        assert_eq!(records(profile).len(), last);
        for (place, (start, _)) in (1..).zip(records(profile)).skip(1) {
            let has_maturity = (3..3 + quotes + volumes).contains(&place);
            for byte in 0..=255 {
                // The euro's last record may be of either kind, and is then out of range.
                let expected = match (byte == bytes[start], profile, place == last, byte) {
                    (true, ..) => None,
                    (_, 1, true, 0x07) => Some((3, place as u16)),
                    _ => Some((2, place as u16)),
                };
                assert_eq!(with(start, byte), expected, "profile {profile}");
                if has_maturity && byte != bytes[start + 1] {
                    assert_eq!(with(start + 1, byte), Some((2, place as u16)));
                }
            }
        }
    }
}

#[test]
fn ground_2_comes_before_3_and_names_the_first() {
    for (profile, quotes, volumes, _) in PROFILES {
        let late = Numbers {
            month: 2_400,
            ..zero()
        };
        let mut bytes = late.of_profile(profile).with_x(9_999).bytes();
        assert_eq!(sheet_refusal(&bytes), Some((3, 2)));
        let starts = records(profile);
        let limit = 4 + quotes + volumes;
        bytes[starts[limit - 1].0] = 0x09;
        assert_eq!(sheet_refusal(&bytes), Some((2, limit as u16)));
        bytes[starts[2].0 + 1] = 0x09;
        assert_eq!(sheet_refusal(&bytes), Some((2, 3)));
    }
}

#[test]
fn ground_3_names_the_first_record_out_of_range() {
    for (profile, quotes, volumes, _) in PROFILES {
        let of_profile = |numbers: Numbers| numbers.of_profile(profile).bytes();
        let assert_range = |place: usize, with: &dyn Fn(i64) -> Numbers, (least, most)| {
            for (number, inside) in [
                (least - 1, false),
                (least, true),
                (most, true),
                (most + 1, false),
            ] {
                if number >= 0 || least < 0 {
                    let expected = (!inside).then_some((3, place as u16));
                    assert_eq!(sheet_refusal(&of_profile(with(number))), expected);
                }
            }
        };
        let month = |month| Numbers {
            month: month as u16,
            ..zero()
        };
        assert_range(2, &month, (0, 2_399));
        for (i, maturity) in MATURITIES.into_iter().enumerate().take(quotes) {
            let with_rate = |rate| zero().with_rate(maturity, rate as i16);
            assert_range(3 + i, &with_rate, (-2_000, 12_000));
        }
        for i in 0..volumes {
            let with_volume = |volume| {
                let mut numbers = zero();
                numbers.volumes[i] = volume;
                sheet_refusal(&of_profile(numbers))
            };
            assert_eq!(with_volume(1_000_000), None);
            assert_eq!(with_volume(1_000_001), Some((3, (3 + quotes + i) as u16)));
        }
        let behind = 3 + quotes + volumes;
        let ufr = |ufr| with_ufr(ufr as u16, zero());
        assert_range(behind, &ufr, (0, 10_000));
        let limit = |limit| within(limit as u32, zero());
        assert_range(behind + 1, &limit, (1, 100_000));
        let x = |x| zero().with_x(x as u16);
        assert_range(behind + 2, &x, (10_000, 20_000));
        if profile == 1 {
            let adjustment = |adjustment| zero().adjusted(adjustment as i16);
            assert_range(behind + 2, &adjustment, (-500, 500));
            let both = |adjustment| zero().with_x(15_000).adjusted(adjustment as i16);
            assert_range(behind + 3, &both, (-500, 500));
        }
    }
}

#[test]
fn an_adjustment_goes_with_profile_1_only() {
    for (profile, place) in [(2, 16), (3, 18)] {
        let sheet = zero().of_profile(profile).bytes();
        let with_x = zero().of_profile(profile).with_x(20_000).bytes();
        for number in [0_i16, 5, -500, 500, 501, i16::MIN, 0x2710, 0x4E20] {
            let [high, low] = number.to_be_bytes();
            let record = [0x07, high, low];
            // An X is due there.
            let alone = [&sheet[..], &record].concat();
            assert_eq!(sheet_refusal(&alone), Some((2, place)));
            let behind = [&with_x[..], &record].concat();
            assert_eq!(sheet_refusal(&behind), Some((1, 0)));
            let before = [&sheet[..], &record, &[0x06, 0x4E, 0x20]].concat();
            assert_eq!(sheet_refusal(&before), Some((1, 0)));
        }
    }
    for numbers in [november(), november().with_x(20_000)] {
        let both = Curves::of(&read(&numbers.of_profile(1).adjusted(100))).unwrap();
        assert!(both.adjusted.is_some_and(|adjusted| adjusted != both.plain));
    }
}

#[test]
fn ground_4_every_volume_that_the_sheet_carries_is_0() {
    let with = |volumes, profile| {
        sheet_refusal(&Numbers { volumes, ..zero() }.of_profile(profile).bytes())
    };
    for (profile, ..) in PROFILES {
        assert_eq!(with([0; 5], profile), Some((4, 0)));
        assert_eq!(with([1, 0, 0, 0, 0], profile), None);
    }
    assert_eq!(with([0, 0, 0, 0, 1], 1), None);
    for (profile, _) in SMALLER {
        // Those that it does not carry do not count.
        assert_eq!(with([0, 1, 1, 1, 1], profile), Some((4, 0)));
        let untraded = Numbers {
            month: 7,
            volumes: [0; 5],
            ..zero()
        };
        // After 3, and before 5.
        let untraded = untraded.of_profile(profile);
        assert_eq!(refusal(&untraded), Some((4, 0)));
        assert_eq!(
            refusal(&untraded.with_x(1)).map(|(number, _)| number),
            Some(3)
        );
    }
}

#[test]
fn grounds_5_and_6_go_by_the_month_of_the_sheet() {
    let of_month = |month, profile| Numbers { month, ..zero() }.of_profile(profile).bytes();
    for (profile, ..) in PROFILES {
        let mut book = Book::new(LARGEST_AGE_LIMIT);
        book.turn(513).unwrap();
        assert_eq!(book.post(&of_month(514, profile)), Err(Refusal::plain(5)));
        assert_eq!(book.post(&of_month(512, profile)), Ok(512));
        for other in 1..=3 {
            assert_eq!(book.post(&of_month(511, other)), Err(Refusal::plain(6)));
            assert_eq!(book.post(&of_month(514, other)), Err(Refusal::plain(5)));
        }
        assert_eq!(
            book.post(
                &Numbers {
                    month: 511,
                    ..zero()
                }
                .bytes()
            ),
            Err(Refusal::plain(6))
        );
        let found = book.look_up(Which::Plain, 1).unwrap();
        assert_eq!((found.month, found.age), (512, 1));
    }
}

// Profile 1

/// The ground with its place one record on, where it is a record's.
fn one_record_on(refusal: Refusal) -> Refusal {
    match refusal.number {
        2 | 3 => Refusal::at(refusal.number, usize::from(refusal.place) + 1),
        _ => refusal,
    }
}

#[test]
fn profile_1_is_the_sheet_without_the_record() {
    let mut random = Random::new(1_001);
    let (mut accepted, mut numbers) = (0, std::collections::BTreeSet::new());
    for number in 0..3_000 {
        let bytes = match number % 4 {
            0 => typed_dropped_sheet(&mut random, 1),
            1 => typed_adjusted_sheet(&mut random, 1),
            2 => sheet_bytes(&known_sheet(&mut random, 1)),
            _ => typed_sheet(&mut random, 1),
        };
        // A sheet that starts so is one with a profile record by itself.
        if bytes.first() == Some(&0x08) {
            continue;
        }
        let recorded = [&[0x08, 0x01], &bytes[..]].concat();
        let books = [&bytes, &recorded].map(|bytes| {
            let mut book = Book::new(LARGEST_AGE_LIMIT);
            book.turn(2).unwrap();
            let answer = book.post(bytes);
            (answer, book)
        });
        let [(without, book), (with, recorded_book)] = books;
        assert_eq!(with, without.map_err(one_record_on), "{bytes:?}");
        assert_eq!(recorded_book, book);
        accepted += usize::from(with.is_ok());
        numbers.extend(with.err().map(|refusal| refusal.number));
    }
    assert!(accepted > 1_000, "{accepted}");
    assert!(
        [1, 2, 3, 4, 7, 8, 9, 10]
            .iter()
            .all(|n| numbers.contains(n)),
        "{numbers:?}"
    );
}

#[test]
fn the_true_curves_of_profile_1_are_those_without_the_record() {
    let plain = november().with_x(15_000).adjusted(-7);
    let (sheet, recorded) = (read(&plain), read(&plain.of_profile(1)));
    let curves = Curves::of(&sheet).unwrap();
    for which in Which::ALL {
        let curve = curves.get(which).unwrap();
        for order in 0..=3 {
            let checks = check(&sheet, which, curve, order);
            assert_eq!(checks, check(&recorded, which, curve, order));
        }
    }
}

// Figures

#[test]
fn level_rates_under_profile_2() {
    let numbers = with_ufr(345, flat(3_000)).of_profile(2);
    // Years 9 and 10 by par; x runs from the low over the high to the high over the low.
    let years = par_factors(read(&numbers).quoted_rates());
    assert_eq!(years[8], Enclosure::new(766_416_732, 766_416_733));
    assert_eq!(years[9], Enclosure::new(744_093_914, 744_093_916));
    let x = yearly_factor(years[8], years[9]);
    assert_eq!(x, Enclosure::new(970_873_784, 970_873_789));
    // From G's low at the high x to G's high at the low x.
    let quoted = bootstrap(&read(&numbers)).unwrap();
    let forward = Enclosure::new(29_558_796, 29_558_813);
    assert_eq!(quoted.forwards.sum(10..=10), forward);
    let curve = curve(&numbers);
    assert_eq!(band(&curve, 10), (744_093_914, 744_093_916));
    assert_eq!(band(&curve, 11), (723_334_460, 723_334_480));
    assert_eq!(band(&curve, 150), (353_841_506, 353_842_578));
}

#[test]
fn level_rates_under_profile_3() {
    let curve = curve(&with_ufr(345, flat(3_000)).of_profile(3));
    assert_eq!(band(&curve, 10), (744_093_914, 744_093_916));
    assert_eq!(band(&curve, 15), (641_861_946, 641_861_948));
    assert_eq!(band(&curve, 16), (623_954_660, 623_954_676));
    assert_eq!(band(&curve, 150), (310_528_470, 310_529_388));
}

#[test]
fn rising_rates_under_profile_3_with_an_x() {
    let numbers = with_ufr(345, rising()).of_profile(3).with_x(20_000);
    // The quote of 15 is 177: 10,000,000 + 10,000 × (500 - 177).
    assert_eq!(read(&numbers).convergence(), 13_230_000);
    let curve = curve(&numbers);
    assert_eq!(band(&curve, 16), (971_702_115, 971_702_138));
    assert_eq!(band(&curve, 150), (618_168_163, 618_169_865));
}

#[test]
fn years_to_the_smoothing_year_are_those_of_the_euro() {
    for numbers in [flat(3_000), november(), rising(), flat(-1_000)] {
        let euro = bootstrap(&read(&numbers)).unwrap().factors;
        for (profile, smoothing_year) in SMALLER {
            let curve = curve(&numbers.clone().of_profile(profile));
            for year in 1..=smoothing_year {
                assert_eq!(curve.factor(year), euro[year - 1]);
            }
            // Past it they are not, as they converge from another forward or another year.
            let euro = Curve::plain(&read(&numbers)).unwrap();
            assert_ne!(curve.factor(150), euro.factor(150));
        }
    }
}

#[test]
fn the_volume_does_not_show() {
    for (profile, _) in SMALLER {
        let with = |volume| {
            let volumes = [volume; 5];
            curve(
                &Numbers {
                    volumes,
                    ..november()
                }
                .of_profile(profile),
            )
        };
        for volume in [2, 7, 999_999, 1_000_000] {
            assert_eq!(with(volume), with(1));
        }
    }
}

#[test]
fn the_zero_sheet_is_exact_in_every_market() {
    for (profile, ..) in PROFILES {
        for x in [None, Some(10_000), Some(10_001), Some(20_000)] {
            let numbers = Numbers {
                phase_in: x,
                ..within(1, zero())
            };
            let numbers = numbers.of_profile(profile);
            assert!(is_exact(&curve(&numbers)));
            assert_eq!(refusal(&numbers), None);
        }
    }
}

#[test]
fn curves_are_those_of_the_papers_words() {
    let mut random = Random::new(1_002);
    let mut numbers = std::collections::BTreeMap::new();
    for _ in 0..4_000 {
        let sheet = profiled_sheet(&mut random, 0);
        let profile = sheet.market().profile;
        if profile == 1 {
            continue;
        }
        for (at_known, series) in [(AtKnown::Nothing, RULE), (AtKnown::One, EARLIER)] {
            let found = Curves::with(&sheet, at_known)
                .map(|curves| {
                    let bands = (1..=150).map(|year| band(&curves.plain, year));
                    let (lows, highs) = bands.unzip();
                    Model { lows, highs }
                })
                .map_err(|ground| (ground.number, ground.place));
            let number = found.as_ref().err().map_or(0, |ground| ground.0);
            *numbers.entry((profile, number)).or_insert(0) += 1;
            let expected = Model::of_smaller(&sheet, profile, series);
            assert_eq!(found, expected, "{sheet:?}");
        }
    }
    println!("{numbers:?}");
    for profile in [2, 3] {
        for number in [0, 7, 8, 9, 10] {
            assert!(numbers[&(profile, number)] > 60, "{numbers:?}");
        }
    }
}

/// 1 added where a value is known, too.
const EARLIER: Series = Series {
    neg_log: |x| AtKnown::One.neg_log(x),
    growth: |y| AtKnown::One.growth(y),
};

// Grounds 7 to 10

#[test]
fn ground_7_names_the_first_year_without_a_factor() {
    // Rates at -2% to one year, at 12% from the next.
    for (quotes, year) in [(8, 9), (9, 10)] {
        let mut fall = flat(12_000);
        fall.rates[..quotes].fill(-2_000);
        for (profile, ..) in PROFILES {
            assert_eq!(refusal(&fall.clone().of_profile(profile)), Some((7, year)));
        }
    }
}

#[test]
fn what_a_market_does_not_quote_is_not_tried() {
    // From 3% no gap reaches 12%.
    for (maturity, refused) in [
        (12, [1, 3].as_slice()),
        (15, &[1, 3]),
        (20, &[1]),
        (50, &[1]),
    ] {
        for (profile, ..) in PROFILES {
            let numbers = flat(3_000).with_rate(maturity, 12_000);
            let expected = refused.contains(&profile).then_some((9, maturity.into()));
            assert_eq!(refusal(&numbers.of_profile(profile)), expected);
        }
    }
    // 0.98^-35 is above 2: the euro's quotes reach year 35, those of the others do not.
    assert_eq!(refusal(&flat(-2_000).of_profile(1)), Some((8, 35)));
    for (profile, _) in SMALLER {
        assert_eq!(refusal(&flat(-2_000).of_profile(profile)), None);
    }
}

#[test]
fn ground_8_past_the_smoothing_year() {
    // Year 10 is U and year 9 about 0.9143 U: a forward of about -0.0896, so that 2 U is passed where
    // 0.896 × (1 - e^(-h/10)) passes ln 2, past h = 14.
    let numbers = flat(1_000).with_rate(10, 0).of_profile(2);
    assert_eq!(refusal(&numbers), Some((8, 25)));
    // An ultimate forward rate takes them down again before that.
    assert_eq!(refusal(&with_ufr(3_450, numbers.clone())), None);
    // A larger factor makes the forwards leave LLFR sooner.
    assert_eq!(refusal(&numbers.with_x(20_000)), None);
    let numbers = flat(1_000).with_rate(15, -770).of_profile(3);
    assert_eq!(refusal(&numbers), Some((8, 31)));
    // It comes before 10, which every year past the smoothing year would meet.
    assert_eq!(refusal(&within(1, numbers)), Some((8, 31)));
}

#[test]
fn ground_10_names_the_first_year_that_is_too_wide() {
    for (profile, widest) in [(2, 854), (3, 722)] {
        let level = |limit| refusal(&within(limit, flat(3_000)).of_profile(profile));
        assert_eq!(level(widest), None);
        assert_eq!(level(widest - 1), Some((10, 150)));
        // Year 10 is 744,093,914 to 744,093,916.
        assert_eq!(level(1), Some((10, 10)));
    }
    // Years 11 and 16 are the first past the smoothing year: 20 and 16 wide, those to it at most 2
    // and at most 10.
    let level =
        |profile, limit| refusal(&within(limit, with_ufr(345, flat(3_000))).of_profile(profile));
    assert_eq!(level(2, 2), Some((10, 11)));
    assert_eq!(level(2, 19), Some((10, 11)));
    assert_eq!(level(3, 9), Some((10, 14)));
    assert_eq!(level(3, 10), Some((10, 16)));
}

// Year 10 over year 9

#[test]
fn x_must_lie_within_the_ends() {
    // 800,000,000 and 1,100,000,000 are within, the next ones are not.
    for (numbers, x, refused) in [
        (
            with_last(1_200, 1_009, 2_910),
            (800_000_000, 800_000_004),
            None,
        ),
        (
            with_last(2_978, 4_343, 5_681),
            (800_000_000, 800_000_006),
            None,
        ),
        (
            with_last(3_718, 4_366, 5_751),
            (799_999_999, 800_000_006),
            Some((9, 10)),
        ),
        (
            with_last(6_493, 6_429, 7_622),
            (799_999_999, 800_000_006),
            Some((9, 10)),
        ),
        (
            with_last(3_422, 4_843, 3_660),
            (1_099_999_992, 1_100_000_000),
            None,
        ),
        (
            with_last(388, 1_366, 323),
            (1_099_999_997, 1_100_000_001),
            Some((9, 10)),
        ),
        (
            with_last(5_800, 5_985, 4_680),
            (1_099_999_994, 1_100_000_001),
            Some((9, 10)),
        ),
    ] {
        let years = par_factors(read(&numbers).quoted_rates());
        assert_eq!(yearly_factor(years[8], years[9]), Enclosure::new(x.0, x.1));
        assert_eq!(refusal(&numbers), refused);
    }
    let low = curve(&with_last(1_200, 1_009, 2_910));
    assert_eq!(band(&low, 11), (591_467_229, 591_467_246));
    assert_eq!(band(&low, 150), (78_533_085, 78_533_318));
    let high = curve(&with_last(3_422, 4_843, 3_660));
    assert_eq!(band(&high, 11), (765_108_427, 765_108_449));
    assert_eq!(band(&high, 150), (1_812_420_701, 1_812_423_230));
}

#[test]
fn x_of_one_other_rate() {
    let tenth = |rate| with_ufr(345, flat(3_000)).with_rate(10, rate).of_profile(2);
    // About 1.0800, 1.1021 and 0.7589.
    assert_eq!(band(&curve(&tenth(2_000)), 11), (890_464_081, 890_464_101));
    assert_eq!(refusal(&tenth(1_800)), Some((9, 10)));
    assert_eq!(refusal(&tenth(5_000)), Some((9, 10)));
    // What is accepted is one run of rates, from the upper end of x to the lower one.
    let accepted = (-2_000..=12_000).filter(|&rate| refusal(&tenth(rate)).is_none());
    let accepted: Vec<i16> = accepted.collect();
    let (first, last) = (accepted[0], accepted[accepted.len() - 1]);
    assert_eq!(accepted, (first..=last).collect::<Vec<_>>());
    for rate in [first - 1, last + 1] {
        assert_eq!(refusal(&tenth(rate)), Some((9, 10)));
    }
    let x = |rate| {
        let years = par_factors(read(&tenth(rate)).quoted_rates());
        yearly_factor(years[8], years[9])
    };
    assert!(x(first).high <= 1_100_000_000 && x(first - 1).high > 1_100_000_000);
    assert!(x(last).low >= 800_000_000 && x(last + 1).low < 800_000_000);
}

#[test]
fn the_x_test_comes_after_7_of_year_10() {
    let mut fall = zero().with_rate(10, 12_000).of_profile(2);
    fall.rates[..9].fill(-2_000);
    // Year 10 over year 9 is below 0, too.
    let years = par_factors(&fall.rates[..10]);
    assert!(yearly_factor(years[8], years[9]).high < 0);
    assert_eq!(refusal(&fall), Some((7, 10)));
    // 8 of year 10 is never met: no year to 15 passes 0.98^-15.
    assert!(curve(&flat(-2_000).of_profile(2)).factor(10).high < 1_230_000_000);
}

#[test]
fn the_x_test_comes_before_8_past_year_10_and_before_10() {
    // Past the ends by far, narrow limit: years past 10 are not worked.
    for tenth in [-2_000, 1_800, 5_000, 9_000] {
        let numbers = within(1, flat(3_000)).with_rate(10, tenth);
        assert_eq!(refusal(&numbers.of_profile(2)), Some((9, 10)));
    }
}

#[test]
fn the_x_test_is_that_of_profile_2_alone() {
    // Year 10 over year 9 is about 0.7589, and the later gaps are flat again.
    let mut numbers = flat(5_000);
    numbers.rates[..9].fill(3_000);
    assert_eq!(refusal(&numbers.clone().of_profile(2)), Some((9, 10)));
    assert_eq!(refusal(&numbers.clone().of_profile(3)), None);
    assert_eq!(refusal(&numbers.clone().of_profile(1)), None);
    assert_eq!(refusal(&numbers), None);
}

#[test]
fn only_the_forward_just_before_the_smoothing_year_counts() {
    // LLFR is that of one year of gap 12-15, or of year 10 alone, whatever the volume.
    let forwards = |numbers: &Numbers, years: std::ops::RangeInclusive<usize>| {
        bootstrap(&read(numbers)).unwrap().forwards.sum(years)
    };
    let to_15 = november().of_profile(3);
    let gap = forwards(&to_15, 13..=15);
    let single = forwards(&to_15, 15..=15);
    assert_eq!(gap, single.times(3));
    let llfr = |numbers: &Numbers| {
        let sheet = read(numbers);
        let quoted = bootstrap(&sheet).unwrap();
        last_liquid_forward(sheet.market(), sheet.carried_volumes(), &quoted.forwards)
    };
    assert_eq!(llfr(&to_15), single);
    let to_10 = november().of_profile(2);
    assert_eq!(llfr(&to_10), forwards(&to_10, 10..=10));
}

// The table

/// e to minus 1/10 in units of 10^-80, its low and its high: the alternating sum's ends.
fn exp_minus_tenth() -> (BigInt, BigInt) {
    let unit = BigInt::from(10).pow(80);
    let (mut term, mut sum, mut i) = (unit.clone(), unit, 0);
    // Terms are rounded down; 60 of them make an error below 10^-77.
    while i < 60 {
        i += 1;
        term = term.div_down(&BigInt::from(10 * i));
        sum = match i % 2 {
            1 => &sum - &term,
            _ => &sum + &term,
        };
    }
    let slack = BigInt::from(1_000);
    (&sum - &slack, &sum + &slack)
}

#[test]
fn the_table_follows_its_one_rule_to_140() {
    assert_eq!((HORIZON, table().len()), (140, 140));
    let unit = BigInt::from(10).pow(80);
    let (low, high) = exp_minus_tenth();
    // 10 × U × (q^(h-1) - q^h) = 10 × U × q^(h-1) × (1 - q), at the ends of q.
    let (mut power_low, mut power_high) = (unit.clone(), unit.clone());
    for (h, &weight) in (1..).zip(table()) {
        let value = |power: &BigInt, q: &BigInt| {
            let product = &(power * &(&unit - q)) * &BigInt::from(10 * U);
            product.div_down(&(&unit * &unit)).to_i128()
        };
        let (least, most) = (value(&power_low, &high), value(&power_high, &low));
        assert_eq!(least, most, "h {h} is not decided");
        assert_eq!(Some(weight), least, "h {h}");
        power_low = (&power_low * &low).div_down(&unit);
        power_high = (&power_high * &high).div_up(&unit);
    }
}

#[test]
fn the_last_entries_of_the_table() {
    assert_eq!(table()[..2], [951_625_819, 861_066_649]);
    let last = [
        2_150, 1_946, 1_761, 1_593, 1_441, 1_304, 1_180, 1_068, 966, 874,
    ];
    assert_eq!(table()[130..], last);
}

#[test]
fn the_last_entry_shows_in_year_150() {
    // At 875 the low would be 1,872,140,053, at 873 the high 1,872,142,591.
    let curve = curve(&flat(2_000).with_rate(10, 1_100).of_profile(2));
    assert_eq!(band(&curve, 150), (1_872_140_051, 1_872_142_593));
}

#[test]
fn weights_of_other_factors_run_to_140() {
    for factor in [10_000_001, 12_345_678, 20_000_000] {
        let weights = weights(factor);
        assert_eq!(weights.len(), 140);
        // Each is about q times the one before.
        for pair in weights.windows(2) {
            assert!(pair[1].low < pair[0].high && pair[1].low >= 0);
        }
    }
    assert_eq!(weights(20_000_000)[139].low, 0);
    assert_ne!(weights(10_000_001)[139].low, 0);
}

// The convergence factor

#[test]
fn r_is_the_quote_of_the_smoothing_year() {
    for (profile, _, _, smoothing_year) in PROFILES {
        let factor = |rate| {
            let numbers = flat(3_000).with_rate(smoothing_year as u8, rate);
            read(&numbers.of_profile(profile).with_x(20_000)).convergence()
        };
        for (rate, expected) in [
            (-2_000, 20_000_000),
            (-501, 20_000_000),
            (-500, 20_000_000),
            (-499, 19_990_000),
            (0, 15_000_000),
            (14, 14_860_000),
            (499, 10_010_000),
            (500, TEN_PERCENT),
            (501, TEN_PERCENT),
            (12_000, TEN_PERCENT),
        ] {
            assert_eq!(factor(rate), expected, "profile {profile}, rate {rate}");
        }
    }
}

#[test]
fn no_other_quote_counts_in_the_factor() {
    for (profile, quotes, _, smoothing_year) in PROFILES {
        for maturity in MATURITIES[..quotes]
            .iter()
            .filter(|&&m| usize::from(m) != smoothing_year)
        {
            let numbers = zero().with_rate(*maturity, 500).of_profile(profile);
            assert_eq!(read(&numbers.with_x(20_000)).convergence(), 15_000_000);
        }
    }
}

#[test]
fn the_cut_of_the_rate_shows_in_the_curve() {
    // From 500 on the factor is that of the table, below it follows X.
    for (profile, smoothing_year) in SMALLER {
        let with = |rate, x| {
            let numbers = flat(rate).of_profile(profile);
            curve(&with_ufr(345, numbers).with_x(x))
        };
        for rate in [500, 501, 3_000] {
            assert_eq!(with(rate, 20_000), with(rate, 10_000), "rate {rate}");
        }
        for rate in [-501, -500, -499, 0, 499] {
            let (own, table) = (with(rate, 20_000), with(rate, 10_000));
            assert_ne!(own.factor(150), table.factor(150), "rate {rate}");
            assert_eq!(own.factor(smoothing_year), table.factor(smoothing_year));
        }
    }
}

#[test]
fn the_true_factor_is_the_same_number() {
    for (profile, _, _, smoothing_year) in PROFILES {
        for rate in [-2_000, -501, -500, -499, -3, 0, 177, 499, 500, 501, 12_000] {
            for x in [10_000, 10_001, 16_667, 20_000] {
                let numbers = flat(1_234).with_rate(smoothing_year as u8, rate);
                let sheet = read(&numbers.of_profile(profile).with_x(x));
                let exact = true_convergence(&sheet);
                let in_units = &exact.numerator * &BigInt::from(100_000_000);
                let factor = &BigInt::from(sheet.convergence()) * &exact.denominator;
                assert_eq!(in_units, factor, "profile {profile}, rate {rate}, X {x}");
            }
        }
    }
}

// The true curve

/// Asserts that bands, rates and sums hold the true ones of order `order`.
fn assert_holds(sheet: &Sheet, order: usize) {
    let curve = Curve::plain(sheet).expect("an accepted sheet");
    let checks = check_all(sheet, Which::Plain, &curve, &Sums::of(&curve), order).unwrap();
    assert_eq!((checks.years.len(), checks.sums.len()), (150, 150));
    for (number, year) in (1..).zip(&checks.years) {
        assert_eq!(year.year, number);
        assert!(year.holds(), "order {order}, {year:?}, {sheet:?}");
        assert!(year.slack_below >= 0 && year.slack_above >= 0);
    }
    for sum in &checks.sums {
        assert!(sum.inside, "order {order}, {sum:?}, {sheet:?}");
    }
}

#[test]
fn bands_hold_the_true_factors_at_many_convergence_factors() {
    let falling = Numbers {
        rates: std::array::from_fn(|i| 600 - 60 * i as i16),
        ..zero()
    };
    for (profile, _) in SMALLER {
        for numbers in [
            zero(),
            flat(3_000),
            flat(-500),
            flat(-2_000),
            november(),
            rising(),
            falling.clone(),
            with_ufr(10_000, flat(12_000)),
        ] {
            for x in [None, Some(10_001), Some(14_000), Some(20_000)] {
                let numbers = Numbers {
                    phase_in: x,
                    ..numbers.clone()
                };
                let sheet = read(&with_ufr(numbers.ufr.max(345), numbers).of_profile(profile));
                for order in 0..=3 {
                    assert_holds(&sheet, order);
                }
            }
        }
    }
}

#[test]
fn bands_hold_the_true_factors_at_the_ends_of_x() {
    for numbers in [
        with_last(1_200, 1_009, 2_910),
        with_last(2_978, 4_343, 5_681),
        with_last(3_422, 4_843, 3_660),
    ] {
        for order in 0..=3 {
            assert_holds(&read(&numbers), order);
        }
    }
}

#[test]
fn bands_of_seeded_sheets_hold_the_true_curve() {
    let mut random = Random::new(1_003);
    for market in Market::SMALLER {
        let (mut done, mut own_factor, mut below_0) = (0, 0, 0);
        while done < 60 {
            let sheet = small_sheet(&mut random, market, 0);
            if worked(&sheet).is_some() {
                assert_holds(&sheet, done % 4);
                own_factor += usize::from(sheet.convergence() != TEN_PERCENT);
                below_0 += usize::from(sheet.quoted_rates().iter().any(|&rate| rate < 0));
                done += 1;
            }
        }
        assert!(own_factor > 5 && below_0 > 5, "{own_factor} {below_0}");
    }
}

#[test]
fn true_factors_of_the_first_extrapolated_year() {
    // Worked apart, as fractions: in millionths of a billionth, rounded down.
    let level = |profile| with_ufr(345, flat(3_000)).of_profile(profile);
    let rising = with_ufr(345, rising()).of_profile(3).with_x(20_000);
    for (numbers, year, order, exact) in [
        (level(2), 11, 0, 723_334_473_013_723_i128),
        (level(2), 11, 3, 723_334_473_013_723),
        (level(3), 16, 0, 623_954_670_251_827),
        (level(3), 16, 3, 623_954_670_469_118),
        (rising.clone(), 16, 0, 971_702_133_742_492),
        (rising, 16, 3, 971_702_133_856_579),
    ] {
        let sheet = read(&numbers);
        let curve = Curve::plain(&sheet).unwrap();
        let found = check(&sheet, Which::Plain, &curve, order).unwrap()[year - 1];
        assert_eq!(found.factor.low * 1_000_000 + found.slack_below, exact);
        assert_eq!(found.factor.high * 1_000_000 - found.slack_above - 1, exact);
    }
}

#[test]
fn the_true_zero_sheets_are_exact_too() {
    for (profile, _) in SMALLER {
        for numbers in [zero(), zero().with_x(20_000)] {
            let sheet = read(&within(1, numbers).of_profile(profile));
            let curve = Curve::plain(&sheet).unwrap();
            for order in 0..=3 {
                for year in check(&sheet, Which::Plain, &curve, order).unwrap() {
                    assert!(year.holds());
                    assert_eq!((year.slack_below, year.slack_above), (0, 0));
                }
            }
        }
    }
}

#[test]
fn a_wrong_curve_is_found_outside() {
    for (profile, smoothing_year) in SMALLER {
        let sheet = read(&flat(3_000).of_profile(profile));
        let last = smoothing_year as u8;
        // From the smoothing year on, or past it alone.
        for (other, from) in [
            (flat(3_000).with_rate(last, 3_001), smoothing_year),
            (with_ufr(1, flat(3_000)), smoothing_year + 1),
        ] {
            let other = curve(&other.of_profile(profile));
            let checks = check(&sheet, Which::Plain, &other, 0).unwrap();
            let first = if profile == 3 && from == 15 { 13 } else { from };
            for year in &checks {
                assert_eq!(year.inside, year.year < first, "{year:?}");
            }
        }
        // The curve of another market, or of another factor.
        let euro = curve(&flat(3_000));
        let checks = check(&sheet, Which::Plain, &euro, 0).unwrap();
        assert!(checks[..smoothing_year].iter().all(|year| year.inside));
        let sheet = read(&november().of_profile(profile).with_x(20_000));
        let table = curve(&november().of_profile(profile));
        let checks = check(&sheet, Which::Plain, &table, 0).unwrap();
        assert!(checks[smoothing_year..].iter().all(|year| !year.inside));
    }
}

// Zero without slack

#[test]
fn the_earlier_zero_sheets() {
    for (profile, smoothing_year) in SMALLER {
        let sheet = read(&zero().of_profile(profile));
        let earlier = Curves::with(&sheet, AtKnown::One).unwrap().plain;
        for year in 1..=smoothing_year {
            assert_eq!(band(&earlier, year), (U, U));
        }
        // As years 21 and 22 of the euro were.
        let after = [1, 2].map(|h| band(&earlier, smoothing_year + h));
        assert_eq!(after[0], (999_999_992, 1_000_000_008));
        assert_eq!(after[1], (999_999_984, 1_000_000_017));
        let narrow = read(&within(1, zero()).of_profile(profile));
        let refused = Curves::with(&narrow, AtKnown::One);
        assert_eq!(refused.err(), Some(Refusal::at(10, smoothing_year + 1)));
    }
}

#[test]
fn each_band_lies_inside_the_earlier_one() {
    let mut random = Random::new(1_004);
    for market in Market::SMALLER {
        let (mut narrower, mut same, mut accepted_now_alone) = (0, 0, 0);
        for _ in 0..1_200 {
            let sheet = small_sheet(&mut random, market, 0);
            match (Curves::of(&sheet), Curves::with(&sheet, AtKnown::One)) {
                (Ok(now), Ok(earlier)) => {
                    for year in 1..=150 {
                        let (is, was) = (now.plain.factor(year), earlier.plain.factor(year));
                        assert!(was.low <= is.low && is.high <= was.high, "{sheet:?}");
                        assert!(is == was || year > market.smoothing_year());
                    }
                    *if now == earlier {
                        &mut same
                    } else {
                        &mut narrower
                    } += 1;
                }
                (Ok(_), Err(ground)) => {
                    assert!([8, 10].contains(&ground.number));
                    accepted_now_alone += 1;
                }
                (Err(now), Err(earlier)) => {
                    let early = |ground: Refusal| [7, 9].contains(&ground.number);
                    assert!(now == earlier || !(early(now) || early(earlier)));
                }
                (Err(ground), Ok(_)) => panic!("{ground}, accepted earlier: {sheet:?}"),
            }
        }
        println!("{narrower} narrower, {same} the same, {accepted_now_alone} now alone");
        assert!(narrower > 50 && same > 200 && accepted_now_alone > 5);
    }
}

// The book

/// A sheet of this profile and month, with other rates for each.
fn sheet_of(profile: u8, month: u16) -> Numbers {
    let numbers = flat(100 * i16::from(profile) + month as i16);
    Numbers {
        month,
        ufr: 345,
        ..numbers
    }
    .of_profile(profile)
}

fn shown(book: &Book, which: Which) -> Result<Vec<u8>, Refusal> {
    let mut page = vec![0; PAGE_LENGTH];
    book.page(which, &mut page).map(|()| page)
}

#[test]
fn look_ups_sums_rates_and_pages_of_a_smaller_market() {
    for (profile, _) in SMALLER {
        let sheet = sheet_of(profile, 0x0102);
        let mut book = Book::new(LARGEST_AGE_LIMIT);
        book.turn(0x0305).unwrap();
        assert_eq!(book.post(&sheet.bytes()), Ok(0x0102));
        let curve = curve(&sheet);
        let sums = Sums::of(&curve);
        let page = shown(&book, Which::Plain).unwrap();
        assert_eq!(page[..5], [0x48, 0x01, 0x02, 0x02, 0x03]);
        for (year, record) in (1..=150).zip(page[5..].chunks_exact(10)) {
            let factor = curve.factor(year);
            let found = book.look_up(Which::Plain, year as u32).unwrap();
            assert_eq!(found.amount, factor);
            assert_eq!(Some(found.rates), ZeroRates::of(factor, year));
            assert_eq!((found.month, found.age), (0x0102, 0x0203));
            let sum = book
                .look_up_wanted(Which::Plain, Wanted::Sum, year as u32)
                .unwrap();
            assert_eq!((sum.amount, sum.rates), (sums.to(year), found.rates));
            assert_eq!(record[..2], [0x59, year as u8]);
            assert_eq!(record[2..6], (factor.low as u32).to_be_bytes());
            assert_eq!(record[6..], (factor.high as u32).to_be_bytes());
        }
        // It has no adjusted curve.
        assert_eq!(shown(&book, Which::Adjusted), Err(Refusal::plain(14)));
        for wanted in Wanted::ALL {
            let found = book.look_up_wanted(Which::Adjusted, wanted, 10);
            assert_eq!(found, Err(Refusal::plain(14)));
        }
    }
}

#[test]
fn an_old_curve_of_a_smaller_market_is_turned_away() {
    for (profile, _) in SMALLER {
        let mut book = Book::new(3);
        book.turn(4).unwrap();
        book.post(&sheet_of(profile, 1).bytes()).unwrap();
        assert!(book.look_up(Which::Plain, 11).is_ok());
        book.turn(5).unwrap();
        assert_eq!(book.look_up(Which::Plain, 11), Err(Refusal::plain(16)));
        assert_eq!(shown(&book, Which::Plain), Err(Refusal::plain(16)));
        assert_eq!(book.look_up(Which::Adjusted, 11), Err(Refusal::plain(14)));
    }
}

#[test]
fn a_year_of_a_smaller_market_may_have_no_high_rate() {
    // Years 1 to 7 are U, year 9 is about 0.867 U and year 10 has the low 976,562, 1,024 times which
    // is below U: too far from year 9 for profile 2.
    let mut steep = with_ufr(10_000, flat(11_264))
        .with_rate(8, -13)
        .with_rate(9, 1_498);
    steep.rates[..7].fill(0);
    assert_eq!(refusal(&steep.clone().of_profile(2)), Some((9, 10)));
    let steep = steep.of_profile(3);
    let mut book = Book::new(LARGEST_AGE_LIMIT);
    book.post(&steep.bytes()).unwrap();
    assert!(book.look_up(Which::Plain, 9).is_ok());
    for year in [10, 150] {
        assert_eq!(book.look_up(Which::Plain, year), Err(Refusal::plain(17)));
        let sum = book.look_up_wanted(Which::Plain, Wanted::Sum, year);
        assert_eq!(sum, Err(Refusal::plain(17)));
    }
    assert!(shown(&book, Which::Plain).is_ok());
}

#[test]
fn withdrawals_across_markets() {
    let sheets = [
        sheet_of(2, 1),
        sheet_of(1, 2).adjusted(50),
        sheet_of(3, 2),
        sheet_of(2, 3).with_x(20_000),
    ];
    let mut book = Book::new(LARGEST_AGE_LIMIT);
    book.turn(5).unwrap();
    for sheet in &sheets {
        assert_eq!(book.post(&sheet.bytes()), Ok(sheet.month));
    }
    for (times, sheet) in sheets.iter().rev().enumerate() {
        let mut alone = Book::new(LARGEST_AGE_LIMIT);
        alone.turn(5).unwrap();
        alone.post(&sheet.bytes()).unwrap();
        for which in Which::ALL {
            assert_eq!(shown(&book, which), shown(&alone, which), "{times}");
            for year in [1, 10, 11, 15, 16, 20, 21, 150] {
                for wanted in Wanted::ALL {
                    let found = book.look_up_wanted(which, wanted, year);
                    assert_eq!(found, alone.look_up_wanted(which, wanted, year));
                }
            }
        }
        assert_eq!(book.depth(), 3 - times);
        // What stands now is what 6 goes by, whichever market it is of.
        let early = sheet_of(3, sheet.month - 1).bytes();
        assert_eq!(book.clone().post(&early), Err(Refusal::plain(6)));
        let answer = book.withdraw();
        assert_eq!(answer.is_ok(), times < 3);
    }
}

#[test]
fn the_count_holds_the_month_of_the_months_record() {
    for (profile, ..) in PROFILES {
        let posted = |month| post(&sheet_of(profile, month).bytes());
        let journal = [turn(9), posted(7), posted(8), posted(10), posted(6)].concat();
        let count = Count::of(calls(&journal));
        let held = count.sheet().map(|sheet| (sheet.month, sheet.limit));
        assert_eq!(held, Some((8, 100_000)));
        assert_eq!((count.told_month(), count.depth()), (9, 2));
    }
}

#[test]
fn the_count_takes_sheets_of_every_market() {
    let mut random = Random::new(1_005);
    let mut held = [0; 3];
    for _ in 0..800 {
        let journal = journal(&mut random);
        let book = book_after(LARGEST_AGE_LIMIT, &journal);
        let count = Count::of(calls(&journal));
        for which in Which::ALL {
            assert_eq!(count.finds(which), book.holds(which));
        }
        assert_eq!(usize::from(count.depth()), book.depth());
        let Some(sheet) = count.sheet() else {
            continue;
        };
        held[usize::from(sheet.market().profile) - 1] += 1;
        // The standing curve is that of the sheet that the count holds.
        let mut alone = Book::new(LARGEST_AGE_LIMIT);
        alone.turn(u32::from(count.told_month())).unwrap();
        alone.post(&sheet_bytes(sheet)).unwrap();
        for which in Which::ALL {
            assert_eq!(shown(&book, which), shown(&alone, which));
        }
    }
    assert!(held.iter().all(|&times| times > 12), "{held:?}");
}

#[test]
fn the_desk_takes_sheets_of_every_market() {
    let posted = |numbers: Numbers| post(&numbers.bytes());
    let level = |profile| with_ufr(345, flat(3_000)).of_profile(profile);
    let stream = [
        posted(level(2)),
        look_up(11),
        posted(level(3)),
        look_up(16),
        post(&[0x08]),
        post(&[0x08, 0x04]),
        posted(level(4)),
        posted(level(2).with_x(9_999)),
        posted(level(2).with_rate(10, 1_800)),
        look_up(150),
        turn(3),
        posted(Numbers {
            month: 3,
            ..level(2)
        }),
        look_up(150),
        withdrawal(),
    ];
    let mut lines = Vec::new();
    run_desk(&stream.concat()[..], &mut lines).unwrap();
    let expected = "P 0\nL 11 723334460 723334480 0 0\nP 0\nL 16 623954660 623954676 0 0\nR 1 0\n\
                    R 19 0\nR 19 0\nR 3 16\nR 9 10\nL 150 310528470 310529388 0 0\nM 3\nP 3\n\
                    L 150 353841506 353842578 3 0\nX ";
    let lines = String::from_utf8(lines).unwrap();
    assert!(lines.starts_with(expected), "{lines}");
}

// Seeded sheets, streams and journals

#[test]
fn seeded_sheets_are_in_their_ranges_and_mostly_accepted() {
    let mut random = Random::new(1_006);
    let mut accepted = [0; 3];
    for _ in 0..1_500 {
        let sheet = profiled_sheet(&mut random, 7);
        match Sheet::read(&sheet_bytes(&sheet)) {
            Ok(read) => assert_eq!(read, sheet),
            Err(refusal) => assert_eq!(refusal, Refusal::plain(4)),
        }
        let market = usize::from(sheet.market().profile) - 1;
        accepted[market] += usize::from(worked(&sheet).is_some());
    }
    println!("{accepted:?}");
    assert!(accepted[0] > 100 && accepted[1] > 200 && accepted[2] > 200);
}

#[test]
fn what_of_a_sheet_a_market_takes() {
    let euro = read(&november().with_x(12_345).adjusted(-3));
    for market in Market::ALL {
        let taken = in_market(&euro, market);
        let numbers = november()
            .with_x(12_345)
            .adjusted(-3)
            .of_profile(market.profile);
        assert_eq!(sheet_bytes(&taken), numbers.bytes());
        assert_eq!(taken, read(&numbers));
    }
}

/// Asserts that everything that posts with a profile are counted by was met at least so often.
fn assert_met(counts: &PostCounts, least: u64) {
    let markets = &counts.markets;
    println!("{markets}");
    assert_eq!(markets.check(), Ok(()));
    for form in FORMS {
        assert!(markets.of_form(form).accepted >= least, "{form:?}");
    }
    for due in GROUNDS {
        assert!(markets.refused(due) >= least, "{due}");
    }
    for meeting in Meeting::ALL {
        assert!(markets.of(meeting) >= least, "{meeting}");
    }
    let (profiled, posts) = markets.share();
    assert!(4 * profiled < posts, "{profiled} of {posts}");
}

#[test]
fn seeded_streams_meet_every_profile() {
    let mut counts = PostCounts::default();
    for (sheet, number) in (0..12).flat_map(|seed| answered_posts(&stream(seed, 1_000))) {
        counts.count(&sheet, number);
    }
    assert_met(&counts, 20);
}

#[test]
fn seeded_journals_meet_every_profile() {
    let mut random = Random::new(1_007);
    let mut counts = PostCounts::default();
    for _ in 0..1_500 {
        counts.count_journal(&journal(&mut random));
    }
    assert_met(&counts, 5);
}

#[test]
fn what_was_not_met_is_told() {
    let none = PostCounts::default();
    assert!(none.markets.check().is_err());
    let mut random = Random::new(1_008);
    let mut counts = PostCounts::default();
    for _ in 0..3_000 {
        let bytes = typed_profiled_sheet(&mut random, 0);
        let answer = Book::new(LARGEST_AGE_LIMIT).post(&bytes);
        counts.count(&bytes, answer.err().map_or(0, |refusal| refusal.number));
    }
    // Nothing stood that a month could be before, and no sheet was without the record.
    let text = counts.markets.check().unwrap_err();
    assert_eq!(text, "no post was refused so: profile 2, 6, place 0");
    for (market, tail) in FORMS {
        let accepted = counts.markets.of_form((market, tail)).accepted;
        assert!(accepted > 0, "{market:?}, {tail}");
        assert!(market.takes_adjustment || !tail.adjustment);
    }
}
