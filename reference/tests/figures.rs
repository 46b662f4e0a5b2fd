//! The figures to check by, the desk example, the grounds, the book and the page.

mod common;

use common::{flat, zero, Numbers};
use reference::book::{Book, LARGEST_AGE_LIMIT, PAGE_LENGTH};
use reference::curve::{Curve, Which};
use reference::desk::run_desk;
use reference::enclosure::{Enclosure, U};
use reference::extrapolation::{last_liquid_forward, log_ultimate};
use reference::forwards::YearForwards;
use reference::market::Market;
use reference::refusal::Refusal;
use reference::series::{growth, neg_log};
use reference::sheet::Sheet;
use reference::true_curve::{true_weights, Fraction};
use reference::weights::{table, whole_part};

fn curve(numbers: &Numbers) -> Result<Curve, Refusal> {
    Curve::plain(&Sheet::read(&numbers.bytes())?)
}

fn factor(numbers: &Numbers, year: usize) -> (i128, i128) {
    let factor = curve(numbers).expect("an accepted sheet").factor(year);
    (factor.low, factor.high)
}

fn refused(numbers: &Numbers, number: u8, place: u16) {
    assert_eq!(curve(numbers).unwrap_err(), Refusal { number, place });
}

fn desk(input: &[u8]) -> String {
    let mut output = Vec::new();
    run_desk(input, &mut output).unwrap();
    String::from_utf8(output).unwrap()
}

fn post_record(bytes: &[u8]) -> Vec<u8> {
    let length = u16::try_from(bytes.len()).unwrap();
    [&[0x50], &length.to_be_bytes()[..], bytes].concat()
}

// Figures

#[test]
fn first_years_by_par() {
    let sheet = flat(3_000);
    assert_eq!(factor(&sheet, 1), (970_873_786, 970_873_787));
    assert_eq!(factor(&sheet, 2), (942_595_909, 942_595_910));
    let sheet = zero().with_rate(1, 3_000).with_rate(2, 3_000);
    assert_eq!(factor(&sheet, 2), (942_595_909, 942_595_910));
    let sheet = zero().with_rate(1, -500);
    assert_eq!(factor(&sheet, 1), (1_005_025_125, 1_005_025_126));
}

#[test]
fn logarithm_and_growth() {
    // Known, so that nothing is added to the high.
    assert_eq!(neg_log(U), Enclosure::new(0, 0));
    assert_eq!(growth(0), Enclosure::new(U, U));
    assert_eq!(growth(1).high, U + 8);
}

#[test]
fn logarithm_above_one_is_the_negated_pair() {
    // -ln 1.03 = -0.0295588022415..; ln is the negated enclosure again.
    let pair = neg_log(1_030_000_000);
    assert!(pair.low <= -29_558_803 && -29_558_802 <= pair.high);
    assert_eq!(log_ultimate(3_000), Enclosure::new(-pair.high, -pair.low));
    assert_eq!(log_ultimate(0), Enclosure::new(0, 0));
}

#[test]
fn zero_sheet() {
    for year in 1..=150 {
        assert_eq!(factor(&zero(), year), (U, U));
    }
}

#[test]
fn flat_sheet() {
    // The ultimate forward rate of 0 is known: with an L of -1 to 0 year 150 had the high
    // 411,987,233.
    assert_eq!(factor(&flat(3_000), 21), (538_318_448, 538_318_465));
    assert_eq!(factor(&flat(3_000), 150), (411_986_547, 411_987_183));
}

#[test]
fn zero_sheet_at_the_least_limit() {
    assert!(curve(&Numbers { limit: 1, ..zero() }).is_ok());
}

#[test]
fn flat_sheet_at_its_limit() {
    // Year 150 is the widest: 411,987,183 less 411,986,547.
    let limited = |limit| Numbers {
        limit,
        ..flat(3_000)
    };
    assert!(curve(&limited(636)).is_ok());
    refused(&limited(635), 10, 150);
}

#[test]
fn refused_rates() {
    refused(&flat(-2_000), 8, 35);
    let mut sheet = zero().with_rate(10, 12_000);
    sheet.rates[..9].fill(-2_000);
    refused(&sheet, 7, 10);
    refused(&flat(3_000).with_rate(12, 12_000), 9, 12);
}

/// Forward 15-20 so far below 0 that the extrapolation from it passes 2 U.
fn rising_extrapolation() -> Numbers {
    let mut sheet = Numbers {
        volumes: [1, 0, 0, 0, 0],
        ..zero()
    };
    sheet.rates[12..].copy_from_slice(&[-2_000, -1_000, -500, -300, -200]);
    sheet
}

#[test]
fn ground_8_on_extrapolated_years_comes_after_the_quotes_and_before_ground_10() {
    refused(&rising_extrapolation(), 8, 27);
    refused(
        &Numbers {
            limit: 1,
            ..rising_extrapolation()
        },
        8,
        27,
    );
    // A last gap that cannot be filled, once its quote has volume and is used.
    let mut sheet = rising_extrapolation().with_rate(50, 12_000);
    refused(&sheet, 8, 27);
    sheet.volumes = [1_000_000, 0, 0, 0, 1];
    refused(&sheet, 9, 50);
}

#[test]
fn ground_10_names_the_first_year() {
    // ln 1.00001 is within 9,998 to 10,009, and 48,374,180 billionths of that within 483 to 485:
    // from U, year 21 is U - 492 to U - 482.
    let rising = |limit| Numbers {
        ufr: 1,
        limit,
        ..zero()
    };
    assert_eq!(factor(&rising(100_000), 21), (U - 492, U - 482));
    refused(&rising(9), 10, 21);
    refused(&rising(10), 10, 22);
    refused(
        &Numbers {
            limit: 5,
            ..flat(3_000)
        },
        10,
        11,
    );
}

#[test]
fn desk_example() {
    let input = [
        0x4C, 0x01, 0x4D, 0x00, 0x05, 0x4D, 0x00, 0x04, 0x4C, 0x00, 0x51,
    ];
    assert_eq!(desk(&input), "R 14 0\nM 5\nR 12 0\nR 13 0\nX 10\n");
}

#[test]
fn table_of_weights() {
    let table = table();
    assert_eq!(table[0], 951_625_819);
    assert_eq!(table[1], 861_066_649);
    for (h, &weight) in (1..).zip(table) {
        // A floating-point check of the order of size, independent of the intervals.
        let power = |h: i32| (-f64::from(h) / 10.0).exp();
        let approximate = 1e10 * (power(h - 1) - power(h));
        assert!((approximate - weight as f64 - 0.5).abs() < 0.51, "h = {h}");
    }
}

#[test]
fn table_of_weights_is_the_whole_part_at_every_order() {
    for order in 0..=3 {
        let exact = true_weights(&Fraction::new(1, 10), order, 512);
        for (weight, exact) in table().iter().zip(&exact) {
            assert_eq!(*weight, whole_part(&exact.times(U)));
        }
    }
}

/// Years 16 to 50 with these forwards in gaps 15-20, 20-25, 25-30, 30-40 and 40-50.
fn in_all_gaps(forwards: [i128; 5]) -> YearForwards {
    let mut years = YearForwards::new(Market::EURO);
    for (gap_years, g) in [5, 5, 5, 10, 10].into_iter().zip(forwards) {
        years.push_years(gap_years, Enclosure::new(g, g));
    }
    years
}

#[test]
fn mean_forwards_run_from_year_20() {
    let forwards = in_all_gaps([10, 200, 3_000, 40_000, 500_000]);
    let mean = |maturity: usize| {
        let mut volumes = [0; 5];
        volumes[maturity] = 7;
        let mean = last_liquid_forward(Market::EURO, &volumes, &forwards);
        (mean.low, mean.high)
    };
    assert_eq!(mean(0), (10, 10));
    assert_eq!(mean(1), (200, 200));
    assert_eq!(mean(2), (1_600, 1_600));
    // (5 × 200 + 5 × 3,000 + 10 × 40,000) / 20
    assert_eq!(mean(3), (20_800, 20_800));
    // (5 × 200 + 5 × 3,000 + 10 × 40,000 + 10 × 500,000) / 30 = 180,533.3
    assert_eq!(mean(4), (180_533, 180_534));
}

#[test]
fn forwards_below_zero_round_down_and_up() {
    let forwards = in_all_gaps([-1, 0, 0, 0, 0]);
    assert_eq!(
        last_liquid_forward(Market::EURO, &[1, 1, 0, 0, 0], &forwards),
        Enclosure::new(-1, 0)
    );
}

// Grounds of the sheet

fn sheet_refusal(bytes: &[u8]) -> Option<(u8, u16)> {
    Sheet::read(bytes)
        .err()
        .map(|refusal| (refusal.number, refusal.place))
}

fn altered(offset: usize, byte: u8) -> Vec<u8> {
    let mut bytes = zero().bytes();
    bytes[offset] = byte;
    bytes
}

/// Offset of each record's kind byte.
fn offsets() -> Vec<usize> {
    let rates = (0..17).map(|i| 3 + 4 * i);
    let volumes = (0..5).map(|i| 71 + 6 * i);
    [0].into_iter()
        .chain(rates)
        .chain(volumes)
        .chain([101, 104])
        .collect()
}

#[test]
fn ground_1_any_other_length() {
    let bytes = zero().bytes();
    assert_eq!(bytes.len(), 109);
    assert_eq!(sheet_refusal(&bytes), None);
    for length in (0..65_536).filter(|length| ![109, 112, 115].contains(length)) {
        let mut other = zero().with_x(20_000).adjusted(500).bytes();
        other.resize(length, 0x06);
        assert_eq!(sheet_refusal(&other), Some((1, 0)), "{length} bytes");
    }
}

#[test]
fn ground_2_names_the_first_record_of_other_kind_or_maturity() {
    for (record, offset) in (1..).zip(offsets()) {
        let kind = zero().bytes()[offset];
        for other in (0..=255).filter(|&byte| byte != kind) {
            // A first byte of hex 08 names a profile, and the month's high byte is none.
            let expected = match (record, other) {
                (1, 0x08) => (19, 0),
                _ => (2, record),
            };
            assert_eq!(sheet_refusal(&altered(offset, other)), Some(expected));
        }
        if (2..=23).contains(&record) {
            let maturity = zero().bytes()[offset + 1];
            for other in (0..=255).filter(|&byte| byte != maturity) {
                assert_eq!(
                    sheet_refusal(&altered(offset + 1, other)),
                    Some((2, record))
                );
            }
        }
    }
}

#[test]
fn ground_2_comes_before_3_and_names_the_first() {
    let mut bytes = Numbers {
        month: 2_400,
        ..zero()
    }
    .bytes();
    bytes[104] = 0x09;
    assert_eq!(sheet_refusal(&bytes), Some((2, 25)));
    bytes[72] = 0x15;
    assert_eq!(sheet_refusal(&bytes), Some((2, 19)));
}

#[test]
fn ground_3_names_the_first_record_out_of_range() {
    let check = |numbers: Numbers, answer| assert_eq!(sheet_refusal(&numbers.bytes()), answer);
    check(
        Numbers {
            month: 2_399,
            ..zero()
        },
        None,
    );
    check(
        Numbers {
            month: 2_400,
            ..zero()
        },
        Some((3, 1)),
    );
    for (record, maturity) in (2..).zip(common::MATURITIES) {
        check(zero().with_rate(maturity, -2_000), None);
        check(zero().with_rate(maturity, -2_001), Some((3, record)));
        check(zero().with_rate(maturity, 12_000), None);
        check(zero().with_rate(maturity, 12_001), Some((3, record)));
    }
    for i in 0..5 {
        let mut numbers = zero();
        numbers.volumes[i] = 1_000_000;
        check(numbers.clone(), None);
        numbers.volumes[i] = 1_000_001;
        check(numbers, Some((3, 19 + i as u16)));
    }
    check(
        Numbers {
            ufr: 10_000,
            ..zero()
        },
        None,
    );
    check(
        Numbers {
            ufr: 10_001,
            ..zero()
        },
        Some((3, 24)),
    );
    check(Numbers { limit: 0, ..zero() }, Some((3, 25)));
    check(Numbers { limit: 1, ..zero() }, None);
    check(
        Numbers {
            limit: 100_001,
            ..zero()
        },
        Some((3, 25)),
    );
    check(
        Numbers {
            limit: 0,
            ufr: u16::MAX,
            ..zero()
        },
        Some((3, 24)),
    );
}

#[test]
fn ground_4_all_volumes_zero() {
    let none = Numbers {
        volumes: [0; 5],
        ..zero()
    };
    assert_eq!(sheet_refusal(&none.bytes()), Some((4, 0)));
    assert_eq!(
        sheet_refusal(&Numbers { limit: 0, ..none }.bytes()),
        Some((3, 25))
    );
    for i in 0..5 {
        let mut one = zero();
        one.volumes = [0; 5];
        one.volumes[i] = 1;
        assert_eq!(sheet_refusal(&one.bytes()), None);
    }
}

// Book, page and desk

fn refusal(number: u8, place: u16) -> Refusal {
    Refusal { number, place }
}

#[test]
fn posts_are_dated() {
    let dated = |month| {
        Numbers {
            month,
            ..flat(3_000)
        }
        .bytes()
    };
    let mut book = Book::new(LARGEST_AGE_LIMIT);
    assert_eq!(book.post(&dated(1)), Err(refusal(5, 0)));
    assert_eq!(book.turn(7), Ok(7));
    assert_eq!(book.post(&dated(8)), Err(refusal(5, 0)));
    assert_eq!(book.post(&dated(5)), Ok(5));
    assert_eq!(book.post(&dated(4)), Err(refusal(6, 0)));
    assert_eq!(book.post(&dated(5)), Ok(5));
    assert_eq!(book.turn(9), Ok(9));
    let found = book.look_up(Which::Plain, 1).unwrap();
    assert_eq!((found.month, found.age), (5, 4));
}

#[test]
fn refused_calls_change_nothing() {
    let mut book = Book::new(LARGEST_AGE_LIMIT);
    assert_eq!(book.turn(7), Ok(7));
    assert_eq!(book.post(&flat(3_000).bytes()), Ok(0));
    let before = book.clone();
    let refused_sheets = [
        (zero().bytes()[1..].to_vec(), refusal(1, 0)),
        (Numbers { month: 8, ..zero() }.bytes(), refusal(5, 0)),
        (flat(-2_000).bytes(), refusal(8, 35)),
        (
            Numbers {
                limit: 635,
                ..flat(3_000)
            }
            .bytes(),
            refusal(10, 150),
        ),
    ];
    for (bytes, answer) in refused_sheets {
        assert_eq!(book.post(&bytes), Err(answer));
        assert_eq!(book, before);
    }
    assert_eq!(book.turn(6), Err(refusal(12, 0)));
    assert_eq!(book.turn(2_400), Err(refusal(11, 0)));
    assert_eq!(book.turn(u32::MAX), Err(refusal(11, 0)));
    assert_eq!(book, before);
}

#[test]
fn grounds_5_and_6_come_before_the_curve() {
    let mut book = Book::new(LARGEST_AGE_LIMIT);
    assert_eq!(
        book.post(
            &Numbers {
                month: 1,
                ..flat(-2_000)
            }
            .bytes()
        ),
        Err(refusal(5, 0))
    );
    book.turn(3).unwrap();
    book.post(&Numbers { month: 3, ..zero() }.bytes()).unwrap();
    assert_eq!(book.post(&flat(-2_000).bytes()), Err(refusal(6, 0)));
}

#[test]
fn a_new_post_replaces_the_curve() {
    let mut book = Book::new(LARGEST_AGE_LIMIT);
    book.post(&zero().bytes()).unwrap();
    assert_eq!(
        book.look_up(Which::Plain, 1).unwrap().amount,
        Enclosure::new(U, U)
    );
    book.post(&flat(3_000).bytes()).unwrap();
    assert_eq!(
        book.look_up(Which::Plain, 1).unwrap().amount,
        Enclosure::new(970_873_786, 970_873_787)
    );
}

#[test]
fn look_ups_try_the_year_first() {
    let mut book = Book::new(LARGEST_AGE_LIMIT);
    for year in [0, 151, 255, u32::MAX] {
        assert_eq!(book.look_up(Which::Plain, year), Err(refusal(13, 0)));
    }
    assert_eq!(book.look_up(Which::Plain, 1), Err(refusal(14, 0)));
    assert_eq!(book.look_up(Which::Plain, 150), Err(refusal(14, 0)));
    book.post(&zero().bytes()).unwrap();
    assert_eq!(book.look_up(Which::Plain, 0), Err(refusal(13, 0)));
    assert_eq!(book.look_up(Which::Plain, 151), Err(refusal(13, 0)));
    assert!(book.look_up(Which::Plain, 150).is_ok());
}

#[test]
fn page_bytes() {
    let mut book = Book::new(LARGEST_AGE_LIMIT);
    let mut short = [9; PAGE_LENGTH - 1];
    assert_eq!(book.page(Which::Plain, &mut short), Err(refusal(14, 0)));
    book.turn(0x0203).unwrap();
    book.post(
        &Numbers {
            month: 0x0102,
            ..flat(3_000)
        }
        .bytes(),
    )
    .unwrap();
    assert_eq!(book.page(Which::Plain, &mut short), Err(refusal(15, 0)));
    assert_eq!(short, [9; PAGE_LENGTH - 1]);
    let mut long = [9; PAGE_LENGTH + 3];
    book.page(Which::Plain, &mut long).unwrap();
    assert_eq!(long[..5], [0x48, 0x01, 0x02, 0x01, 0x01]);
    assert_eq!(long[PAGE_LENGTH..], [9; 3]);
    for year in 1..=150u8 {
        let record = &long[5 + 10 * (usize::from(year) - 1)..][..10];
        let factor = book.look_up(Which::Plain, u32::from(year)).unwrap().amount;
        assert_eq!(record[..2], [0x59, year]);
        assert_eq!(
            record[2..6],
            u32::try_from(factor.low).unwrap().to_be_bytes()
        );
        assert_eq!(
            record[6..],
            u32::try_from(factor.high).unwrap().to_be_bytes()
        );
    }
}

#[test]
fn desk_lines() {
    let of_month_1 = Numbers {
        month: 1,
        ..flat(3_000)
    };
    let mut input = vec![0x4D, 0x00, 0x03];
    input.extend(post_record(&of_month_1.bytes()));
    input.extend([0x4C, 0x02, 0x4D, 0x09, 0x60]);
    input.extend(post_record(&Numbers { limit: 0, ..zero() }.bytes()));
    assert_eq!(
        desk(&input),
        "M 3\nP 1\nL 2 942595909 942595910 1 2\nR 11 0\nR 3 25\n"
    );
}

#[test]
fn desk_ends_at_a_cut_body() {
    assert_eq!(desk(&[]), "");
    assert_eq!(desk(&[0x4D, 0x00, 0x00, 0x4C]), "M 0\nX 3\n");
    assert_eq!(desk(&[0x4D, 0x00]), "X 0\n");
    let post = post_record(&zero().bytes());
    assert_eq!(desk(&post), "P 0\n");
    for length in 1..post.len() {
        assert_eq!(desk(&post[..length]), "X 0\n");
    }
}

#[test]
fn a_sheet_of_any_length_is_read_to_its_end() {
    let sheet = zero().with_x(20_000).adjusted(500).bytes();
    for length in [
        0, 1, 108, 109, 110, 111, 112, 113, 114, 115, 116, 365, 368, 371, 65_535,
    ] {
        let mut posted = sheet.clone();
        posted.resize(length, 0);
        let post = post_record(&posted);
        let answer = match length {
            109 | 112 | 115 => "P 0",
            _ => "R 1 0",
        };
        let input = [&post[..], &[0x4D, 0x00, 0x05, 0x51]].concat();
        let unknown = 3 + length + 3;
        assert_eq!(desk(&input), format!("{answer}\nM 5\nX {unknown}\n"));
        assert_eq!(desk(&post[..post.len() - 1]), "X 0\n");
    }
}
