//! Old curves turned away: ground 16, its turn among the others, and what the limit leaves alone.

mod common;

use std::ffi::OsString;

use common::{flat, zero, Numbers};
use reference::arguments;
use reference::book::{Book, LARGEST_AGE_LIMIT, PAGE_LENGTH};
use reference::curve::Which;
use reference::desk::run_desk;
use reference::every_ground::{records, AGE_LIMIT};
use reference::journal::{answer_after, answer_on, book_after, calls, look_up, make, post, turn};
use reference::questions::{age_limits, curve_age, journal, limits_around};
use reference::refusal::Refusal;
use reference::streams::Random;

/// Limits of every sort; those past 2,399 make a book with 2,399.
const LIMITS: [u64; 12] = [
    0,
    1,
    2,
    3,
    5,
    2_398,
    2_399,
    2_400,
    65_536,
    1 << 32,
    1 << 63,
    u64::MAX,
];

const LENGTHS: [usize; 5] = [0, 1_504, 1_505, 1_506, 2_000];

fn of_month(month: u16) -> Vec<u8> {
    Numbers {
        month,
        ..flat(3_000)
    }
    .bytes()
}

/// A book with the curve of `month`, then told `month` + `age`.
fn aged(age_limit: u64, month: u16, age: u16) -> Book {
    let mut book = Book::new(age_limit);
    assert_eq!(book.turn(u32::from(month)), Ok(month));
    assert_eq!(book.post(&of_month(month)), Ok(month));
    assert_eq!(book.turn(u32::from(month + age)), Ok(month + age));
    book
}

/// The number of the look-up's refusal, or 0.
fn looked(book: &Book, year: u32) -> u8 {
    book.look_up(Which::Plain, year).err().map_or(0, number)
}

/// The number of the page's refusal, or 0; a refusal leaves the buffer.
fn paged(book: &Book, length: usize) -> u8 {
    let mut buffer = vec![7; length];
    let refusal = book.page(Which::Plain, &mut buffer).err();
    if refusal.is_some() {
        assert_eq!(buffer, vec![7; length]);
    }
    refusal.map_or(0, number)
}

fn number(refusal: Refusal) -> u8 {
    assert_eq!(refusal.place, 0, "grounds 13 to 17 name no place");
    refusal.number
}

// The limit

#[test]
fn a_curve_is_shown_up_to_the_limit() {
    // The greatest age shown under each of LIMITS.
    let greatest = [
        0, 1, 2, 3, 5, 2_398, 2_399, 2_399, 2_399, 2_399, 2_399, 2_399,
    ];
    for (limit, greatest) in LIMITS.into_iter().zip(greatest) {
        for age in [0, 1, 2, 3, 4, 5, 6, 100, 2_397, 2_398, 2_399] {
            let book = aged(limit, 0, age);
            let expected = if age <= greatest { 0 } else { 16 };
            for year in [1, 20, 21, 150] {
                assert_eq!(looked(&book, year), expected, "limit {limit}, age {age}");
            }
            for length in [1_505, 2_000] {
                assert_eq!(paged(&book, length), expected, "limit {limit}, age {age}");
            }
        }
    }
}

#[test]
fn the_age_counts_from_the_sheets_month() {
    for month in [0, 1, 7, 255, 256, 2_395] {
        for age in 0..=4 {
            let expected = if age <= 3 { 0 } else { 16 };
            assert_eq!(looked(&aged(3, month, age), 1), expected);
            assert_eq!(paged(&aged(3, month, age), PAGE_LENGTH), expected);
        }
    }
}

#[test]
fn a_shown_curve_is_found_as_without_a_limit() {
    for limit in LIMITS.into_iter().filter(|&limit| limit >= 2) {
        let (book, free) = (aged(limit, 5, 2), aged(LARGEST_AGE_LIMIT, 5, 2));
        for year in 1..=150 {
            assert_eq!(
                book.look_up(Which::Plain, year),
                free.look_up(Which::Plain, year)
            );
        }
        let found = book.look_up(Which::Plain, 1).unwrap();
        assert_eq!((found.month, found.age), (5, 2));
        let (mut page, mut expected) = ([7; 2_000], [7; 2_000]);
        assert_eq!(book.page(Which::Plain, &mut page), Ok(()));
        assert_eq!(free.page(Which::Plain, &mut expected), Ok(()));
        assert_eq!(page, expected);
        assert_eq!(page[..5], [0x48, 0, 5, 0, 2]);
    }
}

#[test]
fn a_larger_number_makes_a_book_with_2_399() {
    for limit in LIMITS.into_iter().filter(|&limit| limit >= 2_399) {
        assert_eq!(Book::new(limit), Book::new(2_399));
        assert_eq!(aged(limit, 3, 9), aged(2_399, 3, 9));
        assert_eq!(aged(limit, 3, 9), aged(0, 3, 9).with_age_limit(limit));
    }
    for limit in LIMITS.into_iter().filter(|&limit| limit < 2_399) {
        assert_ne!(Book::new(limit), Book::new(2_399));
    }
}

#[test]
fn the_largest_limit_never_answers_16() {
    for limit in [2_399, 2_400, u64::MAX] {
        for age in 0..=2_399 {
            let book = aged(limit, 0, age);
            assert_eq!((looked(&book, 150), paged(&book, PAGE_LENGTH)), (0, 0));
        }
    }
    // A fresh book told the last month still holds no curve.
    let mut book = Book::new(2_399);
    assert_eq!(book.turn(2_399), Ok(2_399));
    assert_eq!((looked(&book, 1), paged(&book, 0)), (14, 14));
}

#[test]
fn the_desk_has_the_largest_limit() {
    let input = [post(&zero().bytes()), turn(2_399), look_up(1)].concat();
    let mut output = Vec::new();
    run_desk(&input[..], &mut output).unwrap();
    let lines = String::from_utf8(output).unwrap();
    assert_eq!(lines, "P 0\nM 2399\nL 1 1000000000 1000000000 0 2399\n");
}

// The order of grounds

#[test]
fn look_ups_try_13_then_14_then_16() {
    for limit in LIMITS {
        let mut fresh = Book::new(limit);
        assert_eq!((looked(&fresh, 0), looked(&fresh, 1)), (13, 14));
        // No curve has no age, however late it is.
        assert_eq!(fresh.turn(2_399), Ok(2_399));
        assert_eq!((looked(&fresh, 151), looked(&fresh, 150)), (13, 14));
    }
    let old = aged(3, 0, 4);
    for year in [0, 151, 255, 256, u32::MAX] {
        assert_eq!(looked(&old, year), 13);
    }
    for year in 1..=150 {
        assert_eq!(looked(&old, year), 16);
    }
}

#[test]
fn pages_try_14_then_16_then_15() {
    for length in LENGTHS {
        let short = if length < PAGE_LENGTH { 15 } else { 0 };
        assert_eq!(paged(&Book::new(0), length), 14);
        assert_eq!(paged(&aged(3, 0, 4), length), 16);
        assert_eq!(paged(&aged(3, 0, 3), length), short);
        assert_eq!(paged(&aged(0, 8, 1), length), 16);
        assert_eq!(paged(&aged(0, 8, 0), length), short);
    }
}

// The book still holds the curve

#[test]
fn a_turn_closes_a_curve_that_was_shown() {
    let mut book = aged(2, 10, 2);
    assert_eq!((looked(&book, 1), paged(&book, PAGE_LENGTH)), (0, 0));
    assert_eq!(book.turn(12), Ok(12));
    assert_eq!((looked(&book, 1), paged(&book, PAGE_LENGTH)), (0, 0));
    assert_eq!(book.turn(13), Ok(13));
    assert_eq!((looked(&book, 1), paged(&book, PAGE_LENGTH)), (16, 16));
    // The calendar does not go back.
    assert_eq!(book.turn(12), Err(Refusal::plain(12)));
    assert_eq!(looked(&book, 1), 16);
}

#[test]
fn a_closed_curve_still_stands_in_ground_6() {
    let mut book = aged(2, 10, 9);
    let closed = book.clone();
    assert_eq!(book.post(&of_month(9)), Err(Refusal::plain(6)));
    assert_eq!(book.post(&of_month(20)), Err(Refusal::plain(5)));
    assert_eq!(book.post(&of_month(10)[1..]), Err(Refusal::plain(1)));
    assert_eq!(book, closed);
    assert_eq!(looked(&book, 1), 16);
}

#[test]
fn an_accepted_post_opens_the_book_if_its_sheet_is_young_enough() {
    let mut book = aged(2, 10, 9);
    // No ground of a post looks at the limit.
    for month in [10, 11, 16] {
        assert_eq!(book.post(&of_month(month)), Ok(month));
        assert_eq!((looked(&book, 1), paged(&book, 0)), (16, 16));
    }
    for (month, age) in [(17, 2), (19, 0)] {
        assert_eq!(book.post(&of_month(month)), Ok(month));
        let found = book.look_up(Which::Plain, 1).unwrap();
        assert_eq!((found.month, found.age), (month, age));
    }
    // What was posted while the book was closed stands as ever.
    assert_eq!(book.post(&of_month(18)), Err(Refusal::plain(6)));
}

// Journals

#[test]
fn the_hand_written_journal_under_every_limit() {
    for limit in LIMITS {
        let mut journal = Vec::new();
        for (record, number, place) in records() {
            let expected = u64::from(number) + 256 * u64::from(place);
            let found = answer_after(limit, &journal, &record);
            let free = answer_after(LARGEST_AGE_LIMIT, &journal, &record);
            if limit == AGE_LIMIT {
                assert_eq!(found, expected);
            } else if number == 16 {
                assert!([0, 17].contains(&free), "only the limit says 16");
            } else {
                assert_eq!(free, expected);
            }
            assert!(found == free || found == 16);
            journal.extend(record);
        }
    }
}

/// What a look-up of year 1, which always has rates, gets of the curve's age alone.
fn of_age(age: Option<u64>, limit: u64) -> u8 {
    match age {
        None => 14,
        Some(age) if age > limit => 16,
        Some(_) => 0,
    }
}

#[test]
fn the_limit_changes_only_what_is_shown() {
    let mut random = Random::new(16);
    let mut met = [0; 18];
    for _ in 0..200 {
        let journal = journal(&mut random);
        let free = book_after(u64::MAX, &journal);
        let age = curve_age(&free);
        let around = age.into_iter().flat_map(limits_around);
        for limit in age_limits(&mut random).into_iter().chain(around) {
            let book = book_after(limit, &journal);
            assert_eq!(book, free.with_age_limit(limit));
            assert_eq!(curve_age(&book), age);
            let expected = of_age(age, limit);
            let short = if expected == 0 { 15 } else { expected };
            assert_eq!((looked(&book, 1), looked(&book, 0)), (expected, 13));
            assert_eq!(
                (paged(&book, 1_505), paged(&book, 1_504)),
                (expected, short)
            );
            assert_eq!(answer_on(&book, &look_up(1)), u64::from(expected));
            // A later year may have no high rate, which shows only where the curve is shown.
            let last = answer_on(&book, &look_up(150));
            assert!(last == u64::from(expected) || (last, expected) == (17, 0));
            met[usize::from(expected)] += 1;
            met[17] += usize::from(last == 17);
        }
    }
    assert!(met[0] > 100 && met[14] > 100 && met[16] > 100, "{met:?}");
    assert!(met[17] > 0, "{met:?}");
}

#[test]
fn posts_and_turns_are_answered_alike_under_every_limit() {
    let mut random = Random::new(17);
    for _ in 0..40 {
        let journal = journal(&mut random);
        let mut books = LIMITS.map(Book::new);
        for call in calls(&journal) {
            let answers = books.each_mut().map(|book| make(book, &call));
            let free = answers[LIMITS.len() - 1];
            for answer in answers {
                assert!(answer == free || answer == Err(Refusal::plain(16)));
            }
        }
        for (book, limit) in books.iter().zip(LIMITS) {
            assert_eq!(*book, books[0].with_age_limit(limit));
        }
    }
}

// The programs' argument

#[test]
fn an_age_limit_is_a_whole_number_or_left_out() {
    let of = |words: &[&str]| arguments::age_limit(words.iter().map(OsString::from));
    assert_eq!(of(&[]), Some(2_399));
    assert_eq!(of(&["0"]), Some(0));
    assert_eq!(of(&["007"]), Some(7));
    assert_eq!(of(&["4294967297"]), Some((1 << 32) + 1));
    assert_eq!(of(&["18446744073709551615"]), Some(u64::MAX));
    assert_eq!(of(&["18446744073709551616"]), Some(u64::MAX));
    for word in ["", " ", "-1", "+1", " 1", "1 ", "1x", "0x1", "1.0", "٣"] {
        assert_eq!(of(&[word]), None, "{word:?}");
    }
    assert_eq!(of(&["1", "2"]), None);
}
