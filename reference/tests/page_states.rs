//! The states inside the writing of one page: once years 1 to t are written, the buffer's first
//! 5 + 10 × t bytes are the page's and all others are still as lent, for every t from 0 to 150.
//! The page is made of digits here: its numbers printed in base 16, and each two digits a byte.

mod common;

use std::cell::RefCell;

use common::{flat, november, steep, zero, Numbers};
use reference::book::{Book, LARGEST_AGE_LIMIT};
use reference::curve::{Curve, Which};
use reference::enclosure::Enclosure;
use reference::page::Page;
use reference::refusal::Refusal;
use reference::sheet::Sheet;
use reference::streams::{sheet, sheet_bytes, steep_sheet, worked, Random};

/// Buffers that the page fits in; in those from 1,515 on one more record would.
const LENGTHS: [usize; 9] = [
    1_505, 1_506, 1_507, 1_509, 1_514, 1_515, 1_600, 2_000, 3_010,
];

/// A book that shows a curve, and the bytes of its page.
struct Case {
    book: Book,
    page: Vec<u8>,
}

impl Case {
    /// The book of an accepted sheet that is `age` months old.
    fn of(bytes: &[u8], age: u16) -> Self {
        let sheet = Sheet::read(bytes).expect("a sheet");
        let curve = Curve::plain(&sheet).expect("an accepted sheet");
        let month = sheet.month;
        let mut book = Book::new(LARGEST_AGE_LIMIT);
        assert_eq!(book.turn(u32::from(month)), Ok(month));
        assert_eq!(book.post(bytes), Ok(month));
        assert_eq!(book.turn(u32::from(month + age)), Ok(month + age));
        let page = page_in_digits(month, age, |year| curve.factor(year));
        Case { book, page }
    }

    /// Asserts the sentence of one t.
    fn assert_state(&self, t: usize, state: &[u8], lent: &[u8]) {
        let own = 5 + 10 * t;
        assert_eq!(state.len(), lent.len());
        let other = (0..own).find(|&at| state[at] != self.page[at]);
        assert_eq!(other, None, "t {t}: a byte that is not the page's");
        let touched = (own..lent.len()).find(|&at| state[at] != lent[at]);
        assert_eq!(touched, None, "t {t}: a byte that is not as lent");
    }
}

/// The page whose numbers these are, made of digits.
fn page_in_digits(month: u16, age: u16, factor: impl Fn(usize) -> Enclosure) -> Vec<u8> {
    let mut digits = format!("48{month:04x}{age:04x}");
    for year in 1..=150 {
        let Enclosure { low, high } = factor(year);
        digits += &format!("59{year:02x}{low:08x}{high:08x}");
    }
    assert_eq!(digits.len(), 2 * 1_505);
    (0..1_505)
        .map(|at| u8::from_str_radix(&digits[2 * at..2 * at + 2], 16).expect("two digits"))
        .collect()
}

fn dated(month: u16, numbers: Numbers) -> Vec<u8> {
    Numbers { month, ..numbers }.bytes()
}

/// Books of usual curves, of some above U, of some with X and of steep ones, in which years
/// have no high rate and the last ones may have a low of 0.
fn cases() -> Vec<Case> {
    let mut cases = vec![
        Case::of(&zero().bytes(), 0),
        Case::of(&dated(0x0102, flat(3_000)), 0x0203),
        Case::of(&dated(5, flat(-150)), 2),
        Case::of(&dated(250, november()), 1),
        Case::of(&dated(2_399, november().with_x(20_000)), 0),
        Case::of(&dated(5, steep(0)), 256),
        Case::of(&steep(10_000).bytes(), 2_399),
    ];
    cases.extend(random_cases());
    cases
}

/// Books of accepted random sheets, every other one a steep one.
fn random_cases() -> Vec<Case> {
    let mut random = Random::new(4);
    let mut cases = Vec::new();
    while cases.len() < 6 {
        let month = random.below(2_000) as u16;
        let sheet = match cases.len() % 2 {
            0 => sheet(&mut random, month),
            _ => steep_sheet(&mut random, month),
        };
        if worked(&sheet).is_some() {
            cases.push(Case::of(&sheet_bytes(&sheet), random.below(400) as u16));
        }
    }
    cases
}

/// Lent buffers of one length: bytes all the same, any bytes, and such that none is the page's,
/// so that each byte that is not yet written shows, and each that is written too early.
fn lent_of(page: &[u8], length: usize) -> [Vec<u8>; 5] {
    let mut random = Random::new(length as u64);
    [
        vec![7; length],
        vec![0; length],
        vec![0xFF; length],
        (0..length).map(|_| random.below(256) as u8).collect(),
        none_of(page, length),
    ]
}

fn none_of(page: &[u8], length: usize) -> Vec<u8> {
    (0..length)
        .map(|at| page.get(at).map_or(0xA5, |byte| !byte))
        .collect()
}

/// Each case with each lent buffer.
fn trials(cases: &[Case]) -> impl Iterator<Item = (&Case, Vec<u8>)> {
    cases.iter().flat_map(|case| {
        let lent = LENGTHS.map(|length| lent_of(&case.page, length));
        lent.into_iter().flatten().map(move |lent| (case, lent))
    })
}

/// The states inside one write of the book's page, in the order in which they are told, each
/// under the t that it is told with.
fn states(book: &Book, lent: &[u8]) -> Vec<(usize, Vec<u8>)> {
    let mut states = Vec::new();
    let mut buffer = lent.to_vec();
    let page = book.shown_page(Which::Plain).expect("a shown curve");
    let written = page.write(&mut buffer, |t, state| states.push((t, state.to_vec())));
    assert_eq!(written, Ok(()));
    states
}

/// The buffer once years 1 to t alone are written.
fn written_to(t: usize, book: &Book, lent: &[u8]) -> Vec<u8> {
    let mut buffer = lent.to_vec();
    let page = book.shown_page(Which::Plain).expect("a shown curve");
    assert_eq!(page.write_to(t, &mut buffer), Ok(()));
    buffer
}

fn paged(book: &Book, lent: &[u8]) -> Vec<u8> {
    let mut buffer = lent.to_vec();
    assert_eq!(book.page(Which::Plain, &mut buffer), Ok(()));
    buffer
}

// The sentence

#[test]
fn every_state_inside_one_write() {
    for (case, lent) in trials(&cases()) {
        let states = states(&case.book, &lent);
        let told: Vec<_> = states.iter().map(|(t, _)| *t).collect();
        assert_eq!(told, Vec::from_iter(0..=150));
        for (t, state) in states {
            case.assert_state(t, &state, &lent);
        }
    }
}

#[test]
fn every_write_to_a_year() {
    for (case, lent) in trials(&cases()) {
        for t in 0..=150 {
            case.assert_state(t, &written_to(t, &case.book, &lent), &lent);
        }
    }
}

#[test]
fn the_last_state_is_the_page() {
    for (case, lent) in trials(&cases()) {
        let (_, last) = states(&case.book, &lent).pop().expect("a state");
        assert!(last == [&case.page, &lent[1_505..]].concat());
        assert!(last == paged(&case.book, &lent));
        assert!(last == written_to(150, &case.book, &lent));
    }
}

/// The bytes in which two buffers are equal, or are not.
fn compared(a: &[u8], b: &[u8], equal: bool) -> Vec<usize> {
    assert_eq!(a.len(), b.len());
    (0..a.len())
        .filter(|&at| (a[at] == b[at]) == equal)
        .collect()
}

#[test]
fn each_year_changes_its_own_ten_bytes() {
    for case in cases() {
        let mut before = none_of(&case.page, 2_000);
        let mut start = 0;
        for (t, state) in states(&case.book, &before.clone()) {
            let end = 5 + 10 * t;
            let changed = compared(&before, &state, false);
            assert_eq!(changed, Vec::from_iter(start..end), "t {t}");
            (before, start) = (state, end);
        }
        assert_eq!(start, 1_505);
    }
}

#[test]
fn figures_of_1_506_sevens() {
    for Case { book, .. } in cases() {
        let (sevens, eights) = (states(&book, &[7; 1_506]), states(&book, &[8; 1_506]));
        for (t, length) in [(0, 5), (1, 15), (150, 1_505)] {
            // A byte that is the same however it was lent was written.
            let written = compared(&sevens[t].1, &eights[t].1, true);
            assert_eq!(written, Vec::from_iter(0..length));
            assert_eq!(sevens[t].1[1_505], 7);
            assert!(written_to(t, &book, &[7; 1_506]) == sevens[t].1);
        }
        assert_eq!(sevens.len(), 151);
    }
}

// The page in other words

/// A number of some bytes, the high one first.
fn number(bytes: &[u8]) -> i128 {
    let next = |number, &byte| 256 * number + i128::from(byte);
    bytes.iter().fold(0, next)
}

#[test]
fn each_record_read_back_is_the_look_ups() {
    let (mut found, mut without_rates) = (0, 0);
    for Case { book, .. } in cases() {
        for (t, state) in states(&book, &[7; 2_000]).into_iter().skip(1) {
            let record = &state[5 + 10 * (t - 1)..5 + 10 * t];
            assert_eq!((record[0], usize::from(record[1])), (0x59, t));
            let (low, high) = (number(&record[2..6]), number(&record[6..]));
            let Ok(answer) = book.look_up(Which::Plain, t as u32) else {
                without_rates += 1;
                continue;
            };
            found += 1;
            assert_eq!(answer.amount, Enclosure::new(low, high));
            assert_eq!(state[0], 0x48);
            assert_eq!(number(&state[1..3]), i128::from(answer.month));
            assert_eq!(number(&state[3..5]), i128::from(answer.age));
        }
    }
    assert!(found > 1_000 && without_rates > 100);
}

/// The page of month 5 and age 2 whose year y has the low 01020304 hex × y and the high y above.
fn multiples() -> Page<impl Fn(usize) -> Enclosure> {
    Page {
        month: 5,
        age: 2,
        factor: |year| Enclosure::new(0x0102_0304, 0x0102_0305).times(year as i128),
    }
}

#[test]
fn records_written_by_hand() {
    let mut buffer = [7; 1_506];
    assert_eq!(multiples().write_to(2, &mut buffer), Ok(()));
    let expected = [
        0x48, 0, 5, 0, 2, // the head
        0x59, 1, 1, 2, 3, 4, 1, 2, 3, 5, // year 1
        0x59, 2, 2, 4, 6, 8, 2, 4, 6, 10, // year 2
    ];
    assert_eq!(buffer[..25], expected);
    assert_eq!(buffer[25..], [7; 1_481]);
    assert_eq!(multiples().write_to(150, &mut buffer), Ok(()));
    assert_eq!(buffer[..25], expected);
    // 150 × 16,909,060 is 2,536,359,000, or 972DC458 hex.
    let last = [0x59, 150, 0x97, 0x2D, 0xC4, 0x58, 0x97, 0x2D, 0xC4, 0xEE];
    assert_eq!(buffer[1_495..], [&last[..], &[7]].concat());
}

#[test]
fn an_older_page_gives_way_year_by_year() {
    let cases = cases();
    for (older, case) in cases.iter().zip(&cases[1..]) {
        let lent = paged(&older.book, &[7; 1_506]);
        for (t, state) in states(&case.book, &lent) {
            let own = 5 + 10 * t;
            let expected = [&case.page[..own], &older.page[own..], &[7]].concat();
            assert!(state == expected, "t {t}");
        }
    }
}

#[test]
fn a_factor_is_asked_for_once_and_in_its_turn() {
    let asked = RefCell::new(Vec::new());
    let page = Page {
        month: 5,
        age: 2,
        factor: |year| {
            asked.borrow_mut().push(year);
            Enclosure::ZERO
        },
    };
    let written = page.write(&mut [7; 1_505], |t, _| {
        assert_eq!(*asked.borrow(), Vec::from_iter(1..=t));
    });
    assert_eq!(written, Ok(()));
    assert_eq!(asked.borrow().len(), 150);
}

// What is turned down

#[test]
fn a_short_buffer_is_left_as_lent() {
    let page = multiples();
    for length in 0..=1_504 {
        for lent in lent_of(&[], length) {
            let mut buffer = lent.clone();
            let told = |t: usize, _: &[u8]| panic!("{length} bytes: {t} years told");
            assert_eq!(page.write(&mut buffer, told), Err(Refusal::plain(15)));
            for t in [0, 1, 75, 149, 150] {
                assert_eq!(page.write_to(t, &mut buffer), Err(Refusal::plain(15)));
            }
            assert!(buffer == lent, "{length} bytes");
        }
    }
}

#[test]
fn a_book_refuses_every_short_buffer() {
    for case in cases() {
        for length in 0..=1_504 {
            let lent = none_of(&case.page, length);
            let mut buffer = lent.clone();
            assert_eq!(
                case.book.page(Which::Plain, &mut buffer),
                Err(Refusal::plain(15))
            );
            assert!(buffer == lent, "{length} bytes");
        }
    }
}

#[test]
fn no_page_is_shown_of_no_curve_or_of_an_old_one() {
    let number = |book: &Book| {
        book.shown_page(Which::Plain)
            .err()
            .map(|refusal| refusal.number)
    };
    let mut book = Book::new(3);
    assert_eq!(number(&book), Some(14));
    assert_eq!(book.post(&zero().bytes()), Ok(0));
    assert_eq!(book.turn(3), Ok(3));
    assert_eq!(number(&book), None);
    assert_eq!(book.turn(4), Ok(4));
    assert_eq!(number(&book), Some(16));
}

#[test]
#[should_panic(expected = "a page ends with year 150")]
fn there_is_no_year_151() {
    _ = multiples().write_to(151, &mut [7; 2_000]);
}
