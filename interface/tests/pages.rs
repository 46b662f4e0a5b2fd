//! The bytes that the proved library writes of a page, and those that it leaves: in buffers of
//! every length, inside larger memory and over any contents, against the page of the second
//! implementation; and the refusals, which leave all.

use interface::compare::lent;
use interface::{page_after, PLAIN};
use reference::curve::Which;
use reference::journal::{book_after, post, turn};
use reference::sheet::Sheet;
use reference::streams::{low_rates, sheet, sheet_bytes, steep_sheet, worked, Random};

/// Bytes in a page.
const PAGE: usize = 1_505;

/// Where buffers start in larger memory: at its first byte, and at addresses of every sort.
const OFFSETS: [usize; 8] = [0, 1, 2, 3, 5, 7, 64, 1_507];

/// Guard bytes that follow a buffer in larger memory: more than another page.
const BEHIND: usize = 1_601;

/// The age limit of all books here.
const AGE_LIMIT: u64 = 3;

/// The age of curves that are shown: just the limit.
const AGE: u16 = 3;

/// The journal of an accepted sheet that is `age` months old.
fn aged(sheet: &Sheet, age: u16) -> Vec<u8> {
    let month = sheet.month;
    [turn(month), post(&sheet_bytes(sheet)), turn(month + age)].concat()
}

/// Year 10 is next to 0, and lows of the last years are 0: they have no high rate.
fn steep(month: u16) -> Sheet {
    let mut rates = [0; 17];
    rates[9..].fill(11_111);
    Sheet {
        rates,
        volumes: [1; 5],
        ufr: 10_000,
        ..low_rates(month, None)
    }
}

/// Sheets that are accepted: the zero sheet, usual ones without and with X, one with dropped
/// quotes, steep ones and any.
fn sheets() -> Vec<Sheet> {
    let zero = Sheet {
        rates: [0; 17],
        volumes: [1; 5],
        ufr: 0,
        ..low_rates(0, None)
    };
    let mut random = Random::new(43);
    vec![
        zero,
        low_rates(0x0102, None),
        low_rates(2_396, Some(20_000)),
        Sheet {
            volumes: [14, 0, 40, 0, 8],
            ..low_rates(3, Some(12_000))
        },
        steep(5),
        steep_sheet(&mut random, 7),
        sheet(&mut random, 250),
    ]
}

/// Journals after which a page is shown.
fn journals() -> Vec<Vec<u8>> {
    sheets().iter().map(|sheet| aged(sheet, AGE)).collect()
}

/// The second implementation's page after the journal, written over zeros.
fn expected_page(journal: &[u8]) -> [u8; PAGE] {
    let mut page = [0; PAGE];
    let paged = book_after(AGE_LIMIT, journal).page(Which::Plain, &mut page);
    assert_eq!(paged, Ok(()));
    page
}

/// Asserts that a page into `length` bytes of the memory from `offset` on is `page`, and that
/// all other bytes of the memory are kept.
fn assert_page(journal: &[u8], page: &[u8], memory: &[u8], offset: usize, length: usize) {
    let mut found = memory.to_vec();
    let ground = page_after(
        AGE_LIMIT,
        journal,
        PLAIN,
        &mut found[offset..offset + length],
    );
    assert_eq!(ground, 0, "{length} bytes from {offset} on");
    let expected = [&memory[..offset], page, &memory[offset + PAGE..]].concat();
    let other = (0..memory.len()).find(|&at| found[at] != expected[at]);
    assert_eq!(other, None, "{length} bytes from {offset} on");
}

/// Asserts that a page into `length` bytes of larger memory is refused with `ground` and that
/// all of the memory is kept.
fn assert_refused(journal: &[u8], offset: usize, length: usize, ground: u64) {
    let memory = lent(offset + length + BEHIND);
    let mut found = memory.clone();
    let answer = page_after(
        AGE_LIMIT,
        journal,
        PLAIN,
        &mut found[offset..offset + length],
    );
    assert_eq!(answer, ground, "{length} bytes from {offset} on");
    assert!(found == memory, "{length} bytes from {offset} on");
}

/// An offset that goes with a length, so that each of them is met with many.
fn offset(length: usize) -> usize {
    OFFSETS[length % OFFSETS.len()]
}

// What is written and what is kept

#[test]
fn every_length_from_1_505_on() {
    for journal in journals() {
        let page = expected_page(&journal);
        for length in (PAGE..=1_610).chain([2_000, 3_009, 3_010, 3_011, 4_096, 70_000]) {
            assert_page(&journal, &page, &lent(length), 0, length);
        }
    }
}

#[test]
fn a_page_in_the_middle_of_larger_memory() {
    for journal in journals() {
        let page = expected_page(&journal);
        for length in (PAGE..=1_610).chain([2_000, 3_010]) {
            let offset = offset(length);
            let memory = lent(offset + length + BEHIND);
            assert_page(&journal, &page, &memory, offset, length);
        }
        for offset in OFFSETS {
            assert_page(&journal, &page, &lent(offset + PAGE), offset, PAGE);
        }
    }
}

#[test]
fn the_page_is_the_same_over_any_contents() {
    let mut random = Random::new(44);
    for journal in journals() {
        let page = expected_page(&journal);
        for byte in [0, 7, 0x48, 0x59, 0xA5, 0xFF] {
            assert_page(&journal, &page, &[byte; 1_600], 0, 1_600);
        }
        // No byte is the page's, so that each that is not written shows.
        assert_page(&journal, &page, &page.map(|byte| !byte), 0, PAGE);
        for _ in 0..20 {
            let contents: Vec<_> = (0..2_000).map(|_| random.below(256) as u8).collect();
            let offset = random.below(200) as usize;
            let length = random.between(1_505, 1_800) as usize;
            assert_page(&journal, &page, &contents, offset, length);
        }
    }
}

#[test]
fn the_byte_behind_the_page_stays_7() {
    for journal in journals() {
        let mut buffer = [7; 1_506];
        assert_eq!(page_after(AGE_LIMIT, &journal, PLAIN, &mut buffer), 0);
        assert_eq!(buffer[1_505], 7);
        assert_eq!(buffer[..1_505], expected_page(&journal));
        // A byte that is the same however it was lent was written.
        let mut other = [8; 1_506];
        assert_eq!(page_after(AGE_LIMIT, &journal, PLAIN, &mut other), 0);
        let same = (0..1_506).filter(|&at| buffer[at] == other[at]);
        assert_eq!(same.count(), 1_505);
    }
}

#[test]
fn records_stand_at_their_own_bytes() {
    for sheet in sheets() {
        let curve = worked(&sheet).expect("an accepted sheet").plain;
        let mut buffer = lent(1_600);
        assert_eq!(
            page_after(AGE_LIMIT, &aged(&sheet, AGE), PLAIN, &mut buffer),
            0
        );
        let number = |at: usize, length: usize| {
            let bytes = buffer[at..at + length].iter();
            bytes.fold(0, |number, &byte| 256 * number + i128::from(byte))
        };
        assert_eq!((number(0, 1), number(3, 2)), (0x48, i128::from(AGE)));
        assert_eq!(number(1, 2), i128::from(sheet.month));
        for year in 1..=150 {
            let at = 5 + 10 * (year - 1);
            let factor = curve.factor(year);
            assert_eq!((number(at, 1), number(at + 1, 1)), (0x59, year as i128));
            assert_eq!(number(at + 2, 4), factor.low);
            assert_eq!(number(at + 6, 4), factor.high);
        }
    }
}

#[test]
fn an_older_page_gives_way() {
    let journals = journals();
    for (older, journal) in journals.iter().zip(journals.iter().cycle().skip(1)) {
        let mut buffer = lent(3_020);
        let past = buffer[PAGE + 7..].to_vec();
        assert_eq!(page_after(AGE_LIMIT, older, PLAIN, &mut buffer[7..]), 0);
        assert_eq!(page_after(AGE_LIMIT, journal, PLAIN, &mut buffer[7..]), 0);
        assert!(buffer[..7] == lent(3_020)[..7]);
        assert!(buffer[7..PAGE + 7] == expected_page(journal));
        assert!(buffer[PAGE + 7..] == past);
        // One that is refused leaves the page that is there.
        let before = buffer.clone();
        assert_eq!(page_after(AGE_LIMIT, &[], PLAIN, &mut buffer[7..]), 14);
        assert_eq!(
            page_after(AGE_LIMIT, older, PLAIN, &mut buffer[7..1_511]),
            15
        );
        assert!(buffer == before);
    }
}

#[test]
fn a_page_between_two_others_in_one_memory() {
    let journals = journals();
    let mut memory = lent(3 * PAGE);
    let mut expected = memory.clone();
    // The last page comes before the first, and the one between them last.
    for (place, journal) in [2, 0, 1].into_iter().zip(&journals) {
        let own = place * PAGE..(place + 1) * PAGE;
        assert_eq!(
            page_after(AGE_LIMIT, journal, PLAIN, &mut memory[own.clone()]),
            0
        );
        expected[own].copy_from_slice(&expected_page(journal));
        assert!(memory == expected, "place {place}");
    }
}

// What is refused

#[test]
fn every_short_buffer_answers_15_untouched() {
    for journal in journals() {
        for length in 0..PAGE {
            assert_refused(&journal, offset(length), length, 15);
        }
        for offset in OFFSETS {
            assert_refused(&journal, offset, PAGE - 1, 15);
        }
    }
}

#[test]
fn grounds_14_then_16_then_15_leave_the_buffer() {
    let sheet = low_rates(0, None);
    let (shown, old) = (aged(&sheet, AGE), aged(&sheet, AGE + 1));
    let refused = [turn(0), post(&sheet_bytes(&sheet)[1..]), turn(9)].concat();
    for length in (0..=1_600).step_by(25).chain(1_490..=1_520) {
        let offset = offset(length);
        for journal in [&[][..], &turn(2_399), &refused] {
            assert_refused(journal, offset, length, 14);
        }
        assert_refused(&old, offset, length, 16);
        if length < PAGE {
            assert_refused(&shown, offset, length, 15);
        }
    }
}
