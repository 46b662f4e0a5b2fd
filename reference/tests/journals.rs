//! The answer to one record after a journal.

use std::collections::BTreeSet;

use reference::book::{Book, LARGEST_AGE_LIMIT};
use reference::curve::Which;
use reference::every_ground::{desk_records, records, AGE_LIMIT};
use reference::journal::{self, answer_on, book_after, look_up, turn, NO_RECORD};

fn answer_after(journal: &[u8], call: &[u8]) -> u64 {
    journal::answer_after(AGE_LIMIT, journal, call)
}

#[test]
fn every_ground_is_met() {
    let mut journal = Vec::new();
    let mut met = BTreeSet::new();
    for (record, number, place) in records() {
        let expected = u64::from(number) + 256 * u64::from(place);
        assert_eq!(answer_after(&journal, &record), expected);
        journal.extend(record);
        met.insert(number);
    }
    assert_eq!(met, (0..=14).chain(16..=19).collect());
    assert!(book_after(AGE_LIMIT, &journal)
        .look_up(Which::Plain, 150)
        .is_ok());
}

#[test]
fn a_desk_without_profiles_meets_every_ground_but_16_18_and_19() {
    let mut journal = Vec::new();
    let mut met = BTreeSet::new();
    for (record, number, place) in desk_records() {
        let expected = u64::from(number) + 256 * u64::from(place);
        let found = journal::answer_after(LARGEST_AGE_LIMIT, &journal, &record);
        assert_eq!(found, expected);
        journal.extend(record);
        met.insert(number);
    }
    assert_eq!(met, (0..=14).chain([17]).collect());
}

#[test]
fn an_answer_leaves_the_book() {
    let mut book = Book::new(AGE_LIMIT);
    for (record, number, place) in records() {
        let before = book.clone();
        let expected = u64::from(number) + 256 * u64::from(place);
        assert_eq!(answer_on(&book, &record), expected);
        assert_eq!(book, before);
        for call in journal::calls(&record) {
            assert_eq!(journal::make(&mut book, &call).is_ok(), number == 0);
        }
    }
}

#[test]
fn calls_without_a_whole_record() {
    for (record, _, _) in records() {
        for length in 0..record.len() {
            assert_eq!(answer_after(&[], &record[..length]), NO_RECORD);
        }
    }
    for kind in (0..=255).filter(|kind| ![0x50, 0x4D, 0x4C, 0x57].contains(kind)) {
        assert_eq!(answer_after(&[], &[kind, 0, 1, 0]), NO_RECORD);
    }
}

#[test]
fn what_follows_the_record_is_not_looked_at() {
    let told = turn(7);
    assert_eq!(answer_after(&told, &[turn(7), turn(6)].concat()), 0);
    assert_eq!(answer_after(&told, &[turn(6), turn(7)].concat()), 12);
    assert_eq!(answer_after(&told, &[turn(7), vec![0x51]].concat()), 0);
    assert_eq!(answer_after(&told, &[turn(7), vec![0x4C]].concat()), 0);
}

#[test]
fn a_journal_is_read_until_it_breaks() {
    let broken = [turn(3), vec![0x51], turn(9)].concat();
    assert_eq!(answer_after(&broken, &turn(2)), 12);
    assert_eq!(answer_after(&broken, &turn(3)), 0);
    let cut = [turn(3), vec![0x50, 0, 4], turn(9)].concat();
    assert_eq!(answer_after(&cut, &turn(2)), 12);
    assert_eq!(answer_after(&cut, &turn(3)), 0);
    assert_eq!(answer_after(&cut, &look_up(1)), 14);
}
