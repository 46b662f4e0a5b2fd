//! The proved library's answer to one record after a journal: against the second
//! implementation's on random journals and records under many age limits, and against answers
//! written by hand.

mod common;

use std::collections::BTreeMap;

use common::{cases, journals};
use interface::answer_after;
use interface::compare::{Kind, Met, Question};
use reference::every_ground::AGE_LIMIT;
use reference::journal::{post, NO_RECORD};
use reference::questions::{age_limits, call, journal};
use reference::sheet::Sheet;
use reference::streams::{low_rates, sheet_bytes, Random};

/// Records that are asked about after each journal, under each limit.
const RECORDS: u64 = 3;

/// The kind that a call starts with, 0 for all that are unknown.
fn kind(call: &[u8]) -> u8 {
    match call.first() {
        Some(&kind) if [0x50, 0x4D, 0x4C, 0x57].contains(&kind) => kind,
        _ => 0,
    }
}

/// Each kind with each number that it can be answered with, 255 among them unless its record is
/// the kind alone; in order.
fn every_answer() -> Vec<(u8, u64)> {
    let of = |kind, numbers: &[u64]| numbers.iter().map(|&n| (kind, n)).collect::<Vec<_>>();
    [
        of(0, &[255]),
        of(0x4C, &[0, 13, 14, 16, 17, 255]),
        of(0x4D, &[0, 11, 12, 255]),
        of(0x50, &[0, 1, 2, 3, 4, 5, 6, 7, 8, 9, 10, 19, 255]),
        of(0x57, &[0, 18]),
    ]
    .concat()
}

#[test]
fn answers_agree() {
    let mut random = Random::new(34);
    let mut met = Met::default();
    let mut seen: BTreeMap<(u8, u64), u64> = BTreeMap::new();
    for number in 0..journals() {
        let journal = journal(&mut random);
        for case in cases(&mut random, &journal) {
            for _ in 0..RECORDS {
                let call = call(&mut random);
                let kind = kind(&call);
                match met.ask(&case, &Question::Answer { call }) {
                    Ok(answer) => *seen.entry((kind, answer % 256)).or_default() += 1,
                    Err(difference) => panic!("journal {number}: {difference}"),
                }
            }
        }
    }
    println!("kind, number: times {seen:?}");
    println!("{met}");
    // Every answer was met, so that the run means something, and no other was. (Far fewer
    // journals than 400 may miss one.)
    assert_eq!(seen.into_keys().collect::<Vec<_>>(), every_answer());
    assert_eq!(met.check(&[Kind::Answer, Kind::Withdrawal]), Ok(()));
}

#[test]
fn every_ground_is_answered_with_its_place() {
    let records = reference::every_ground::records();
    let bytes: Vec<u8> = records
        .iter()
        .flat_map(|(record, _, _)| record.clone())
        .collect();
    let answer = |journal: &[u8], call: &[u8]| answer_after(AGE_LIMIT, journal, call);
    let mut at = 0;
    for (record, number, place) in records {
        let expected = u64::from(number) + 256 * u64::from(place);
        let (journal, rest) = bytes.split_at(at);
        assert_eq!(answer(journal, &record), expected, "at {at}");
        assert_eq!(answer(journal, rest), expected, "the rest is ignored");
        for length in 0..record.len() {
            // After the whole journal only some: it is replayed for each.
            let tried = length < 3 || length + 1 == record.len() || length % 31 == 0;
            let journal = if tried { journal } else { &[] };
            assert_eq!(answer(journal, &record[..length]), NO_RECORD);
        }
        at += record.len();
    }
    assert_eq!(answer(&bytes, &[]), NO_RECORD);
}

#[test]
fn every_ground_agrees_under_every_limit() {
    let mut random = Random::new(38);
    let mut met = Met::default();
    let mut journal = Vec::new();
    for (call, _, _) in reference::every_ground::records() {
        for case in cases(&mut random, &journal) {
            let call = call.clone();
            let answer = met.ask(&case, &Question::Answer { call });
            assert!(answer.is_ok(), "{answer:?}");
        }
        journal.extend(call);
    }
    println!("{met}");
    assert_eq!(met.check(&[Kind::Answer, Kind::Withdrawal]), Ok(()));
}

#[test]
fn sheets_of_every_length_are_answered() {
    let mut random = Random::new(39);
    let sheet = sheet_bytes(&Sheet {
        adjustment: Some(-500),
        ..low_rates(0, Some(20_000))
    });
    for length in (0..=400).chain([512, 4_096, 65_535]) {
        let mut bytes = sheet.clone();
        bytes.resize(length, 0);
        let expected = if [109, 112, 115].contains(&length) {
            0
        } else {
            1
        };
        for age_limit in age_limits(&mut random) {
            let answer = answer_after(age_limit, &[], &post(&bytes));
            assert_eq!(answer, expected, "{length} bytes, age limit {age_limit}");
        }
    }
}

#[test]
fn every_26th_record_is_answered() {
    let mut random = Random::new(40);
    let sheet = sheet_bytes(&low_rates(0, None));
    let mut assert_answer = |last: [u8; 3], expected| {
        let post = post(&[&sheet[..], &last].concat());
        for age_limit in age_limits(&mut random) {
            let answer = answer_after(age_limit, &[], &post);
            assert_eq!(answer, expected, "{last:?}, age limit {age_limit}");
        }
    };
    for kind in (0..=255).filter(|kind| ![0x06, 0x07].contains(kind)) {
        assert_answer([kind, 0x4E, 0x20], 2 + 256 * 26);
    }
    for x in (0..=u16::MAX)
        .step_by(97)
        .chain([9_999, 10_000, 20_000, 20_001])
        .chain([0, 1, 499, 500, 501, 65_034, 65_035, 65_036, 65_535])
    {
        let [high, low] = x.to_be_bytes();
        let outside = !(10_000..=20_000).contains(&x);
        assert_answer([0x06, high, low], if outside { 3 + 256 * 26 } else { 0 });
        let outside = !(-500..=500).contains(&(x as i16));
        assert_answer([0x07, high, low], if outside { 3 + 256 * 26 } else { 0 });
    }
}
