//! Seeded questions for comparing two libraries: journals, records asked about after them, and
//! age limits to ask under.

use crate::adjusted::{adjustment, typed_adjusted_sheet};
use crate::book::{Book, LARGEST_AGE_LIMIT};
use crate::curve::Which;
use crate::dropped::typed_dropped_sheet;
use crate::journal::{look_up, post, turn, withdrawal};
use crate::known::known_sheet;
use crate::profiled::typed_profiled_sheet;
use crate::streams::{sheet, sheet_bytes, steep_sheet, typed_sheet, Random};
use crate::sums::{kind_of, Wanted};
use crate::withdrawn::{taken_back, withdrawals};

/// The last month that can be told.
const LAST_MONTH: u16 = 2_399;

/// Months of the sheets and turns that are asked about are mostly below this one: near those
/// that a journal tells.
const MONTHS: u64 = 2;

/// The bits of a `kind` that have a meaning.
const MEANT_BITS: u64 = 3;

/// Small age limits are below this one: most ages that journals reach are.
const SMALL_LIMITS: u64 = 6;

/// A journal of up to 11 records or rows of withdrawals: whole, damaged, cut or empty, with sheets
/// of any length. One in 2 goes on with posts that are accepted and taken back, and one in 8 ends
/// with one more record, a steep sheet with or without an adjustment, on which look-ups meet
/// ground 17.
pub fn journal(random: &mut Random) -> Vec<u8> {
    let mut journal = Vec::new();
    let mut told = 0;
    for _ in 0..random.below(12) {
        match random.below(9) {
            0..=2 => {
                told = later(random, told);
                journal.extend(turn(told));
            }
            3 => journal.extend(look_up(random.below(256) as u8)),
            4 => journal.extend(withdrawals(random)),
            _ => {
                // Some curves are a month or two old when they are posted.
                let age = [0, 0, 0, 0, 1, 2][random.below(6) as usize];
                journal.extend(posted(random, told.saturating_sub(age)));
            }
        }
    }
    if random.one_in(2) {
        journal.extend(taken_back(random, &mut told));
    }
    if random.one_in(8) {
        let mut steep = steep_sheet(random, told);
        steep.adjustment = random.one_in(2).then(|| adjustment(random));
        journal.extend(post(&sheet_bytes(&steep)));
    }
    damage(random, &mut journal);
    journal
}

/// The month of a turn: most often near the told one, sometimes far behind it, so that curves
/// of every age are met, and the oldest.
fn later(random: &mut Random, told: u16) -> u16 {
    match random.below(12) {
        0 => LAST_MONTH,
        1 => random.between(i64::from(told), i64::from(LAST_MONTH)) as u16,
        _ => (told + random.below(3) as u16).min(LAST_MONTH),
    }
}

/// The record of a post; three in 14 are of sheets with dropped quotes, as many of sheets with an
/// adjustment, four of sheets with a profile record, and one is of a sheet that meets a known
/// argument.
pub fn posted(random: &mut Random, month: u16) -> Vec<u8> {
    post(&match random.below(14) {
        0..=2 => typed_dropped_sheet(random, month),
        3..=5 => typed_adjusted_sheet(random, month),
        6 => sheet_bytes(&known_sheet(random, month)),
        7..=10 => typed_profiled_sheet(random, month),
        _ => typed_sheet(random, month),
    })
}

/// Puts any byte in some place, or cuts the bytes; most often neither.
fn damage(random: &mut Random, bytes: &mut Vec<u8>) {
    let length = bytes.len() as u64;
    match random.below(6) {
        0 if length > 0 => bytes[random.below(length) as usize] = random.below(256) as u8,
        1 => bytes.truncate(random.below(length + 1) as usize),
        _ => {}
    }
}

/// A record to be asked about, whole or not, alone or with more behind it.
pub fn call(random: &mut Random) -> Vec<u8> {
    let mut bytes = record(random);
    damage(random, &mut bytes);
    match random.below(4) {
        0 => bytes.extend(any_bytes(random)),
        1 => bytes.extend(record(random)),
        _ => {}
    }
    bytes
}

/// A record of any kind, known or not.
fn record(random: &mut Random) -> Vec<u8> {
    match random.below(16) {
        0 => turn(random.below(65_536) as u16),
        1 => turn(random.below(MONTHS) as u16),
        2 => look_up(random.below(256) as u8),
        3 | 4 => look_up(1 + random.below(150) as u8),
        // Where steep curves have no high rate.
        5 => look_up(random.between(9, 16) as u8),
        6 => any_bytes(random),
        7 => post(&any_bytes(random)),
        8 => post(&damaged_sheet(random)),
        9 => post(&harsh_sheet(random)),
        10 | 11 => withdrawal(),
        _ => {
            let month = random.below(MONTHS) as u16;
            posted(random, month)
        }
    }
}

/// From no byte to five.
fn any_bytes(random: &mut Random) -> Vec<u8> {
    let length = random.below(6);
    (0..length).map(|_| random.below(256) as u8).collect()
}

/// A sheet of the right length with any byte in one place.
fn damaged_sheet(random: &mut Random) -> Vec<u8> {
    let mut bytes = sheet_bytes(&sheet(random, 0));
    let at = random.below(bytes.len() as u64) as usize;
    bytes[at] = random.below(256) as u8;
    bytes
}

/// A sheet whose rates leap from the lowest to the highest, or that has no volume: what
/// grounds 4 and 7 to 9 are for.
fn harsh_sheet(random: &mut Random) -> Vec<u8> {
    let mut sheet = sheet(random, 0);
    let leap = random.below(18) as usize;
    sheet.rates[..leap].fill(-2_000);
    sheet.rates[leap..].fill(12_000);
    if random.below(4) == 0 {
        sheet.volumes = [0; 5];
    }
    sheet_bytes(&sheet)
}

/// Age limits of every sort: 0, small ones, those around the largest, and larger numbers that
/// make a book with the largest: any one, the greatest, and two whose low 16 or 32 bits alone
/// would be a small limit.
pub fn age_limits(random: &mut Random) -> [u64; 10] {
    let mut small = || random.below(SMALL_LIMITS);
    [
        0,
        small(),
        small(),
        LARGEST_AGE_LIMIT - 1,
        LARGEST_AGE_LIMIT,
        LARGEST_AGE_LIMIT + 1,
        (1 << 16) + small(),
        (1 << 32) + small(),
        random.number(),
        u64::MAX,
    ]
}

/// A number that names the curve and the wanted amount: bits 0 and 1 tell which, and others are set
/// in most.
pub fn kind(random: &mut Random, which: Which, wanted: Wanted) -> u64 {
    let others = match random.below(6) {
        0 | 1 => 0,
        2 => 1 << random.between(2, 63),
        3 => 1 << 32,
        4 => u64::MAX,
        _ => random.number(),
    };
    (others & !MEANT_BITS) | kind_of(which, wanted)
}

/// A number that names the curve for a page, which has no use for the amount: it names either.
pub fn page_kind(random: &mut Random, which: Which) -> u64 {
    let wanted = random.one_of(&Wanted::ALL);
    kind(random, which, wanted)
}

/// The limits at which a curve of `age` is just shown and just too old, and the one above.
pub fn limits_around(age: u64) -> impl Iterator<Item = u64> {
    age.saturating_sub(1)..=age + 1
}

/// The age of the curve that the book holds, if it holds one, shown or too old.
pub fn curve_age(book: &Book) -> Option<u64> {
    book.curve_age().map(u64::from)
}
