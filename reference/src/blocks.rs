//! Seeded lists of cash flows, as the C interface lends them, and a count of what valuations met.

use std::collections::{BTreeMap, BTreeSet};
use std::fmt;

use crate::book::Book;
use crate::curve::{Which, YEARS};
use crate::enclosure::{div_down, div_up, Enclosure, U};
use crate::refusal::Refusal;
use crate::streams::Random;
use crate::valuation::{flows_of, numbers_of, Block, Flow, MOST_CENTS, MOST_FLOWS};

/// Years that are not on the curve; the low 8 or 32 bits of some are.
const WRONG_YEARS: [u64; 7] = [0, 151, 255, 256, 276, (1 << 32) + 20, u64::MAX];

/// Cents above the limit; the low 32 bits of some are not.
const WRONG_CENTS: [u64; 5] = [MOST_CENTS + 1, (1 << 32) + 5, 1 << 40, 1 << 63, u64::MAX];

/// A list that is in range. One in 6 has one entry, as many have 1,000; half have a few years
/// alone, which repeat.
pub fn block(random: &mut Random) -> Vec<Flow> {
    let count = match random.below(6) {
        0 => 1,
        1 => MOST_FLOWS as i64,
        2 => random.between(13, MOST_FLOWS as i64),
        _ => random.between(2, 12),
    };
    let few: [u64; 3] = std::array::from_fn(|_| year(random));
    let repeats = random.one_in(2);
    let flow = |_| Flow {
        year: match repeats {
            true => random.one_of(&few),
            false => year(random),
        },
        cents: cents(random),
    };
    (0..count).map(flow).collect()
}

fn year(random: &mut Random) -> u64 {
    1 + random.below(YEARS as u64)
}

/// From 0 to the limit, both among them.
fn cents(random: &mut Random) -> u64 {
    match random.below(8) {
        0 => 0,
        1 => MOST_CENTS,
        2 | 3 => random.below(1_000),
        _ => random.below(MOST_CENTS + 1),
    }
}

/// Numbers of every sort: in three of 9 no ground is against their list, in as many one is
/// against an entry. The others have no entry, too many, or an odd count, some of them with wrong
/// entries too.
pub fn numbers(random: &mut Random) -> Vec<u64> {
    let mut flows = block(random);
    let sort = random.below(9);
    if sort < 3 || (sort < 6 && random.one_in(3)) {
        spoil(random, &mut flows);
    }
    match sort {
        3 => flows.clear(),
        4 => {
            let more = random.one_of(&[1, 1, 2, 24, 1_000]);
            flows.resize(MOST_FLOWS + more, flows[0]);
        }
        _ => {}
    }
    let mut numbers = numbers_of(&flows);
    if sort == 5 {
        // One less, or one more, which could be a year.
        match random.below(3) {
            0 => _ = numbers.pop(),
            _ => numbers.push(year(random)),
        }
    }
    numbers
}

/// Puts a wrong year, wrong cents or both in one entry or two, often the last.
fn spoil(random: &mut Random, flows: &mut [Flow]) {
    for _ in 0..random.between(1, 2) {
        let at = match random.below(3) {
            0 => flows.len() - 1,
            _ => random.below(flows.len() as u64) as usize,
        };
        let wrong = random.below(3);
        if wrong != 0 {
            flows[at].year = random.one_of(&WRONG_YEARS);
        }
        if wrong != 1 {
            flows[at].cents = random.one_of(&WRONG_CENTS);
        }
    }
}

/// What valuations can meet.
#[derive(Clone, Copy, Debug, PartialEq, Eq, PartialOrd, Ord)]
pub enum Meeting {
    OneEntry,
    MostEntries,
    YearTwice,
    RoundedOnce,
    BesideAdjusted,
    NoHighRate,
    Past64Bits,
    NoCurveFirst,
    TooOldFirst,
    Empty,
    OddCount,
    TooLong,
    ListFirst,
    YearFirst,
    EarlierFirst,
    PlacePast255,
    LastPlace,
}

impl Meeting {
    /// Every one.
    pub const ALL: [Meeting; 17] = [
        Meeting::OneEntry,
        Meeting::MostEntries,
        Meeting::YearTwice,
        Meeting::RoundedOnce,
        Meeting::BesideAdjusted,
        Meeting::NoHighRate,
        Meeting::Past64Bits,
        Meeting::NoCurveFirst,
        Meeting::TooOldFirst,
        Meeting::Empty,
        Meeting::OddCount,
        Meeting::TooLong,
        Meeting::ListFirst,
        Meeting::YearFirst,
        Meeting::EarlierFirst,
        Meeting::PlacePast255,
        Meeting::LastPlace,
    ];

    /// What a valuation of these numbers meets on the book.
    pub fn of(book: &Book, numbers: &[u64]) -> Vec<Meeting> {
        let met = match book.value(&flows_of(numbers)) {
            Ok(valued) => Meeting::of_accepted(book, &flows_of(numbers), valued.amount),
            Err(refusal) => Meeting::of_refused(numbers, refusal),
        };
        let met = met.into_iter().filter(|(_, met)| *met);
        met.map(|(meeting, _)| meeting).collect()
    }

    fn of_accepted(book: &Book, flows: &[Flow], amount: Enclosure) -> Vec<(Meeting, bool)> {
        let years: BTreeSet<u64> = flows.iter().map(|flow| flow.year).collect();
        let ground_of_first = book.look_up(Which::Plain, flows[0].year as u32).err();
        let adjusted = value_on(book, Which::Adjusted, flows);
        vec![
            (Meeting::OneEntry, flows.len() == 1),
            (Meeting::MostEntries, flows.len() == MOST_FLOWS),
            (Meeting::YearTwice, years.len() < flows.len()),
            (
                Meeting::RoundedOnce,
                value_on(book, Which::Plain, flows) != Some(amount),
            ),
            (
                Meeting::BesideAdjusted,
                adjusted.is_some_and(|other| other.high < amount.low || amount.high < other.low),
            ),
            (
                Meeting::NoHighRate,
                ground_of_first == Some(Refusal::plain(17)),
            ),
            (Meeting::Past64Bits, u64::try_from(amount.low * U).is_err()),
        ]
    }

    fn of_refused(numbers: &[u64], refusal: Refusal) -> Vec<(Meeting, bool)> {
        let (number, place) = (refusal.number, usize::from(refusal.place));
        let even = &numbers[..numbers.len() / 2 * 2];
        let flows = flows_of(even);
        let wrong_year = |flow: &Flow| !(1..=YEARS as u64).contains(&flow.year);
        let wrong = |flow: &Flow| wrong_year(flow) || flow.cents > MOST_CENTS;
        let of_list = Block::of(&flows_of(numbers)).is_err();
        let odd = even.len() < numbers.len();
        vec![
            (Meeting::NoCurveFirst, number == 14 && of_list),
            (Meeting::TooOldFirst, number == 16 && of_list),
            (Meeting::Empty, number == 20 && numbers.is_empty()),
            (
                Meeting::OddCount,
                number == 20 && odd && Block::of(&flows).is_ok(),
            ),
            (
                Meeting::TooLong,
                number == 20 && !odd && flows.len() == MOST_FLOWS + 1,
            ),
            (Meeting::ListFirst, number == 20 && flows.iter().any(wrong)),
            (
                Meeting::YearFirst,
                number == 21 && flows[place - 1].cents > MOST_CENTS,
            ),
            (
                Meeting::EarlierFirst,
                number == 22 && flows[place..].iter().any(wrong_year),
            ),
            (Meeting::PlacePast255, place > 255),
            (Meeting::LastPlace, place == MOST_FLOWS),
        ]
    }
}

/// What another rule would make of the list: every entry rounded by itself, on the named curve if
/// it is shown.
fn value_on(book: &Book, which: Which, flows: &[Flow]) -> Option<Enclosure> {
    let page = book.shown_page(which).ok()?;
    let each = flows.iter().map(|flow| {
        let worth = (page.factor)(flow.year as usize).times(i128::from(flow.cents));
        Enclosure::new(div_down(worth.low, U), div_up(worth.high, U))
    });
    Some(each.fold(Enclosure::ZERO, Enclosure::plus))
}

impl fmt::Display for Meeting {
    fn fmt(&self, f: &mut fmt::Formatter<'_>) -> fmt::Result {
        f.write_str(match self {
            Meeting::OneEntry => "accepted, of one entry",
            Meeting::MostEntries => "accepted, of 1,000 entries",
            Meeting::YearTwice => "accepted, with a year that repeats",
            Meeting::RoundedOnce => "accepted, with another value where each entry is rounded",
            Meeting::BesideAdjusted => "accepted, with another value on the adjusted curve",
            Meeting::NoHighRate => "accepted, with a year that has no high rate",
            Meeting::Past64Bits => "accepted, with a sum past 64 bits before it is divided",
            Meeting::NoCurveFirst => "refused on 14 before a ground of the list",
            Meeting::TooOldFirst => "refused on 16 before a ground of the list",
            Meeting::Empty => "refused on 20, of no entry",
            Meeting::OddCount => "refused on 20, of an odd count behind a good list",
            Meeting::TooLong => "refused on 20, of 1,001 entries",
            Meeting::ListFirst => "refused on 20 before a ground of an entry",
            Meeting::YearFirst => "refused on 21 before the same entry's 22",
            Meeting::EarlierFirst => "refused on 22 before a later entry's 21",
            Meeting::PlacePast255 => "refused at an entry past 255",
            Meeting::LastPlace => "refused at entry 1,000",
        })
    }
}

/// What became of valuations.
#[derive(Clone, Debug, Default, PartialEq, Eq)]
pub struct Valuations {
    met: BTreeMap<Meeting, u64>,
}

impl Valuations {
    /// Counts the valuation of these numbers on the book.
    pub fn count(&mut self, book: &Book, numbers: &[u64]) {
        for meeting in Meeting::of(book, numbers) {
            *self.met.entry(meeting).or_default() += 1;
        }
    }

    /// How often this was met.
    pub fn of(&self, meeting: Meeting) -> u64 {
        self.met.get(&meeting).copied().unwrap_or_default()
    }

    /// Says what was not met even once.
    pub fn check(&self) -> Result<(), String> {
        match Meeting::ALL.iter().find(|&&meeting| self.of(meeting) == 0) {
            Some(meeting) => Err(format!("no valuation was {meeting}")),
            None => Ok(()),
        }
    }
}

impl fmt::Display for Valuations {
    fn fmt(&self, f: &mut fmt::Formatter<'_>) -> fmt::Result {
        write!(f, "valuations:")?;
        for meeting in Meeting::ALL {
            write!(f, "\n  {meeting}: {}", self.of(meeting))?;
        }
        Ok(())
    }
}
