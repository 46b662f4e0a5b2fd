//! The library's answers beside the second implementation's, question by question, and a
//! count of what the questions met.

use std::collections::BTreeMap;
use std::fmt;

use reference::accepted::Count;
use reference::blocks::Valuations;
use reference::book::{Book, Found, PAGE_LENGTH};
use reference::curve::{Which, YEARS};
use reference::desk::LOOK_UP;
use reference::enclosure::Enclosure;
use reference::journal::{answer_on, book_after, calls, look_up_by, value_by, WITHDRAWAL};
use reference::market::Market;
use reference::questions::curve_age;
use reference::refusal::Refusal;
use reference::shifts::{Asked, Shifts};
use reference::streams::Random;
use reference::sums::Wanted;

use crate::{answer_after, look_after, page_after, shift, value_after};

/// Bytes in the reply to a look-up.
pub const LOOK_UP_LENGTH: usize = 28;

/// Bytes in the reply to a valuation; a look-up's starts like it.
pub const VALUE_LENGTH: usize = 20;

/// Bytes in the reply to a shift.
pub const SHIFT_LENGTH: usize = 2;

/// The grounds of bytes that are no sheet: their length, a record, a number and no volume. That of
/// an unknown profile is `NO_PROFILE`.
const WRONG_LENGTH: u64 = 1;
const WRONG_RECORD: u64 = 2;
const OUT_OF_RANGE: u64 = 3;
const NO_VOLUME: u64 = 4;

/// The ground of a year that is not on the curve.
const NO_YEAR: u64 = 13;

/// The ground of a curve that is missing.
const NO_CURVE: u64 = 14;

/// The ground of a buffer that is too short for the reply.
const SHORT_BUFFER: u64 = 15;

/// The ground of a curve whose age is above the limit.
const TOO_OLD: u64 = 16;

/// The ground of a year that has no high rate.
const NO_HIGH_RATE: u64 = 17;

/// The ground of a withdrawal where no post is left to withdraw.
const NOTHING_TO_WITHDRAW: u64 = 18;

/// The ground of a profile record that names no market.
const NO_PROFILE: u64 = 19;

/// The grounds of a list of cash flows, of an entry's year and of its cents.
const NO_LIST: u64 = 20;
const NO_FLOW_YEAR: u64 = 21;
const TOO_MANY_CENTS: u64 = 22;

/// The ground of a target that no shift meets.
const NO_SHIFT: u64 = 23;

/// What a lent buffer of this length holds: seeded bytes, among which those that were written
/// or moved from elsewhere in the buffer are seen.
pub fn lent(length: usize) -> Vec<u8> {
    let mut random = Random::new(length as u64);
    (0..length).map(|_| random.below(256) as u8).collect()
}

/// A question asked after a journal, which has no say in a shift; `named` is the number that names
/// the curve and, in a look-up, the amount; lengths are those of the lent buffer.
pub enum Question {
    LookUp {
        named: u64,
        year: u64,
        length: usize,
    },
    Page {
        named: u64,
        length: usize,
    },
    Answer {
        call: Vec<u8>,
    },
    /// Years and cents in turn, if they are a list.
    Value {
        numbers: Vec<u64>,
        length: usize,
    },
    Shift {
        asked: Asked,
        /// The second implementation's answer, which is worked only once.
        expected: Result<i16, Refusal>,
        length: usize,
    },
}

impl Question {
    /// The question for this shift.
    pub fn shift(asked: Asked, length: usize) -> Question {
        Question::Shift {
            expected: asked.answer(),
            asked,
            length,
        }
    }

    fn length(&self) -> usize {
        match self {
            Question::LookUp { length, .. }
            | Question::Page { length, .. }
            | Question::Value { length, .. }
            | Question::Shift { length, .. } => *length,
            Question::Answer { .. } => 0,
        }
    }

    /// Its kind, by which it is counted.
    pub fn kind(&self) -> Kind {
        let which = self.which();
        match self {
            Question::LookUp { named, length, .. } => {
                Kind::of_look_up(which, Wanted::named_by(*named), *length < LOOK_UP_LENGTH)
            }
            Question::Page { length, .. } if *length < PAGE_LENGTH => Kind::ShortPage(which),
            Question::Page { .. } => Kind::Page(which),
            Question::Answer { .. } if self.withdraws() => Kind::Withdrawal,
            Question::Answer { .. } => Kind::Answer,
            Question::Value { length, .. } if *length < VALUE_LENGTH => Kind::ShortValue,
            Question::Value { .. } => Kind::Value,
            Question::Shift { length, .. } if *length < SHIFT_LENGTH => Kind::ShortShift,
            Question::Shift { .. } => Kind::Shift,
        }
    }

    /// The curve that it names; a record's look-up, a valuation and a shift are of the plain one.
    fn which(&self) -> Which {
        match self {
            Question::LookUp { named, .. } | Question::Page { named, .. } => {
                Which::named_by(*named)
            }
            Question::Answer { .. } | Question::Value { .. } | Question::Shift { .. } => {
                Which::Plain
            }
        }
    }

    /// Whether it asks for the book's curve, and no post, turn or withdrawal.
    fn shows_the_curve(&self) -> bool {
        match self {
            Question::Answer { call } => call.first() == Some(&LOOK_UP),
            Question::Shift { .. } => false,
            _ => true,
        }
    }

    /// Whether it asks about a withdrawal, which is whole with its kind alone.
    fn withdraws(&self) -> bool {
        matches!(self, Question::Answer { call } if call.first() == Some(&WITHDRAWAL))
    }
}

impl fmt::Display for Question {
    fn fmt(&self, f: &mut fmt::Formatter<'_>) -> fmt::Result {
        match self {
            Question::LookUp {
                named,
                year,
                length,
            } => write!(
                f,
                "look-up of year {year} on {named:#x} into {length} bytes"
            ),
            Question::Page { named, length } => write!(f, "page of {named:#x} into {length} bytes"),
            Question::Answer { call } => write!(f, "answer to {}", hex(call)),
            Question::Value { numbers, length } => {
                write!(f, "value of {numbers:?} into {length} bytes")
            }
            Question::Shift { asked, length, .. } => write!(
                f,
                "shift of the sheet {} at which {:?} cost at most {} into {length} bytes",
                hex(&asked.sheet),
                asked.numbers,
                asked.target
            ),
        }
    }
}

/// The kinds of questions, those about each curve, those into a buffer too short for the reply, and
/// look-ups of factors and of sums apart.
#[derive(Clone, Copy, Debug, PartialEq, Eq, PartialOrd, Ord)]
pub enum Kind {
    LookUp(Which),
    ShortLookUp(Which),
    Sum(Which),
    ShortSum(Which),
    Page(Which),
    ShortPage(Which),
    Answer,
    Withdrawal,
    Value,
    ShortValue,
    Shift,
    ShortShift,
}

impl Kind {
    /// All kinds, in the order in which they are told.
    pub const ALL: [Kind; 18] = [
        Kind::LookUp(Which::Plain),
        Kind::LookUp(Which::Adjusted),
        Kind::ShortLookUp(Which::Plain),
        Kind::ShortLookUp(Which::Adjusted),
        Kind::Sum(Which::Plain),
        Kind::Sum(Which::Adjusted),
        Kind::ShortSum(Which::Plain),
        Kind::ShortSum(Which::Adjusted),
        Kind::Page(Which::Plain),
        Kind::Page(Which::Adjusted),
        Kind::ShortPage(Which::Plain),
        Kind::ShortPage(Which::Adjusted),
        Kind::Answer,
        Kind::Withdrawal,
        Kind::Value,
        Kind::ShortValue,
        Kind::Shift,
        Kind::ShortShift,
    ];

    /// The kind of a look-up of this curve and amount, into a buffer that is too short or not.
    fn of_look_up(which: Which, wanted: Wanted, short: bool) -> Kind {
        match (wanted, short) {
            (Wanted::Factor, false) => Kind::LookUp(which),
            (Wanted::Factor, true) => Kind::ShortLookUp(which),
            (Wanted::Sum, false) => Kind::Sum(which),
            (Wanted::Sum, true) => Kind::ShortSum(which),
        }
    }

    /// The answers that questions of this kind must meet for them to mean something. A page has
    /// no rates. An adjusted curve, which often is missing, must be there for some: they are
    /// accepted, or the buffer is too short for them. Sums meet all of a look-up's answers but 13,
    /// and values and shifts all that they have.
    fn due(self) -> &'static [u64] {
        match self {
            Kind::Shift => &SHIFT_ANSWERS,
            Kind::ShortShift => &SHORT_SHIFT_ANSWERS,
            Kind::Value => &[0, NO_CURVE, TOO_OLD, NO_LIST, NO_FLOW_YEAR, TOO_MANY_CENTS],
            Kind::ShortValue => &[
                SHORT_BUFFER,
                NO_CURVE,
                TOO_OLD,
                NO_LIST,
                NO_FLOW_YEAR,
                TOO_MANY_CENTS,
            ],
            Kind::Sum(_) => &[0, NO_CURVE, TOO_OLD, NO_HIGH_RATE],
            Kind::ShortSum(_) => &[SHORT_BUFFER, NO_CURVE, TOO_OLD, NO_HIGH_RATE],
            Kind::LookUp(Which::Adjusted) => &[0, TOO_OLD, NO_HIGH_RATE],
            Kind::ShortLookUp(Which::Adjusted) => &[SHORT_BUFFER, TOO_OLD, NO_HIGH_RATE],
            Kind::Page(Which::Adjusted) => &[0, TOO_OLD],
            Kind::ShortPage(Which::Adjusted) => &[SHORT_BUFFER, TOO_OLD],
            Kind::Page(_) | Kind::ShortPage(_) => &[TOO_OLD],
            Kind::LookUp(_) | Kind::ShortLookUp(_) | Kind::Answer => &[TOO_OLD, NO_HIGH_RATE],
            Kind::Withdrawal => &[0, NOTHING_TO_WITHDRAW],
        }
    }

    /// Whether questions of this kind are about the book that a journal leaves.
    pub fn asks_the_book(self) -> bool {
        !matches!(self, Kind::Shift | Kind::ShortShift)
    }

    /// The curve that questions of this kind name.
    fn which(self) -> Which {
        match self {
            Kind::LookUp(which) | Kind::ShortLookUp(which) => which,
            Kind::Sum(which) | Kind::ShortSum(which) => which,
            Kind::Page(which) | Kind::ShortPage(which) => which,
            Kind::Answer | Kind::Withdrawal | Kind::Value | Kind::ShortValue => Which::Plain,
            Kind::Shift | Kind::ShortShift => Which::Plain,
        }
    }
}

/// All answers to a shift, and all where the buffer is too short for a reply, which is tried last.
const SHIFT_ANSWERS: [u64; 10] = shift_answers(0);
const SHORT_SHIFT_ANSWERS: [u64; 10] = shift_answers(SHORT_BUFFER);

const fn shift_answers(met: u64) -> [u64; 10] {
    [
        met,
        NO_PROFILE,
        WRONG_LENGTH,
        WRONG_RECORD,
        OUT_OF_RANGE,
        NO_VOLUME,
        NO_LIST,
        NO_FLOW_YEAR,
        TOO_MANY_CENTS,
        NO_SHIFT,
    ]
}

impl fmt::Display for Kind {
    fn fmt(&self, f: &mut fmt::Formatter<'_>) -> fmt::Result {
        let asked = match self {
            Kind::LookUp(_) => "look-ups",
            Kind::ShortLookUp(_) => "look-ups into short buffers",
            Kind::Sum(_) => "sums",
            Kind::ShortSum(_) => "sums into short buffers",
            Kind::Page(_) => "pages",
            Kind::ShortPage(_) => "pages into short buffers",
            Kind::Answer => return f.write_str("answers to other records"),
            Kind::Withdrawal => return f.write_str("answers to withdrawals"),
            Kind::Value => "values",
            Kind::ShortValue => "values into short buffers",
            Kind::Shift => "shifts",
            Kind::ShortShift => "shifts into short buffers",
        };
        match self.which() {
            Which::Plain => f.write_str(asked),
            Which::Adjusted => write!(f, "{asked}, adjusted"),
        }
    }
}

/// A journal under an age limit, with the second implementation's book after it and the count of
/// its calls, which knows no book.
pub struct Case<'a> {
    age_limit: u64,
    journal: &'a [u8],
    book: Book,
    count: Count,
    /// The age of the curve that the book holds, if it holds one.
    age: Option<u64>,
}

impl<'a> Case<'a> {
    /// The second implementation replays the journal on a fresh book with the limit.
    pub fn replayed(age_limit: u64, journal: &'a [u8]) -> Self {
        Case::counted_as(age_limit, journal, Count::of(calls(journal)))
    }

    /// The same journal replayed once more, with another limit; no limit is in its count.
    pub fn again(&self, age_limit: u64) -> Self {
        Case::counted_as(age_limit, self.journal, self.count.clone())
    }

    fn counted_as(age_limit: u64, journal: &'a [u8], count: Count) -> Self {
        let book = book_after(age_limit, journal);
        Case {
            age_limit,
            journal,
            age: curve_age(&book),
            book,
            count,
        }
    }

    /// The same journal under another limit; its posts are not worked once more.
    pub fn under(&self, age_limit: u64) -> Self {
        Case {
            age_limit,
            book: self.book.with_age_limit(age_limit),
            count: self.count.clone(),
            ..*self
        }
    }

    /// The age of the curve that the book holds, if it holds one.
    pub fn age(&self) -> Option<u64> {
        self.age
    }

    /// The profile of the sheet that the count holds, if it holds one.
    fn profile(&self) -> Option<u8> {
        let sheet = self.count.sheet();
        sheet.map(|sheet| sheet.market().profile)
    }

    /// The answer that both give, or how they differ in it or in the buffer they leave; or that
    /// they agree against the count.
    pub fn ask(&self, question: &Question) -> Result<u64, String> {
        let lent = lent(question.length());
        let (mut found, mut expected) = (lent.clone(), lent);
        let answer = self.library(question, &mut found);
        let expected_answer = self.second(question, &mut expected);
        let difference = if answer != expected_answer || found != expected {
            let other = found.iter().zip(&expected).position(|(a, b)| a != b);
            format!("expected {expected_answer}, first other byte of the buffer {other:?}")
        } else if !self.counted(question, answer) {
            "the count of the calls says otherwise".to_string()
        } else {
            return Ok(answer);
        };
        Err(format!(
            "{question} under age limit {}: found {answer}, {difference}, after the journal {}",
            self.age_limit,
            hex(self.journal)
        ))
    }

    /// Whether the answer is one that the count allows. No curve is found exactly where the last
    /// accepted post not withdrawn, or its adjustment, is missing, and a withdrawal is refused
    /// exactly at depth 0.
    fn counted(&self, question: &Question, answer: u64) -> bool {
        match question {
            Question::LookUp { year, .. } if !(1..=YEARS as u64).contains(year) => {
                answer == NO_YEAR
            }
            Question::LookUp { .. } | Question::Page { .. } | Question::Value { .. } => {
                (answer != NO_CURVE) == self.count.finds(question.which())
            }
            Question::Answer { .. } if question.withdraws() => match self.count.depth() {
                0 => answer == NOTHING_TO_WITHDRAW,
                _ => answer == 0,
            },
            Question::Answer { .. } | Question::Shift { .. } => true,
        }
    }

    fn library(&self, question: &Question, out: &mut [u8]) -> u64 {
        let (limit, journal) = (self.age_limit, self.journal);
        match question {
            Question::LookUp { named, year, .. } => look_after(limit, journal, *named, *year, out),
            Question::Page { named, .. } => page_after(limit, journal, *named, out),
            Question::Answer { call } => answer_after(limit, journal, call),
            Question::Value { numbers, .. } => value_after(limit, journal, numbers, out),
            Question::Shift { asked, .. } => shift(&asked.sheet, &asked.numbers, asked.target, out),
        }
    }

    fn second(&self, question: &Question, out: &mut [u8]) -> u64 {
        match question {
            Question::LookUp { named, year, .. } => {
                let found = look_up_by(&self.book, *named, *year);
                code(found.and_then(|found| write(&look_up_reply(&found), out)))
            }
            Question::Page { .. } => code(self.book.page(question.which(), out)),
            Question::Answer { call } => answer_on(&self.book, call),
            Question::Value { numbers, .. } => {
                let valued = value_by(&self.book, numbers);
                let reply = valued.map(|v| dated_reply(v.amount, v.month, v.age));
                code(reply.and_then(|reply| write(&reply, out)))
            }
            Question::Shift { expected, .. } => {
                code(expected.and_then(|shift| write(&shift.to_be_bytes(), out)))
            }
        }
    }
}

fn hex(bytes: &[u8]) -> String {
    bytes.iter().map(|byte| format!("{byte:02X}")).collect()
}

fn code(answer: Result<(), Refusal>) -> u64 {
    answer.err().map_or(0, Refusal::code)
}

/// The reply to a question that the book answers; a buffer too short for it is tried last.
fn write(reply: &[u8], out: &mut [u8]) -> Result<(), Refusal> {
    let start = out.get_mut(..reply.len()).ok_or(Refusal::plain(15))?;
    start.copy_from_slice(reply);
    Ok(())
}

/// Low and high of the factor or the sum, month and age, then low rate and high rate, 4 bytes
/// each in two's complement.
pub fn look_up_reply(found: &Found) -> [u8; LOOK_UP_LENGTH] {
    let mut reply = [0; LOOK_UP_LENGTH];
    reply[..VALUE_LENGTH].copy_from_slice(&dated_reply(found.amount, found.month, found.age));
    reply[20..24].copy_from_slice(&found.rates.low.to_be_bytes());
    reply[24..].copy_from_slice(&found.rates.high.to_be_bytes());
    reply
}

/// Low and high, 8 bytes each, month and age, 2 bytes each: the whole reply to a valuation.
pub fn dated_reply(amount: Enclosure, month: u16, age: u16) -> [u8; VALUE_LENGTH] {
    let mut reply = [0; VALUE_LENGTH];
    reply[..8].copy_from_slice(&eight_bytes(amount.low));
    reply[8..16].copy_from_slice(&eight_bytes(amount.high));
    reply[16..18].copy_from_slice(&month.to_be_bytes());
    reply[18..].copy_from_slice(&age.to_be_bytes());
    reply
}

fn eight_bytes(value: i128) -> [u8; 8] {
    u64::try_from(value)
        .expect("a sum from 0 to 300 U, or a value to 2,000 U")
        .to_be_bytes()
}

/// How often each kind of question met each number, in all and by the profile of the curve that
/// stood, adjusted curves that were missing beside a plain one, curves at the limit and just past
/// it, and what valuations and shifts met.
#[derive(Default)]
pub struct Met {
    numbers: BTreeMap<(Kind, u64), u64>,
    by_profile: BTreeMap<(u8, Kind, u64), u64>,
    missing_beside_plain: u64,
    shown_at_the_limit: u64,
    a_month_past_it: u64,
    pub valuations: Valuations,
    pub shifts: Shifts,
}

impl Met {
    /// Asks, and counts what was met.
    pub fn ask(&mut self, case: &Case, question: &Question) -> Result<u64, String> {
        let answer = case.ask(question)?;
        let number = answer % 256;
        *self.numbers.entry((question.kind(), number)).or_default() += 1;
        if let Question::Shift {
            asked, expected, ..
        } = question
        {
            // Whatever curve stands has no part in it.
            self.shifts.count(asked, *expected);
            return Ok(answer);
        }
        if let Some(profile) = case.profile() {
            let met = (profile, question.kind(), number);
            *self.by_profile.entry(met).or_default() += 1;
        }
        if number == NO_CURVE && case.age.is_some() {
            self.missing_beside_plain += 1;
        }
        if number == 0 && question.shows_the_curve() && case.age == Some(case.age_limit) {
            self.shown_at_the_limit += 1;
        }
        if number == TOO_OLD && case.age == case.age_limit.checked_add(1) {
            self.a_month_past_it += 1;
        }
        if let Question::Value { numbers, .. } = question {
            self.valuations.count(&case.book, numbers);
        }
        Ok(answer)
    }

    /// Says what was not met and must be for the questions to mean something: by each of these
    /// kinds but withdrawals and shifts ground 16 and, unless it is of pages or values, 17; of
    /// those about adjusted curves also one that is there and one that is missing beside a plain
    /// one; sums that are shown, and 14; values that are shown, 14 and 20 to 22; withdrawals that
    /// are accepted, and 18; shifts that are found, 19, 1 to 4 and 20 to 23; and, where the book
    /// is asked, curves at the limit and a month past it.
    pub fn check(&self, kinds: &[Kind]) -> Result<(), String> {
        let adjusted = kinds.iter().any(|kind| kind.which() == Which::Adjusted);
        if adjusted && self.missing_beside_plain == 0 {
            return Err("no adjusted curve was missing beside a plain one".to_string());
        }
        for &kind in kinds {
            let met = |number: &u64| self.numbers.contains_key(&(kind, *number));
            if let Some(number) = kind.due().iter().find(|number| !met(number)) {
                return Err(format!("ground {number} was not met by {kind}"));
            }
        }
        let of_the_book = kinds.iter().any(|kind| kind.asks_the_book());
        if of_the_book && (self.shown_at_the_limit == 0 || self.a_month_past_it == 0) {
            return Err("no curve was met at the limit, or none a month past it".to_string());
        }
        Ok(())
    }

    /// How often questions of this kind met this number where a curve of this profile stood.
    pub fn where_stood(&self, profile: u8, kind: Kind, number: u64) -> u64 {
        let times = self.by_profile.get(&(profile, kind, number));
        times.copied().unwrap_or_default()
    }

    /// Says what was not met of markets: factors, sums, pages and values of each one's curve that
    /// were shown and that were too old, adjusted curves that the smaller ones do not have,
    /// withdrawals of each one's curve, and an unknown profile.
    pub fn check_markets(&self) -> Result<(), String> {
        for market in Market::ALL {
            let due = MARKET_ANSWERS.iter().chain(match market.takes_adjustment {
                true => &[],
                false => &NO_ADJUSTED[..],
            });
            for &(kind, number) in due {
                if self.where_stood(market.profile, kind, number) == 0 {
                    let profile = market.profile;
                    return Err(format!(
                        "ground {number} was not met by {kind} on a curve of profile {profile}"
                    ));
                }
            }
        }
        match self.numbers.get(&(Kind::Answer, NO_PROFILE)) {
            None => Err("no post was answered with 19".to_string()),
            Some(_) => Ok(()),
        }
    }
}

/// The answers that must be met on a curve of every market.
const MARKET_ANSWERS: [(Kind, u64); 9] = [
    (Kind::LookUp(Which::Plain), 0),
    (Kind::Sum(Which::Plain), 0),
    (Kind::Page(Which::Plain), 0),
    (Kind::Value, 0),
    (Kind::LookUp(Which::Plain), TOO_OLD),
    (Kind::Sum(Which::Plain), TOO_OLD),
    (Kind::Page(Which::Plain), TOO_OLD),
    (Kind::Value, TOO_OLD),
    (Kind::Withdrawal, 0),
];

/// The answers that must be met on a curve of a market without adjustments.
const NO_ADJUSTED: [(Kind, u64); 3] = [
    (Kind::LookUp(Which::Adjusted), NO_CURVE),
    (Kind::Sum(Which::Adjusted), NO_CURVE),
    (Kind::Page(Which::Adjusted), NO_CURVE),
];

/// A line for each kind that was asked, with `number × times` of each number that it met.
impl fmt::Display for Met {
    fn fmt(&self, f: &mut fmt::Formatter<'_>) -> fmt::Result {
        for kind in Kind::ALL {
            let of_kind = self.numbers.iter().filter(|((of, _), _)| *of == kind);
            let met: Vec<_> = of_kind
                .map(|((_, number), times)| format!("{number} × {times}"))
                .collect();
            if !met.is_empty() {
                writeln!(f, "{kind}: {}", met.join(", "))?;
            }
        }
        for market in Market::ALL {
            let profile = market.profile;
            let shown = MARKET_ANSWERS[..4].iter();
            let shown = shown.map(|&(kind, number)| self.where_stood(profile, kind, number));
            let shown: Vec<_> = shown.map(|times| times.to_string()).collect();
            let shown = shown.join(", ");
            writeln!(
                f,
                "factors, sums, pages and values shown of a curve of profile {profile}: {shown}"
            )?;
        }
        write!(
            f,
            "adjusted curves missing beside a plain one: {}; curves shown exactly at the limit: {}; \
             turned away a month past it: {}",
            self.missing_beside_plain, self.shown_at_the_limit, self.a_month_past_it
        )
    }
}
