//! Journals: the calls of a list as bytes, made on a fresh book of some age limit. They have the
//! desk's records and one more, the withdrawal.

use std::io::{self, Read};

use crate::book::{Book, Found};
use crate::curve::Which;
use crate::desk::{self, LOOK_UP, POST, TURN};
use crate::records::{Next, RecordReader};
use crate::refusal::Refusal;
use crate::sums::Wanted;
use crate::valuation::{flows_of, Valued};

/// The kind of a withdrawal, whose record has no body.
pub const WITHDRAWAL: u8 = 0x57;

/// What `answer_after` gives where there is no whole record to be answered.
pub const NO_RECORD: u64 = 255;

/// One call of a journal: one that the desk knows too, or a withdrawal.
#[derive(Clone, Debug, PartialEq, Eq)]
pub enum Call {
    OfDesk(desk::Call),
    Withdrawal,
}

impl Call {
    /// The call whose record has this kind, from the bytes that follow it; none where the kind is
    /// unknown or the body is cut.
    pub fn read<R: Read>(reader: &mut RecordReader<R>, kind: u8) -> io::Result<Option<Call>> {
        match kind {
            WITHDRAWAL => Ok(Some(Call::Withdrawal)),
            _ => Ok(desk::Call::read(reader, kind)?.map(Call::OfDesk)),
        }
    }

    /// The sheet that it posts, if it is a post.
    pub fn posted(&self) -> Option<&[u8]> {
        match self {
            Call::OfDesk(desk::Call::Post(sheet)) => Some(sheet),
            _ => None,
        }
    }
}

/// The record of a post. A sheet has at most 65,535 bytes here, as its length has two.
pub fn post(sheet: &[u8]) -> Vec<u8> {
    let length = u16::try_from(sheet.len()).expect("a length of two bytes");
    [&[POST], &length.to_be_bytes()[..], sheet].concat()
}

/// The record of a turn.
pub fn turn(month: u16) -> Vec<u8> {
    [&[TURN], &month.to_be_bytes()[..]].concat()
}

/// The record of a look-up.
pub fn look_up(year: u8) -> Vec<u8> {
    vec![LOOK_UP, year]
}

/// The record of a withdrawal.
pub fn withdrawal() -> Vec<u8> {
    vec![WITHDRAWAL]
}

/// The calls of a journal, read until an unknown kind or a cut body.
pub fn calls(journal: &[u8]) -> impl Iterator<Item = Call> + '_ {
    let mut records = RecordReader::new(journal);
    std::iter::from_fn(move || match records.next_call(Call::read) {
        Ok(Next::Call(call)) => Some(call),
        _ => None,
    })
    .fuse()
}

/// Makes the call on the book, or says why it is refused.
pub fn make(book: &mut Book, call: &Call) -> Result<(), Refusal> {
    match call {
        Call::OfDesk(call) => desk::make(book, call).map(|_| ()),
        Call::Withdrawal => book.withdraw(),
    }
}

/// What the journal's calls leave of a fresh book with `age_limit`.
pub fn book_after(age_limit: u64, journal: &[u8]) -> Book {
    let mut book = Book::new(age_limit);
    for call in calls(journal) {
        // Refused or not: the book shows what the call did.
        _ = make(&mut book, &call);
    }
    book
}

/// What a look-up of the C interface finds on `book`, where the number `kind` names the curve and
/// the amount. A year of any size is outside if it is above 150. No record asks so: one of a journal
/// is of the plain curve's factor.
pub fn look_up_by(book: &Book, kind: u64, year: u64) -> Result<Found, Refusal> {
    let year = u32::try_from(year).unwrap_or(u32::MAX);
    book.look_up_wanted(Which::named_by(kind), Wanted::named_by(kind), year)
}

/// What a valuation of the C interface finds on `book`: the numbers are years and cents in turn.
/// No record asks so either.
pub fn value_by(book: &Book, numbers: &[u64]) -> Result<Valued, Refusal> {
    book.value(&flows_of(numbers))
}

/// The answer to the first record of `call` on `book`: 0 where it is accepted, else the
/// refusal's code; `NO_RECORD` where `call` starts with none. What follows that record is not
/// looked at, and the book stays as it is.
pub fn answer_on(book: &Book, call: &[u8]) -> u64 {
    match calls(call).next() {
        None => NO_RECORD,
        Some(call) => make(&mut book.clone(), &call).map_or_else(Refusal::code, |()| 0),
    }
}

/// The answer to the first record of `call` after the journal's calls on a fresh book with
/// `age_limit`.
pub fn answer_after(age_limit: u64, journal: &[u8], call: &[u8]) -> u64 {
    answer_on(&book_after(age_limit, journal), call)
}
