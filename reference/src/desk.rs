//! The desk: its records, read as calls, and its lines. It knows posts, turns and look-ups for
//! ever; what else a journal has is unknown to it.

use std::io::{self, Read, Write};

use crate::book::{Book, LARGEST_AGE_LIMIT};
use crate::curve::Which;
use crate::records::{Next, RecordReader};
use crate::refusal::Refusal;

pub const POST: u8 = 0x50;
pub const TURN: u8 = 0x4D;
pub const LOOK_UP: u8 = 0x4C;

/// One call of the desk's.
#[derive(Clone, Debug, PartialEq, Eq)]
pub enum Call {
    Post(Vec<u8>),
    Turn(u16),
    LookUp(u8),
}

impl Call {
    /// The call whose record has this kind, from the bytes that follow it; none where the kind is
    /// unknown to the desk or the body is cut.
    pub fn read<R: Read>(reader: &mut RecordReader<R>, kind: u8) -> io::Result<Option<Call>> {
        match kind {
            POST => Call::read_post(reader),
            TURN => Ok(reader.two_bytes()?.map(Call::Turn)),
            LOOK_UP => Ok(reader.take(1)?.map(|bytes| Call::LookUp(bytes[0]))),
            _ => Ok(None),
        }
    }

    /// A sheet of the length that stands before it; whether it is right is for the book to say.
    fn read_post<R: Read>(reader: &mut RecordReader<R>) -> io::Result<Option<Call>> {
        let Some(length) = reader.two_bytes()? else {
            return Ok(None);
        };
        Ok(reader.take(usize::from(length))?.map(Call::Post))
    }
}

/// Makes the call on the book; the line that tells its result, or why it is refused.
pub fn make(book: &mut Book, call: &Call) -> Result<String, Refusal> {
    match call {
        Call::Post(sheet) => book.post(sheet).map(|month| format!("P {month}")),
        Call::Turn(month) => book
            .turn(u32::from(*month))
            .map(|month| format!("M {month}")),
        Call::LookUp(year) => look_up_line(book, *year),
    }
}

/// Makes the call on the book; the line that answers it, refused or not.
fn answer(book: &mut Book, call: &Call) -> String {
    make(book, call).unwrap_or_else(|refusal| refusal.to_string())
}

/// The desk's look-ups are of the plain curve's factors.
fn look_up_line(book: &Book, year: u8) -> Result<String, Refusal> {
    let found = book.look_up(Which::Plain, u32::from(year))?;
    let (low, high) = (found.amount.low, found.amount.high);
    Ok(format!(
        "L {year} {low} {high} {} {}",
        found.month, found.age
    ))
}

/// Answers every call of `input` on a fresh book, one line each. The desk's book has the
/// largest age limit, so it never turns a curve away for its age.
pub fn run_desk(input: impl Read, mut output: impl Write) -> io::Result<()> {
    let mut book = Book::new(LARGEST_AGE_LIMIT);
    let mut records = RecordReader::new(input);
    loop {
        match records.next_call(Call::read)? {
            Next::Call(call) => writeln!(output, "{}", answer(&mut book, &call))?,
            Next::End => return Ok(()),
            Next::Broken(offset) => return writeln!(output, "X {offset}"),
        }
    }
}
