//! Reads a journal from standard input, makes its calls on a fresh book and writes
//! the plain curve's page, or the line of the refusal. A broken journal gives the desk's X line.
//!
//!     page [AGE_LIMIT] < journal

use std::io::{self, Read, Write};
use std::process::ExitCode;

use reference::arguments::{age_limit, usage_error};
use reference::book::{Book, PAGE_LENGTH};
use reference::curve::Which;
use reference::journal::{make, Call};
use reference::records::{Next, RecordReader};

fn main() -> io::Result<ExitCode> {
    let Some(age_limit) = age_limit(std::env::args_os().skip(1)) else {
        return Ok(usage_error("page"));
    };
    let book = Book::new(age_limit);
    replay_and_page(book, io::stdin().lock(), io::stdout().lock())?;
    Ok(ExitCode::SUCCESS)
}

fn replay_and_page(mut book: Book, input: impl Read, mut output: impl Write) -> io::Result<()> {
    let mut records = RecordReader::new(input);
    loop {
        match records.next_call(Call::read)? {
            // Refused or not: the page shows what the calls did.
            Next::Call(call) => _ = make(&mut book, &call),
            Next::End => return write_page(&book, &mut output),
            Next::Broken(offset) => return writeln!(output, "X {offset}"),
        }
    }
}

fn write_page(book: &Book, output: &mut impl Write) -> io::Result<()> {
    let mut buffer = [0; PAGE_LENGTH];
    match book.page(Which::Plain, &mut buffer) {
        Ok(()) => output.write_all(&buffer),
        Err(refusal) => writeln!(output, "{refusal}"),
    }
}
