//! Makes the calls of the journal of standard input one by one and says of each whether
//! it is accepted, or why not, in the words of examples/why_refused.c.
//!
//!     why_refused [AGE_LIMIT] < journal

use std::io::{self, Read};
use std::process::ExitCode;

use reference::arguments::{age_limit, usage_error};
use reference::book::Book;
use reference::journal::{make, Call};
use reference::records::{Next, RecordReader};

fn main() -> io::Result<ExitCode> {
    let Some(age_limit) = age_limit(std::env::args_os().skip(1)) else {
        return Ok(usage_error("why_refused"));
    };
    explain(Book::new(age_limit), io::stdin().lock())?;
    Ok(ExitCode::SUCCESS)
}

fn explain(mut book: Book, input: impl Read) -> io::Result<()> {
    let mut records = RecordReader::new(input);
    loop {
        match records.next_call(Call::read)? {
            Next::Call(call) => println!("{}", explanation(&mut book, &call)),
            Next::End => return Ok(()),
            Next::Broken(offset) => {
                println!("no whole record at byte {offset}");
                return Ok(());
            }
        }
    }
}

fn explanation(book: &mut Book, call: &Call) -> String {
    match make(book, call) {
        Ok(()) => "accepted".to_string(),
        Err(refusal) => format!(
            "turned down on {}, place {}: {}",
            refusal.number,
            refusal.place,
            refusal.reason()
        ),
    }
}
