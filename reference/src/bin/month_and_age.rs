//! Writes the month and the age of the curve that the journal of standard input leaves,
//! in the words of examples/month_and_age.c.
//!
//!     month_and_age [AGE_LIMIT] < journal

use std::io::{self, Read};
use std::process::ExitCode;

use reference::arguments::{age_limit, usage_error};
use reference::book::PAGE_LENGTH;
use reference::curve::Which;
use reference::journal::book_after;

fn main() -> io::Result<ExitCode> {
    let Some(age_limit) = age_limit(std::env::args_os().skip(1)) else {
        return Ok(usage_error("month_and_age"));
    };
    let mut journal = Vec::new();
    io::stdin().read_to_end(&mut journal)?;
    let mut page = [0; PAGE_LENGTH];
    match book_after(age_limit, &journal).page(Which::Plain, &mut page) {
        Err(refusal) => println!("refused: {}", refusal.number),
        Ok(()) => {
            let number = |at: usize| u16::from_be_bytes([page[at], page[at + 1]]);
            println!("month {}, age {}", number(1), number(3));
        }
    }
    Ok(ExitCode::SUCCESS)
}
