//! Writes what stands after the journal of standard input and after each withdrawal that is then
//! accepted, in the words of examples/taken_back.c.
//!
//!     taken_back [AGE_LIMIT] < journal

use std::io::{self, Read};
use std::process::ExitCode;

use reference::arguments::{age_limit, usage_error};
use reference::book::Book;
use reference::curve::Which;
use reference::journal::book_after;

fn main() -> io::Result<ExitCode> {
    let Some(age_limit) = age_limit(std::env::args_os().skip(1)) else {
        return Ok(usage_error("taken_back"));
    };
    let mut journal = Vec::new();
    io::stdin().read_to_end(&mut journal)?;
    let mut book = book_after(age_limit, &journal);
    println!("{}", standing(&book));
    let mut accepted = 0;
    let refusal = loop {
        match book.withdraw() {
            Ok(()) => accepted += 1,
            Err(refusal) => break refusal,
        }
        println!("withdrawn {accepted}: {}", standing(&book));
    };
    let next = refusal.number;
    println!("withdrawals accepted: {accepted}, the next refused: {next}");
    Ok(ExitCode::SUCCESS)
}

/// Month, age and the band of year 20 of the plain curve, or why it is not shown.
fn standing(book: &Book) -> String {
    match book.look_up(Which::Plain, 20) {
        Err(refusal) => format!("refused: {}", refusal.number),
        Ok(found) => format!(
            "month {}, age {}, year 20 {} {}",
            found.month, found.age, found.amount.low, found.amount.high
        ),
    }
}
