//! Writes what a small block of policies is worth on the plain curve that the journal of standard
//! input leaves, and the answer to the same block with a year typed wrong, in the words of
//! examples/block.c.
//!
//!     block [AGE_LIMIT] < journal

use std::io::{self, Read};
use std::process::ExitCode;

use reference::arguments::{age_limit, usage_error};
use reference::book::Book;
use reference::euro::euro;
use reference::journal::{book_after, value_by};
use reference::valuation::Valued;

/// Year and cents in turn.
const FLOWS: [u64; 16] = [
    1, 120_000, 2, 120_000, 3, 118_050, 10, 95_000, 10, 40_001, 20, 10_000_000, 60, 4_000, 150, 99,
];
const YEAR_OF_ENTRY_3: usize = 4;

fn main() -> io::Result<ExitCode> {
    let Some(age_limit) = age_limit(std::env::args_os().skip(1)) else {
        return Ok(usage_error("block"));
    };
    let mut journal = Vec::new();
    io::stdin().read_to_end(&mut journal)?;
    let book = book_after(age_limit, &journal);
    println!("block {}", value(&book, &FLOWS));
    let mut mistyped = FLOWS;
    mistyped[YEAR_OF_ENTRY_3] = 151;
    println!("mistyped {}", value(&book, &mistyped));
    Ok(ExitCode::SUCCESS)
}

/// The value with its dating, or why there is none.
fn value(book: &Book, numbers: &[u64]) -> String {
    match value_by(book, numbers) {
        Err(refusal) => format!("refused: {}, place {}", refusal.number, refusal.place),
        Ok(valued) => words(&valued),
    }
}

fn words(valued: &Valued) -> String {
    let (low, high) = (euro(valued.amount.low), euro(valued.amount.high));
    let (month, age) = (valued.month, valued.age);
    format!("worth {low} to {high} month {month} age {age}")
}
