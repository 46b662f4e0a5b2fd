//! Writes what an annuity to some years is worth on the plain and on the adjusted curve that the
//! journal of standard input leaves, in the words of examples/annuity.c.
//!
//!     annuity [AGE_LIMIT] < journal

use std::io::{self, Read};
use std::process::ExitCode;

use reference::arguments::{age_limit, usage_error};
use reference::book::{Book, Found};
use reference::curve::Which;
use reference::enclosure::{div_down, div_up};
use reference::euro::euro;
use reference::journal::book_after;
use reference::sums::Wanted;

/// The years to which annuities are told.
const YEARS: [u32; 5] = [1, 10, 20, 60, 150];

/// Billionths of a year's 1,000 euro in a cent of them: 1,000 euro are 100,000 cents.
const CENT: i128 = 10_000;

fn main() -> io::Result<ExitCode> {
    let Some(age_limit) = age_limit(std::env::args_os().skip(1)) else {
        return Ok(usage_error("annuity"));
    };
    let mut journal = Vec::new();
    io::stdin().read_to_end(&mut journal)?;
    let book = book_after(age_limit, &journal);
    for year in YEARS {
        println!("{year} plain {}", annuity(&book, Which::Plain, year));
        println!("{year} adjusted {}", annuity(&book, Which::Adjusted, year));
    }
    Ok(ExitCode::SUCCESS)
}

/// The sum with its worth and its dating, or why there is none.
fn annuity(book: &Book, which: Which, year: u32) -> String {
    match book.look_up_wanted(which, Wanted::Sum, year) {
        Err(refusal) => format!("refused: {}", refusal.number),
        Ok(found) => words(&found),
    }
}

fn words(found: &Found) -> String {
    let (low, high) = (found.amount.low, found.amount.high);
    let worth = [div_down(low, CENT), div_up(high, CENT)].map(euro);
    format!(
        "{low} {high} worth {} to {} month {} age {}",
        worth[0], worth[1], found.month, found.age
    )
}
