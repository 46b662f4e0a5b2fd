//! Writes the annual zero rates of the plain curve that the journal of standard input leaves, in
//! the words of examples/zero_rates.c.
//!
//!     zero_rates [AGE_LIMIT] < journal

use std::io::{self, Read};
use std::process::ExitCode;

use reference::arguments::{age_limit, usage_error};
use reference::curve::Which;
use reference::journal::book_after;

fn main() -> io::Result<ExitCode> {
    let Some(age_limit) = age_limit(std::env::args_os().skip(1)) else {
        return Ok(usage_error("zero_rates"));
    };
    let mut journal = Vec::new();
    io::stdin().read_to_end(&mut journal)?;
    let book = book_after(age_limit, &journal);
    for year in 1..=150 {
        match book.look_up(Which::Plain, year) {
            Err(refusal) => println!("{year} refused: {}", refusal.number),
            Ok(found) => {
                let (low, high) = (percent(found.rates.low), percent(found.rates.high));
                println!("{year} {low} {high}");
            }
        }
    }
    Ok(ExitCode::SUCCESS)
}

/// Of a rate in hundred-thousandths.
fn percent(rate: i32) -> String {
    let sign = if rate < 0 { "-" } else { "" };
    let size = rate.unsigned_abs();
    format!("{sign}{}.{:03}%", size / 1_000, size % 1_000)
}
