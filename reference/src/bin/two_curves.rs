//! Writes the bands of the plain and of the adjusted curve that the journal of standard input
//! leaves, in the words of examples/two_curves.c.
//!
//!     two_curves [AGE_LIMIT] < journal

use std::io::{self, Read};
use std::process::ExitCode;

use reference::arguments::{age_limit, usage_error};
use reference::book::{Book, PAGE_LENGTH};
use reference::curve::Which;
use reference::journal::book_after;

fn main() -> io::Result<ExitCode> {
    let Some(age_limit) = age_limit(std::env::args_os().skip(1)) else {
        return Ok(usage_error("two_curves"));
    };
    let mut journal = Vec::new();
    io::stdin().read_to_end(&mut journal)?;
    let book = book_after(age_limit, &journal);
    let [plain, adjusted] = Which::ALL.map(|which| bands(&book, which));
    for (year, (plain, adjusted)) in (1..).zip(plain.iter().zip(&adjusted)) {
        println!("{year} {plain} {adjusted}");
    }
    Ok(ExitCode::SUCCESS)
}

/// Of each year on the curve's page: low and high, or why there are none.
fn bands(book: &Book, which: Which) -> Vec<String> {
    let mut page = [0; PAGE_LENGTH];
    let refusal = book.page(which, &mut page).err();
    let number = |bytes: &[u8]| {
        bytes
            .iter()
            .fold(0, |n: u64, &byte| 256 * n + u64::from(byte))
    };
    let band = |record: &[u8]| match refusal {
        Some(refusal) => format!("refused: {}", refusal.number),
        None => format!("{} {}", number(&record[2..6]), number(&record[6..])),
    };
    page[5..].chunks_exact(10).map(band).collect()
}
