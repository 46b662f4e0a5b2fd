//! Writes how many posts of each profile the journal of standard input brings and some years of the
//! plain curve that it leaves, in the words of examples/markets.c.
//!
//!     markets [AGE_LIMIT] < journal

use std::io::{self, Read};
use std::process::ExitCode;

use reference::arguments::{age_limit, usage_error};
use reference::book::Book;
use reference::counts::Tally;
use reference::curve::Which;
use reference::journal::{calls, make};
use reference::market::Market;
use reference::profiled::PROFILE;

/// How posts are counted: without a profile record, by the profile that it names, or with one that
/// names no market.
const NAMES: [&str; 5] = [
    "no profile",
    "profile 1",
    "profile 2",
    "profile 3",
    "unknown profiles",
];
const WITHOUT: usize = 0;
const UNKNOWN: usize = 4;

/// The years whose factors are told.
const YEARS: [u32; 10] = [1, 9, 10, 11, 15, 16, 20, 21, 60, 150];

fn main() -> io::Result<ExitCode> {
    let Some(age_limit) = age_limit(std::env::args_os().skip(1)) else {
        return Ok(usage_error("markets"));
    };
    let mut journal = Vec::new();
    io::stdin().read_to_end(&mut journal)?;
    let mut book = Book::new(age_limit);
    let mut posts = [Tally::default(); NAMES.len()];
    for call in calls(&journal) {
        let accepted = make(&mut book, &call).is_ok();
        if let Some(sheet) = call.posted() {
            posts[sort(sheet)].count(accepted);
        }
    }
    for (name, tally) in NAMES.iter().zip(posts) {
        let (posted, accepted) = (tally.posted, tally.accepted);
        println!("{name}: {posted} posted, {accepted} accepted");
    }
    print_curve(&book);
    Ok(ExitCode::SUCCESS)
}

fn sort(sheet: &[u8]) -> usize {
    match sheet {
        [PROFILE, profile, ..] => {
            Market::of_profile(*profile).map_or(UNKNOWN, |market| market.profile.into())
        }
        _ => WITHOUT,
    }
}

/// A page has every year that the curve has, with rates or without.
fn print_curve(book: &Book) {
    match book.shown_page(Which::Plain) {
        Err(refusal) => println!("refused: {}", refusal.number),
        Ok(page) => {
            println!("month {}, age {}", page.month, page.age);
            for year in YEARS {
                let factor = (page.factor)(year as usize);
                println!("year {year} {} {}", factor.low, factor.high);
            }
        }
    }
}
