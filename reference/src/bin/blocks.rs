//! Replays the journal of standard input under age limits of 5,000, 3 and 2 and, under each,
//! values seven lists of three cash flows: writes, a line for each, the ground's number, or 0,
//! and its place, then low, high, month and age, all 0 where the list is refused.

use std::io::{self, Read};

use reference::book::Book;
use reference::journal::book_after;
use reference::valuation::Flow;

/// One above the largest, and those just at and just below the age of the stored journal's
/// curve.
const AGE_LIMITS: [u64; 3] = [5_000, 3, 2];

/// Year and cents of each entry.
const LISTS: [[(u64, u64); 3]; 7] = [
    [(1, 100), (2, 100), (20, 100_000)],
    [(20, 60_000), (7, 1), (20, 40_000)],
    [(150, 1_000_000_000), (1, 0), (150, 0)],
    [(1, 1), (151, 1), (0, 1)],
    [(1, 1), (2, 2), (3, 1_000_000_001)],
    [(0, 1_000_000_001), (1, 1), (1, 1)],
    [(1, 1_000_000_001), (0, 1), (1, 1)],
];

fn main() -> io::Result<()> {
    let mut journal = Vec::new();
    io::stdin().read_to_end(&mut journal)?;
    for age_limit in AGE_LIMITS {
        let book = book_after(age_limit, &journal);
        for list in LISTS {
            println!("{}", line(&book, list));
        }
    }
    Ok(())
}

fn line(book: &Book, list: [(u64, u64); 3]) -> String {
    match book.value(&list.map(|(year, cents)| Flow { year, cents })) {
        Err(refusal) => format!("{} {} 0 0 0 0", refusal.number, refusal.place),
        Ok(valued) => {
            let (low, high) = (valued.amount.low, valued.amount.high);
            format!("0 0 {low} {high} {} {}", valued.month, valued.age)
        }
    }
}
