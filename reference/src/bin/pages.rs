//! Replays the journal of standard input under age limits of 5,000, 3 and 2 and, under each,
//! pages the plain curve and then the adjusted one into the first 0, 1,504, 1,505 and 2,000
//! bytes of 2,000 lent sevens: writes the ground's number, or 0, and all bytes.
//!
//! Then, whatever the journal is, it takes the page of month 5 and age 2 whose year y has the
//! low 16,909,060 × y and the high 16,909,060 × y + y. For t of 0, 1, 2, 75, 149 and 150 it
//! writes all bytes of 1,506 lent sevens as they are once years 1 to t of that page are
//! written, with no number before them and no newline after them.

use std::io::{self, Read, Write};

use reference::book::Book;
use reference::curve::Which;
use reference::enclosure::Enclosure;
use reference::journal::book_after;
use reference::page::Page;

/// One above the largest, and those just at and just below the age of the stored journal's
/// curve.
const AGE_LIMITS: [u64; 3] = [5_000, 3, 2];

/// The last years written in the states that are told: none, the first two, one in the middle
/// and the last two.
const LAST_YEARS: [usize; 6] = [0, 1, 2, 75, 149, 150];

/// Hex 01020304: no low of the page has two bytes that are the same, so that their order shows.
const MULTIPLE: i128 = 16_909_060;

fn main() -> io::Result<()> {
    let mut journal = Vec::new();
    io::stdin().read_to_end(&mut journal)?;
    let mut output = io::stdout().lock();
    for age_limit in AGE_LIMITS {
        let book = book_after(age_limit, &journal);
        write_pages(&book, Which::Plain, &mut output)?;
        write_pages(&book, Which::Adjusted, &mut output)?;
    }
    write_states(&mut output)
}

fn write_pages(book: &Book, which: Which, output: &mut impl Write) -> io::Result<()> {
    for length in [0, 1_504, 1_505, 2_000] {
        let mut lent = [7; 2_000];
        let refusal = book.page(which, &mut lent[..length]).err();
        writeln!(output, "{}", refusal.map_or(0, |r| r.number))?;
        output.write_all(&lent)?;
    }
    Ok(())
}

fn write_states(output: &mut impl Write) -> io::Result<()> {
    let page = Page {
        month: 5,
        age: 2,
        factor: |year| Enclosure::new(MULTIPLE, MULTIPLE + 1).times(year as i128),
    };
    for last in LAST_YEARS {
        let mut lent = [7; 1_506];
        page.write_to(last, &mut lent).expect("the page fits");
        output.write_all(&lent)?;
    }
    Ok(())
}
