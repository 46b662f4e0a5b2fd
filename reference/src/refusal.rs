//! The numbered grounds on which a call is refused.

use std::fmt;

/// One refusal: the ground's number and the place it names, 0 if it names none.
#[derive(Clone, Copy, Debug, PartialEq, Eq)]
pub struct Refusal {
    pub number: u8,
    pub place: u16,
}

impl Refusal {
    /// The refusal on ground `number` at `place`.
    pub fn at(number: u8, place: usize) -> Self {
        let place = u16::try_from(place).expect("a record, a year, or an entry up to 1,000");
        Refusal { number, place }
    }

    /// The refusal on ground `number`, which names no place.
    pub fn plain(number: u8) -> Self {
        Refusal { number, place: 0 }
    }

    /// Number and place in one: number + 256 × place.
    pub fn code(self) -> u64 {
        u64::from(self.number) + 256 * u64::from(self.place)
    }

    /// The ground in words.
    pub fn reason(self) -> &'static str {
        REASONS[usize::from(self.number) - 1]
    }
}

/// The grounds in words, that of number n at index n - 1.
const REASONS: [&str; 23] = [
    "the sheet's length is none that its profile has",
    "a record's kind or maturity is not the one due",
    "a number is outside its range",
    "no volume is above 0",
    "the sheet's month is after the told month",
    "the sheet's month is before the standing curve's",
    "a low of a year from the quotes is below 1",
    "a high is above 2,000,000,000",
    "an end of the halving fails its test, or year 10 over year 9 is outside the ends",
    "high less low is above the sheet's limit",
    "the month is above 2,399",
    "the month is before the told month",
    "the year is not 1 to 150",
    "the book has no curve",
    "the buffer has fewer than 1,505 bytes",
    "the curve's age is above the book's limit",
    "no high rate up to 100,000 exists",
    "no post is left to withdraw",
    "the profile is not 1 to 3",
    "the list of cash flows is empty or has more than 1,000 entries",
    "the year of a cash flow is not 1 to 150",
    "the cents of a cash flow are above 1,000,000,000",
    "no shift from -500 to 500 meets the target",
];

impl fmt::Display for Refusal {
    fn fmt(&self, f: &mut fmt::Formatter<'_>) -> fmt::Result {
        write!(f, "R {} {}", self.number, self.place)
    }
}
