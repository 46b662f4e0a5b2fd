//! The page: its bytes and their writer. Each record goes straight to its own bytes of the
//! lent buffer: the head first, then the years in their order.

use std::ops::Range;

use crate::curve::YEARS;
use crate::enclosure::Enclosure;
use crate::refusal::Refusal;

/// Bytes in a page.
pub const PAGE_LENGTH: usize = HEAD_LENGTH + YEARS * YEAR_LENGTH;

const PAGE_HEAD: u8 = 0x48;
const PAGE_YEAR: u8 = 0x59;
const HEAD_LENGTH: usize = 5;
const YEAR_LENGTH: usize = 10;

/// What a page tells.
pub struct Page<F> {
    /// Month of the sheet behind the curve.
    pub month: u16,
    /// Told month less sheet month.
    pub age: u16,
    /// The factor of a year from 1 to 150, asked for when its record is written.
    pub factor: F,
}

impl<F: Fn(usize) -> Enclosure> Page<F> {
    /// Writes the page into the first 1,505 bytes of `buffer` and keeps the others, or refuses
    /// on ground 15 and leaves the buffer unchanged. On the way `written` is told each t from 0
    /// to 150, in this order, with the whole buffer as it is once years 1 to t are written; at
    /// 0 the head alone is.
    pub fn write(
        &self,
        buffer: &mut [u8],
        written: impl FnMut(usize, &[u8]),
    ) -> Result<(), Refusal> {
        self.write_years(YEARS, buffer, written)
    }

    /// Writes the page's head and its years 1 to `last`, which is from 0 to 150, and keeps all
    /// other bytes. It refuses like `write`, whatever `last` is: the whole page must fit.
    pub fn write_to(&self, last: usize, buffer: &mut [u8]) -> Result<(), Refusal> {
        self.write_years(last, buffer, |_, _| {})
    }

    fn write_years(
        &self,
        last: usize,
        buffer: &mut [u8],
        mut written: impl FnMut(usize, &[u8]),
    ) -> Result<(), Refusal> {
        assert!(last <= YEARS, "a page ends with year 150");
        if buffer.len() < PAGE_LENGTH {
            return Err(Refusal::plain(15));
        }
        self.write_head(&mut buffer[..HEAD_LENGTH]);
        written(0, buffer);
        for year in 1..=last {
            write_year(&mut buffer[record(year)], year, (self.factor)(year));
            written(year, buffer);
        }
        Ok(())
    }

    fn write_head(&self, head: &mut [u8]) {
        head[0] = PAGE_HEAD;
        head[1..3].copy_from_slice(&self.month.to_be_bytes());
        head[3..5].copy_from_slice(&self.age.to_be_bytes());
    }
}

/// The page's bytes that are the record of `year`.
fn record(year: usize) -> Range<usize> {
    let start = HEAD_LENGTH + YEAR_LENGTH * (year - 1);
    start..start + YEAR_LENGTH
}

fn write_year(record: &mut [u8], year: usize, factor: Enclosure) {
    record[0] = PAGE_YEAR;
    record[1] = u8::try_from(year).expect("at most 150");
    record[2..6].copy_from_slice(&four_bytes(factor.low));
    record[6..10].copy_from_slice(&four_bytes(factor.high));
}

/// Ground 8 keeps every factor of a curve at or below 2 U, which fits in 32 bits.
fn four_bytes(value: i128) -> [u8; 4] {
    u32::try_from(value)
        .expect("a factor of 32 bits")
        .to_be_bytes()
}
