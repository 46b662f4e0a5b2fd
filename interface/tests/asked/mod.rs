//! Look-ups and pages of the proved library, asked for by hand after a journal, and sheets to
//! post.

use interface::{look_after, page_after};
use reference::book::LARGEST_AGE_LIMIT;
use reference::journal::post;
use reference::sheet::Sheet;
use reference::streams::{sheet_bytes, zero_sheet};

/// The length of a page.
#[allow(dead_code)]
pub const PAGE: usize = 1_505;

/// The length of a look-up's reply.
#[allow(dead_code)]
pub const REPLY: usize = 28;

/// All rates at 3%, the ultimate forward rate too.
#[allow(dead_code)]
pub fn level(month: u16) -> Sheet {
    Sheet {
        rates: [3_000; 17],
        ufr: 3_000,
        ..zero_sheet(month)
    }
}

/// Year 9 is U, and years 10 to 17 have no high rate.
#[allow(dead_code)]
pub fn steep() -> Sheet {
    let mut sheet = zero_sheet(0);
    sheet.rates[9..].fill(11_111);
    sheet
}

/// The record of the sheet's post.
pub fn posted(sheet: &Sheet) -> Vec<u8> {
    post(&sheet_bytes(sheet))
}

/// The sheet with this adjustment.
pub fn with(adjustment: i16, sheet: Sheet) -> Sheet {
    Sheet {
        adjustment: Some(adjustment),
        ..sheet
    }
}

/// The ground of a look-up into `length` bytes, all of which a refusal leaves.
#[allow(dead_code)]
pub fn looked(age_limit: u64, journal: &[u8], kind: u64, year: u64, length: usize) -> u64 {
    let mut out = vec![9; length];
    let ground = look_after(age_limit, journal, kind, year, &mut out);
    assert!(ground == 0 || out == vec![9; length]);
    ground
}

/// The ground of a page into `length` bytes, all of which a refusal leaves.
#[allow(dead_code)]
pub fn paged(age_limit: u64, journal: &[u8], kind: u64, length: usize) -> u64 {
    let mut out = vec![9; length];
    let ground = page_after(age_limit, journal, kind, &mut out);
    assert!(ground == 0 || out == vec![9; length]);
    ground
}

/// The reply to an accepted look-up.
#[allow(dead_code)]
pub fn reply(journal: &[u8], kind: u64, year: u64) -> [u8; REPLY] {
    let mut out = [9; REPLY];
    let ground = look_after(LARGEST_AGE_LIMIT, journal, kind, year, &mut out);
    assert_eq!(ground, 0, "year {year}");
    out
}

/// Low and high of a reply.
#[allow(dead_code)]
pub fn band(reply: &[u8; REPLY]) -> (u64, u64) {
    let number = |at: usize| u64::from_be_bytes(reply[at..at + 8].try_into().unwrap());
    (number(0), number(8))
}

/// The page that is shown.
#[allow(dead_code)]
pub fn page(journal: &[u8], kind: u64) -> [u8; PAGE] {
    let mut out = [9; PAGE];
    assert_eq!(page_after(LARGEST_AGE_LIMIT, journal, kind, &mut out), 0);
    out
}
