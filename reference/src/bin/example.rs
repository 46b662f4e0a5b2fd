//! Writes the example of the README: two months at an office, as records of the desk and of
//! a journal.

use std::io::Write;

use reference::journal::{look_up, post, turn};
use reference::sheet::Sheet;
use reference::streams::sheet_bytes;

/// September 2026, in months since January 2000.
const SEPTEMBER: u16 = 320;
const OCTOBER: u16 = SEPTEMBER + 1;

/// The index of the quote of maturity 12.
const QUOTE_12: usize = 10;

fn main() -> std::io::Result<()> {
    let post = |sheet: &Sheet| post(&sheet_bytes(sheet));
    let september = sheet(SEPTEMBER, 0);
    let october = sheet(OCTOBER, 12);
    let mut mistyped = october.clone();
    mistyped.rates[QUOTE_12] = 12_001;
    let calls = [
        turn(SEPTEMBER),
        post(&september),
        look_up(1),
        look_up(20),
        look_up(60),
        look_up(150),
        turn(OCTOBER),
        look_up(20),
        post(&sheet(OCTOBER + 1, 0)),
        post(&mistyped),
        post(&october),
        look_up(20),
        post(&september),
        look_up(151),
    ];
    std::io::stdout().write_all(&calls.concat())
}

/// A calm curve: 2.1% in the first year, 2.9% in the thirtieth, all moved by `shift`.
fn sheet(month: u16, shift: i16) -> Sheet {
    let rates = [
        2_100, 2_140, 2_190, 2_240, 2_290, 2_340, 2_390, 2_435, 2_480, 2_520, 2_590, 2_680, 2_790,
        2_860, 2_900, 2_880, 2_840,
    ];
    Sheet {
        profile: None,
        month,
        rates: rates.map(|rate| rate + shift),
        volumes: [1_200, 350, 900, 210, 430],
        ufr: 3_450,
        limit: 2_500,
        phase_in: None,
        adjustment: None,
    }
}
