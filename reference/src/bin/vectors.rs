//! Writes a stored record stream of the desk:
//!
//!     vectors
//!     vectors zero_rates
//!     vectors dropped
//!     vectors adjustment
//!     vectors withdrawal
//!     vectors slack
//!     vectors markets
//!
//! The first, stored as phase_in, reaches grounds 1 to 14, with many places, and accepted
//! curves at many convergence factors, each looked up at its ends, around the smoothing year
//! and elsewhere. The second reaches ground 17 as well, and looks up all 150 years of curves,
//! of which some have rates in every year and the others have not. The third has accepted
//! curves of every pattern of volumes of 0, and sheets with dropped quotes that are refused. The
//! fourth has every tail of a sheet, accepted and refused, curves that no adjustment moves, since
//! the desk's look-ups are of the plain curve, and sheets that only their adjusted curve turns
//! down. The fifth has a journal's withdrawal, which the desk does not know, and records behind it
//! that it must not serve. The sixth has sheets that meet U in a logarithm or 0 in a growth, where
//! nothing is added to the high: at the least limit, at their widest bands and just below. The
//! seventh has sheets with a profile record: accepted curves of all three profiles, some with all 150
//! years looked up, the ends of what year 10 over year 9 may be, and every refusal.

use std::io::Write;
use std::process::ExitCode;

use reference::adjusted::typed_adjusted_sheet;
use reference::curve::YEARS as LAST_YEAR;
use reference::dropped::{dropped_sheet, typed_dropped_sheet};
use reference::every_ground;
use reference::journal::{look_up, post, turn, withdrawal};
use reference::known::known_sheet;
use reference::market::Market;
use reference::profiled::{in_market, typed_profiled_sheet};
use reference::rates::ZeroRates;
use reference::sheet::Sheet;
use reference::streams::{
    low_rates, records, sheet, sheet_bytes, steep_sheet, worked, zero_sheet, Random,
};

const SEED: u64 = 2_026;
const CURVES: usize = 60;

/// Records of an ordinary stream: turns, refusals, months out of order.
const RECORDS: usize = 300;

/// Years at which each curve is looked up, beside one random year.
const YEARS: [u8; 8] = [1, 10, 19, 20, 21, 50, 100, 150];

/// The last month that can be told, so every sheet after the ordinary stream can have it.
const LAST_MONTH: u16 = 2_399;

/// Lengths that no sheet without an adjustment has; 365 and 368 have those of a sheet in the low
/// byte.
const WRONG_LENGTHS: [usize; 14] = [
    0, 1, 2, 3, 108, 110, 111, 113, 114, 115, 255, 365, 368, 65_535,
];

/// Curves of steep sheets in the stream of zero rates.
const STEEP_CURVES: usize = 5;

/// Rates that rise to maturity 40, in the stream of dropped quotes.
const RISING: [i16; 17] = [
    500, 700, 900, 1_100, 1_300, 1_500, 1_700, 1_850, 2_000, 2_100, 2_250, 2_400, 2_500, 2_550,
    2_580, 2_590, 2_580,
];

/// Years at which each of its curves is looked up.
const YEARS_OF_DROPPED: [u8; 6] = [1, 20, 21, 30, 50, 150];

/// Its posts of which any may be refused.
const ANY_DROPPED: usize = 150;

/// None, and adjustments at the ends of their range, around 0 and between.
const ADJUSTMENTS: [Option<i16>; 7] = [
    None,
    Some(-500),
    Some(-1),
    Some(0),
    Some(1),
    Some(100),
    Some(500),
];

/// Years at which each curve in the stream of adjustments is looked up.
const YEARS_OF_ADJUSTED: [u8; 4] = [1, 20, 21, 150];

/// Its posts of which any may be refused.
const ANY_ADJUSTED: usize = 150;

/// Years at which each curve in the stream of slack is looked up.
const YEARS_OF_KNOWN: [u8; 5] = [1, 20, 21, 22, 150];

/// Its seeded posts.
const ANY_KNOWN: usize = 80;

/// Years at which curves in the stream of markets are looked up.
const YEARS_OF_MARKETS: [u8; 8] = [1, 9, 10, 11, 15, 16, 21, 150];

/// Its seeded posts.
const ANY_PROFILED: usize = 400;

fn main() -> std::io::Result<ExitCode> {
    let words: Vec<_> = std::env::args().skip(1).collect();
    let stream = match words.iter().map(String::as_str).collect::<Vec<_>>()[..] {
        [] => phase_in(),
        ["zero_rates"] => zero_rates(),
        ["dropped"] => dropped(),
        ["adjustment"] => adjustment(),
        ["withdrawal"] => withdrawn(),
        ["slack"] => slack(),
        ["markets"] => markets(),
        _ => {
            eprintln!(
                "usage: vectors [zero_rates | dropped | adjustment | withdrawal | slack | markets]"
            );
            return Ok(ExitCode::from(2));
        }
    };
    std::io::stdout().write_all(&stream)?;
    Ok(ExitCode::SUCCESS)
}

fn bytes(records: Vec<every_ground::Answered>) -> Vec<u8> {
    let records = records.into_iter();
    records.flat_map(|(record, _, _)| record).collect()
}

fn phase_in() -> Vec<u8> {
    let mut random = Random::new(SEED);
    let mut stream = bytes(every_ground::base_records());
    stream.extend(records(&mut random, RECORDS));
    stream.extend(turn(LAST_MONTH));
    stream.extend(lengths_and_last_records());
    let mut curves = 0;
    while curves < CURVES {
        let sheet = sheet(&mut random, LAST_MONTH);
        stream.extend(post(&sheet_bytes(&sheet)));
        if worked(&sheet).is_some() {
            curves += 1;
            stream.extend(YEARS.into_iter().flat_map(look_up));
            stream.extend(look_up(1 + random.below(150) as u8));
        }
    }
    // The curve that stays has rates below 0.
    stream.extend(post(&sheet_bytes(&low_rates(LAST_MONTH, Some(20_000)))));
    stream.extend(YEARS.into_iter().flat_map(look_up));
    stream.extend([look_up(0), look_up(151)].concat());
    stream.extend([turn(LAST_MONTH + 1), turn(LAST_MONTH - 1)].concat());
    // An unknown kind ends it.
    stream.push(0x51);
    stream
}

fn zero_rates() -> Vec<u8> {
    let mut stream = bytes(every_ground::desk_records());
    stream.extend(turn(LAST_MONTH));
    let sheets = [flat(0, 0), flat(3_000, 3_000), flat(-150, 0)];
    let steep = [steep_tail(0), steep_tail(10_000)];
    let low = [low_rates(LAST_MONTH, Some(20_000))];
    let sheets = [&sheets[..], &steep, &low, &sampled()].concat();
    stream.extend(sheets.iter().flat_map(posted_and_looked_up));
    // Cut after the kind.
    stream.push(0x4C);
    stream
}

fn dropped() -> Vec<u8> {
    let mut random = Random::new(SEED);
    let mut stream = bytes(every_ground::base_records());
    stream.extend(bytes(every_ground::dropped_records()));
    stream.extend(turn(LAST_MONTH));
    for pattern in 0..32 {
        let sheets = [rising_of(pattern), accepted_of(&mut random, pattern)];
        for sheet in sheets {
            stream.extend(post(&sheet_bytes(&sheet)));
            stream.extend(YEARS_OF_DROPPED.into_iter().flat_map(look_up));
        }
    }
    for _ in 0..ANY_DROPPED {
        stream.extend(post(&typed_dropped_sheet(&mut random, LAST_MONTH)));
        stream.extend(look_up(random.between(21, 150) as u8));
    }
    // Cut inside the month.
    stream.extend([0x4D, 0x09]);
    stream
}

fn adjustment() -> Vec<u8> {
    let mut random = Random::new(SEED);
    let mut stream = bytes(every_ground::base_records());
    stream.extend(bytes(every_ground::adjusted_records()));
    stream.extend(turn(LAST_MONTH));
    let low = |x| low_rates(LAST_MONTH, x);
    for sheet in [
        flat(3_000, 3_000),
        flat(-500, 0),
        low(None),
        low(Some(15_000)),
    ] {
        for adjustment in ADJUSTMENTS {
            stream.extend(post(&sheet_bytes(&Sheet {
                adjustment,
                ..sheet.clone()
            })));
            stream.extend(YEARS_OF_ADJUSTED.into_iter().flat_map(look_up));
        }
    }
    stream.extend(tails());
    for _ in 0..ANY_ADJUSTED {
        stream.extend(post(&typed_adjusted_sheet(&mut random, LAST_MONTH)));
        stream.extend(look_up(random.between(1, 150) as u8));
    }
    // The curves that stay.
    stream.extend(post(&sheet_bytes(&Sheet {
        adjustment: Some(100),
        ..flat(3_000, 3_000)
    })));
    stream.extend(YEARS_OF_ADJUSTED.into_iter().flat_map(look_up));
    // A sheet of 115 bytes without its last one.
    stream.extend([&[0x50, 0, 115], &[0; 114][..]].concat());
    stream
}

/// Two posts, so that a desk that served the withdrawal would show another curve.
fn withdrawn() -> Vec<u8> {
    let posted = |sheet: &Sheet| post(&sheet_bytes(sheet));
    [
        turn(LAST_MONTH),
        posted(&zero_sheet(0)),
        look_up(20),
        posted(&flat(3_000, 3_000)),
        look_up(20),
        withdrawal(),
        look_up(20),
        posted(&flat(2_000, 2_000)),
        withdrawal(),
        withdrawal(),
        look_up(20),
    ]
    .concat()
}

fn slack() -> Vec<u8> {
    let mut random = Random::new(SEED);
    let mut stream = turn(LAST_MONTH);
    for sheet in [exact(), at_their_limits()].concat() {
        stream.extend(post(&sheet_bytes(&sheet)));
        stream.extend(YEARS_OF_KNOWN.into_iter().flat_map(look_up));
    }
    for _ in 0..ANY_KNOWN {
        stream.extend(post(&sheet_bytes(&known_sheet(&mut random, LAST_MONTH))));
        stream.extend(look_up(21));
        stream.extend(look_up(random.between(22, 150) as u8));
    }
    // The curve that stays.
    stream.extend(post(&sheet_bytes(&within(1, flat(0, 0)))));
    stream.extend(YEARS_OF_KNOWN.into_iter().flat_map(look_up));
    // Cut inside the length.
    stream.extend([0x50, 0x00]);
    stream
}

fn markets() -> Vec<u8> {
    let mut random = Random::new(SEED);
    let mut stream = bytes(every_ground::base_records());
    stream.extend(bytes(every_ground::market_records()));
    stream.extend(turn(LAST_MONTH));
    let rising = Sheet {
        rates: std::array::from_fn(|i| 100 + 7 * i as i16),
        phase_in: Some(20_000),
        ..flat(0, 345)
    };
    for sheet in [flat(3_000, 345), rising, low_rates(LAST_MONTH, None)] {
        for market in Market::ALL {
            stream.extend(posted_and_looked_up(&in_market(&sheet, market)));
        }
    }
    for sheet in [at_the_ends_of_x(), at_the_cut_of_the_rate()].concat() {
        stream.extend(post(&sheet_bytes(&sheet)));
        stream.extend(YEARS_OF_MARKETS.into_iter().flat_map(look_up));
    }
    stream.extend(profiles_and_lengths());
    for _ in 0..ANY_PROFILED {
        stream.extend(post(&typed_profiled_sheet(&mut random, LAST_MONTH)));
        stream.extend(look_up(random.between(9, 17) as u8));
        stream.extend(look_up(random.between(1, 150) as u8));
    }
    // The curve that stays is of a smaller market, as is the one before it.
    for market in Market::SMALLER {
        stream.extend(post(&sheet_bytes(&in_market(&flat(3_000, 345), market))));
        stream.extend(YEARS_OF_MARKETS.into_iter().flat_map(look_up));
    }
    // A sheet of 59 bytes without its last one.
    stream.extend([&[0x50, 0, 59], &[0x08; 58][..]].concat());
    stream
}

/// Sheets of profile 2 whose year 10 over year 9 has its low at 800,000,000 or just below, or its
/// high at 1,100,000,000 or just above: rates to year 8, of year 9 and of year 10.
fn at_the_ends_of_x() -> Vec<Sheet> {
    let ends = [
        (1_200, 1_009, 2_910),
        (3_718, 4_366, 5_751),
        (3_422, 4_843, 3_660),
        (5_800, 5_985, 4_680),
    ];
    let sheet = |(level, ninth, tenth): (i16, i16, i16)| {
        let mut sheet = flat(level, 0);
        sheet.rates[8..10].copy_from_slice(&[ninth, tenth]);
        in_market(&sheet, Market::TO_10)
    };
    ends.map(sheet).to_vec()
}

/// Sheets of each market whose quote of the smoothing year, and no other, decides the convergence
/// factor.
fn at_the_cut_of_the_rate() -> Vec<Sheet> {
    let mut sheets = Vec::new();
    for market in Market::ALL {
        for rate in [-501, -500, -499, 0, 499, 500, 501] {
            let mut sheet = flat(0, 345);
            sheet.rates[market.smoothing_quote()] = rate;
            sheet.phase_in = Some(20_000);
            sheets.push(in_market(&sheet, market));
        }
    }
    sheets
}

/// Every profile byte before some sheets, and sheets of every profile cut or made longer.
fn profiles_and_lengths() -> Vec<u8> {
    let mut stream = Vec::new();
    for byte in [0, 1, 2, 3, 4, 5, 6, 7, 8, 9, 127, 128, 254, 255] {
        stream.extend(post(&[0x08, byte]));
        for market in Market::ALL {
            let mut sheet = sheet_bytes(&in_market(&flat(0, 0), market));
            sheet[1] = byte;
            stream.extend(post(&sheet));
        }
    }
    for market in Market::ALL {
        let sheet = sheet_bytes(&in_market(&flat(0, 0), market));
        for length in (0..=3).chain(sheet.len() - 3..=sheet.len() + 7) {
            for more in [0x06, 0x07] {
                let mut other = sheet.clone();
                other.resize(length, more);
                stream.extend(post(&other));
            }
        }
    }
    stream
}

fn within(limit: u32, sheet: Sheet) -> Sheet {
    Sheet { limit, ..sheet }
}

fn adjusted(adjustment: i16, sheet: Sheet) -> Sheet {
    Sheet {
        adjustment: Some(adjustment),
        ..sheet
    }
}

/// Sheets at the least limit: the zero sheet in every form, and one that has rates of its own only
/// in its first years, each of them as narrow as can be.
fn exact() -> Vec<Sheet> {
    let zero = || within(1, flat(0, 0));
    let with_x = || Sheet {
        phase_in: Some(20_000),
        ..zero()
    };
    let ends_at_20 = || {
        let mut sheet = zero();
        sheet.volumes = [1, 0, 0, 0, 0];
        sheet.rates[13..].copy_from_slice(&[12_000, -2_000, 1, -1]);
        sheet
    };
    let early = {
        let mut sheet = zero();
        sheet.rates[..3].copy_from_slice(&[3_000, 0, -500]);
        sheet
    };
    vec![
        zero(),
        adjusted(0, zero()),
        with_x(),
        adjusted(0, with_x()),
        ends_at_20(),
        adjusted(0, ends_at_20()),
        early,
        // Growth at an adjustment of 1 is not known: its year 1 is 7 or 8 wide.
        adjusted(-1, zero()),
        adjusted(1, zero()),
        within(7, adjusted(-1, zero())),
    ]
}

/// Sheets that meet a known value beside others, at the widest bands that they have and just below:
/// the ultimate forward rate, the forwards or the adjustment are 0.
fn at_their_limits() -> Vec<Sheet> {
    let level = || flat(3_000, 0);
    let mut later = flat(0, 0);
    later.rates[13..].copy_from_slice(&[100, 150, 170, 160]);
    // With an L of -1 to 0 its adjusted year 149 would be above 2 U.
    let mut near_2_u = flat(-1_911, 0);
    near_2_u.rates[13..].copy_from_slice(&[-1_750, -1_600, -1_400, -1_300]);
    near_2_u.volumes = [1_000_000, 17, 1, 1, 1];
    vec![
        level(),
        within(635, level()),
        within(636, level()),
        within(635, adjusted(0, level())),
        within(636, adjusted(0, level())),
        within(636, adjusted(100, level())),
        within(672, adjusted(100, level())),
        within(9, flat(0, 1)),
        within(10, flat(0, 1)),
        flat(0, 1),
        adjusted(0, flat(0, 3_450)),
        later,
        near_2_u.clone(),
        adjusted(-381, near_2_u),
    ]
}

/// One sheet followed by every kind, alone and behind the phase-in's record, by numbers around
/// the ends of the range, and by tails of other lengths.
fn tails() -> Vec<u8> {
    let sheet = sheet_bytes(&low_rates(LAST_MONTH, None));
    let followed_by = |tail: &[u8]| post(&[&sheet, tail].concat());
    let x = [0x06, 0x3A, 0x98];
    let mut stream = Vec::new();
    for kind in [0x00, 0x01, 0x05, 0x06, 0x07, 0x08, 0x50, 0xFF] {
        let record = [kind, 0x00, 0x64];
        stream.extend(followed_by(&record));
        stream.extend(followed_by(&[x, record].concat()));
        stream.extend(followed_by(&[record, x].concat()));
    }
    for adjustment in [i16::MIN, -501, -500, -499, 0, 499, 500, 501, i16::MAX] {
        let [high, low] = adjustment.to_be_bytes();
        stream.extend(followed_by(&[0x07, high, low]));
        stream.extend(followed_by(&[x, [0x07, high, low]].concat()));
    }
    for length in 0..=9 {
        stream.extend(followed_by(
            &[x, [0x07, 0, 0], [0x07, 0, 0]].concat()[..length],
        ));
        stream.extend(followed_by(&[0x07; 9][..length]));
    }
    stream
}

/// A volume of 100 more for each maturity where the pattern has a bit, 20's the lowest. Quotes
/// that are dropped could not be used.
fn rising_of(pattern: usize) -> Sheet {
    let mut sheet = Sheet {
        rates: RISING,
        volumes: std::array::from_fn(|i| (pattern >> i & 1) as u32 * 100 * (i as u32 + 1)),
        ..flat(0, 345)
    };
    for i in (1..5).filter(|&i| sheet.volumes[i] == 0) {
        sheet.rates[12 + i] = [12_000, -2_000][i % 2];
    }
    sheet
}

/// A seeded sheet of the pattern; accepted, unless all volumes are 0.
fn accepted_of(random: &mut Random, pattern: usize) -> Sheet {
    loop {
        let mut sheet = match pattern {
            0 | 31 => sheet(random, LAST_MONTH),
            _ => dropped_sheet(random, LAST_MONTH),
        };
        if pattern == 0 {
            sheet.volumes = [0; 5];
            return sheet;
        }
        let bit = |i: usize| usize::from(sheet.volumes[i] > 0) << i;
        if (0..5).map(bit).sum::<usize>() == pattern && worked(&sheet).is_some() {
            return sheet;
        }
    }
}

/// The sheet's post, and look-ups of all its years.
fn posted_and_looked_up(sheet: &Sheet) -> Vec<u8> {
    let years = (1..=LAST_YEAR).flat_map(|year| look_up(year as u8));
    post(&sheet_bytes(sheet)).into_iter().chain(years).collect()
}

fn flat(rate: i16, ufr: u16) -> Sheet {
    Sheet {
        profile: None,
        month: LAST_MONTH,
        rates: [rate; 17],
        volumes: [1; 5],
        ufr,
        limit: 100_000,
        phase_in: None,
        adjustment: None,
    }
}

/// Year 9 is U, year 10 is U / 111,111.
fn steep_tail(ufr: u16) -> Sheet {
    let mut sheet = flat(11_111, ufr);
    sheet.rates[..9].fill(0);
    sheet
}

/// Accepted steep sheets, each of them with years that have no high rate.
fn sampled() -> Vec<Sheet> {
    let mut random = Random::new(SEED);
    let sheets = std::iter::repeat_with(|| steep_sheet(&mut random, LAST_MONTH));
    sheets.filter(lacks_rates).take(STEEP_CURVES).collect()
}

fn lacks_rates(sheet: &Sheet) -> bool {
    worked(sheet).is_some_and(|curves| {
        (1..=LAST_YEAR).any(|year| ZeroRates::of(curves.plain.factor(year), year).is_none())
    })
}

/// One sheet cut or followed by zeros to wrong lengths; with last records of other kinds; and
/// with X at, inside and outside its ends, looked up after each.
fn lengths_and_last_records() -> Vec<u8> {
    let bytes = sheet_bytes(&low_rates(LAST_MONTH, None));
    let mut stream = post(&bytes);
    for length in WRONG_LENGTHS {
        let mut other = bytes.clone();
        other.resize(length, 0);
        stream.extend(post(&other));
    }
    for kind in [0x00, 0x01, 0x05, 0x06, 0x07, 0x08, 0x50, 0xFF] {
        stream.extend(post(&[&bytes[..], &[kind, 0x4E, 0x20]].concat()));
    }
    for x in [
        0, 9_999, 10_000, 10_001, 14_000, 19_999, 20_000, 20_001, 65_535,
    ] {
        stream.extend(post(&sheet_bytes(&low_rates(LAST_MONTH, Some(x)))));
        stream.extend(YEARS.into_iter().flat_map(look_up));
    }
    stream
}
