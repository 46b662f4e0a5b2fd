//! Seeded sheets with quotes that are not used, since their maturity has no volume, and a count
//! of what such sheets met.

use std::collections::BTreeMap;
use std::fmt;

use crate::bootstrap::{par_factors, used_quotes};
use crate::counts::Tally;
use crate::curve::Curve;
use crate::enclosure::Enclosure;
use crate::market::{MATURITIES, QUOTE_20};
use crate::sheet::Sheet;
use crate::streams::{
    limit, move_to_edge, phase_in, quote, rates, sheet_bytes, steep_rates, ufr, volumes_of, Random,
    HIGHEST_QUOTE, LARGEST_LIMIT, LOWEST_QUOTE,
};

/// The patterns of volumes above 0 that have a 0 and are not all 0 are 1 to this one.
const PATTERNS: u64 = 30;

/// A sheet of `month` with a volume of 0 in any pattern but all five, so that in 29 of 30 a
/// quote is dropped. The numbers are in their ranges. Dropped quotes mostly have rates at which
/// they could not be used.
pub fn dropped_sheet(random: &mut Random, month: u16) -> Sheet {
    let pattern = 1 + random.below(PATTERNS);
    let mut sheet = Sheet {
        profile: None,
        month,
        rates: shaped_rates(random),
        volumes: volumes_of(random, pattern),
        ufr: ufr(random),
        limit: LARGEST_LIMIT,
        phase_in: None,
        adjustment: None,
    };
    if random.one_in(4) {
        phase_in(random, &mut sheet);
    }
    if random.one_in(8) {
        move_an_end(random, &mut sheet);
    }
    for i in dropped(&sheet) {
        sheet.rates[i] = match random.below(5) {
            0 | 1 => HIGHEST_QUOTE as i16,
            2 => LOWEST_QUOTE as i16,
            3 => random.between(LOWEST_QUOTE, HIGHEST_QUOTE) as i16,
            _ => sheet.rates[i],
        };
    }
    sheet.limit = limit(random, &sheet);
    sheet
}

/// Rates of every size: long gaps start from large factors after rates below 0, from small ones
/// after high rates.
fn shaped_rates(random: &mut Random) -> [i16; 17] {
    let (low, high, noise) = match random.below(16) {
        0..=5 => return rates(random),
        6 => return steep_rates(random),
        7 => return vanishing_rates(random),
        // Every gap up to year 50 can be filled, and a trial of 30 years passes 64 bits.
        8 | 9 => (-1_300, -300, 20),
        // Late years are above 2 U, so that mostly shorter curves are accepted.
        10 | 11 => (-2_000, -1_300, 5),
        12 | 13 => (5_000, 11_000, 30),
        _ => (-50, 50, 50),
    };
    let level = random.between(low, high);
    [0; 17].map(|_| quote(level + random.between(-noise, noise)))
}

/// Steep rates at which so little is left of the tenth factor that a low mostly falls below 1
/// in a gap after year 20: what ground 7 is for there.
fn vanishing_rates(random: &mut Random) -> [i16; 17] {
    let largest = random.one_of(&[100, 1_000]);
    loop {
        let rates = steep_rates(random);
        if (1..=largest).contains(&tenth_factor(&rates).low) {
            return rates;
        }
    }
}

fn tenth_factor(rates: &[i16; 17]) -> Enclosure {
    par_factors(&rates[..10])[9]
}

/// Moves the rate at the end of a gap beyond 20 to where an end of the halving is near.
fn move_an_end(random: &mut Random, sheet: &mut Sheet) {
    let ends: Vec<usize> = (QUOTE_20 + 1..MATURITIES.len())
        .filter(|&i| sheet.volumes[i - QUOTE_20] > 0)
        .collect();
    if ends.is_empty() || Curve::plain(sheet).is_err() {
        return;
    }
    let i = random.one_of(&ends);
    move_to_edge(random, sheet, i);
}

/// The indices of the quotes that are dropped.
fn dropped(sheet: &Sheet) -> Vec<usize> {
    let used: Vec<usize> = used_quotes(sheet).map(|quote| quote.maturity).collect();
    let maturities = sheet.market().maturities;
    (0..maturities.len())
        .filter(|&i| !used.contains(&usize::from(maturities[i])))
        .collect()
}

/// What a post brings: most often a sheet with dropped quotes, else one in which such a quote,
/// though not used, has a rate out of its range, another maturity or another kind.
pub fn typed_dropped_sheet(random: &mut Random, month: u16) -> Vec<u8> {
    let sheet = dropped_sheet(random, month);
    let mut bytes = sheet_bytes(&sheet);
    let dropped = dropped(&sheet);
    if !dropped.is_empty() && random.one_in(8) {
        let record = &mut bytes[3 + 4 * random.one_of(&dropped)..][..4];
        match random.below(4) {
            0 => record[0] = random.below(256) as u8,
            1 => record[1] = random.below(256) as u8,
            2 => record[2..].copy_from_slice(&(random.below(65_536) as u16).to_be_bytes()),
            _ => {
                let just_outside: i16 = random.one_of(&[-2_001, 12_001, i16::MIN, i16::MAX]);
                record[2..].copy_from_slice(&just_outside.to_be_bytes());
            }
        }
    }
    bytes
}

/// The gaps that run on over a dropped maturity, by their ends, from 10 to 30 years.
pub const MERGED_GAPS: [(usize, usize); 6] =
    [(20, 30), (25, 40), (20, 40), (30, 50), (25, 50), (20, 50)];

/// What became of posts with dropped quotes, on which none of grounds 19 and 1 to 4 applies.
#[derive(Clone, Debug, Default, PartialEq, Eq)]
pub struct DroppedPosts {
    pub all: Tally,
    /// By where the used quotes end.
    by_last: BTreeMap<usize, Tally>,
    /// By the ends of the gap; a post may have two.
    by_gap: BTreeMap<(usize, usize), Tally>,
}

impl DroppedPosts {
    /// Counts a post that brought these bytes.
    pub fn count(&mut self, sheet: &[u8], accepted: bool) {
        let Ok(sheet) = Sheet::read(sheet) else {
            return;
        };
        let used: Vec<usize> = used_quotes(&sheet).map(|quote| quote.maturity).collect();
        if used.len() == sheet.market().maturities.len() {
            return;
        }
        self.all.count(accepted);
        let last = used[used.len() - 1];
        self.by_last.entry(last).or_default().count(accepted);
        for gap in used.windows(2).map(|ends| (ends[0], ends[1])) {
            if MERGED_GAPS.contains(&gap) {
                self.by_gap.entry(gap).or_default().count(accepted);
            }
        }
    }

    /// The posts with this merged gap.
    pub fn of_gap(&self, gap: (usize, usize)) -> Tally {
        self.by_gap.get(&gap).copied().unwrap_or_default()
    }

    /// Says which merged gap was not accepted even once.
    pub fn check(&self) -> Result<(), String> {
        match MERGED_GAPS
            .iter()
            .find(|&&gap| self.of_gap(gap).accepted == 0)
        {
            Some((start, end)) => Err(format!("no sheet with a gap {start}-{end} was accepted")),
            None => Ok(()),
        }
    }
}

impl fmt::Display for DroppedPosts {
    fn fmt(&self, f: &mut fmt::Formatter<'_>) -> fmt::Result {
        write!(f, "posts with dropped quotes: {}", self.all)?;
        for (last, tally) in &self.by_last {
            write!(f, "\n  quotes to {last}: {tally}")?;
        }
        for (start, end) in MERGED_GAPS {
            let (years, tally) = (end - start, self.of_gap((start, end)));
            write!(f, "\n  merged gap of {years} years, {start}-{end}: {tally}")?;
        }
        Ok(())
    }
}
