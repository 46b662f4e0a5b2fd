//! Seeded sheets that meet an argument whose value is known, U in a logarithm or 0 in a growth, and
//! a count of the accepted posts that a slack of 1 there, the earlier rule, would show or answer
//! otherwise.

use std::collections::BTreeMap;
use std::fmt;
use std::ops::RangeInclusive;

use crate::adjusted::adjustment;
use crate::curve::{Curve, Curves, Which, YEARS};
use crate::enclosure::{Enclosure, U};
use crate::market::{Market, MATURITIES, QUOTE_20};
use crate::series::AtKnown;
use crate::sheet::Sheet;
use crate::streams::{
    quote, rates, ufr, volumes_of, widest_band, worked, Random, HIGHEST_QUOTE, LARGEST_LIMIT,
    LOWEST_QUOTE,
};

/// The pattern of volumes that are all above 0.
const ALL_TRADED: u64 = 31;

/// A sheet of `month` with a gap whose forward is 0, an ultimate forward rate of 0 or an adjustment
/// of 0, often with several of them. The numbers are in their ranges, and most are accepted.
pub fn known_sheet(random: &mut Random, month: u16) -> Sheet {
    let shape = random.below(8);
    let mut sheet = Sheet {
        profile: None,
        month,
        rates: known_rates(random, shape),
        volumes: volumes(random),
        ufr: match shape {
            0..=4 => 0,
            _ => ufr(random),
        },
        limit: LARGEST_LIMIT,
        phase_in: random
            .one_in(4)
            .then(|| random.between(10_000, 20_000) as u16),
        adjustment: match random.below(4) {
            // The last shape meets nothing else.
            _ if shape == 7 => Some(0),
            0 | 1 => Some(0),
            2 => Some(adjustment(random)),
            _ => None,
        },
    };
    untrade(random, &mut sheet);
    sheet.limit = limit(random, &sheet);
    sheet
}

/// Rates of 0, from the first maturity, from a later one or as far as 20; or of any shape, where the
/// sheet meets 0 elsewhere. After any rates one of 0 makes a factor of exactly U.
fn known_rates(random: &mut Random, shape: u64) -> [i16; 17] {
    let mut zeros = [0; 17];
    let any = match shape {
        0 | 1 => return zeros,
        2 => &mut zeros[..random.between(1, 12) as usize],
        5 => &mut zeros[..random.between(0, 12) as usize],
        6 => &mut zeros[QUOTE_20 + 1..],
        _ => return rates(random),
    };
    for rate in any {
        *rate = random.between(-300, 300) as i16;
    }
    zeros
}

/// Volumes that are mostly all above 0, and never all 0.
fn volumes(random: &mut Random) -> [u32; 5] {
    let pattern = match random.below(3) {
        0 => random.between(1, 30) as u64,
        _ => ALL_TRADED,
    };
    volumes_of(random, pattern)
}

/// Gives each quote beyond 20 without volume any rate: it is not used.
fn untrade(random: &mut Random, sheet: &mut Sheet) {
    for i in QUOTE_20 + 1..MATURITIES.len() {
        if sheet.volumes[i - QUOTE_20] == 0 {
            sheet.rates[i] = quote(random.between(LOWEST_QUOTE, HIGHEST_QUOTE));
        }
    }
}

/// A limit for the sheet, which has the largest: the least; at the widest band of its curves, which
/// with the earlier slack mostly passes it, or just below; or the largest.
fn limit(random: &mut Random, sheet: &Sheet) -> u32 {
    let Some(curves) = worked(sheet) else {
        return LARGEST_LIMIT;
    };
    let both = Which::ALL.into_iter().filter_map(|which| curves.get(which));
    let widest = both.map(widest_band).max().unwrap_or(1);
    match random.below(8) {
        0 => 1,
        1..=3 => widest,
        4 => widest.max(2) - 1,
        _ => LARGEST_LIMIT,
    }
}

/// What the earlier slack would show or answer otherwise of an accepted post.
#[derive(Clone, Copy, Debug, PartialEq, Eq, PartialOrd, Ord)]
pub enum Otherwise {
    PlainPast20,
    AdjustedTo20,
    AdjustedPast20,
    Refused,
    RefusedAlone,
    ExactAtTheLeastLimit,
}

impl Otherwise {
    /// Every one.
    pub const ALL: [Otherwise; 6] = [
        Otherwise::PlainPast20,
        Otherwise::AdjustedTo20,
        Otherwise::AdjustedPast20,
        Otherwise::Refused,
        Otherwise::RefusedAlone,
        Otherwise::ExactAtTheLeastLimit,
    ];

    /// What is otherwise of an accepted sheet with these curves.
    fn of(sheet: &Sheet, curves: &Curves) -> Vec<Otherwise> {
        // Where the sheet's limit is passed the curves are still compared.
        let unlimited = Sheet {
            limit: LARGEST_LIMIT,
            ..sheet.clone()
        };
        let Ok(earlier) = Curves::with(&unlimited, AtKnown::One) else {
            return vec![Otherwise::Refused];
        };
        let wider = |which, mut years: RangeInclusive<usize>| {
            let both = curves.get(which).zip(earlier.get(which));
            both.is_some_and(|(now, earlier)| {
                years.any(|year| now.factor(year) != earlier.factor(year))
            })
        };
        let passes_limit = |curve: &Curve| widest_band(curve) > sheet.limit;
        let plain = passes_limit(&earlier.plain);
        let adjusted = earlier.adjusted.as_ref().is_some_and(passes_limit);
        let met = [
            (Otherwise::PlainPast20, wider(Which::Plain, 21..=YEARS)),
            (Otherwise::AdjustedTo20, wider(Which::Adjusted, 1..=20)),
            (
                Otherwise::AdjustedPast20,
                wider(Which::Adjusted, 21..=YEARS),
            ),
            (Otherwise::Refused, plain || adjusted),
            (Otherwise::RefusedAlone, adjusted && !plain),
            (
                Otherwise::ExactAtTheLeastLimit,
                sheet.limit == 1 && is_exact(&curves.plain),
            ),
        ];
        let met = met.into_iter().filter(|(_, met)| *met);
        met.map(|(otherwise, _)| otherwise).collect()
    }
}

/// Whether every year is U to U.
fn is_exact(curve: &Curve) -> bool {
    (1..=YEARS).all(|year| curve.factor(year) == Enclosure::new(U, U))
}

impl fmt::Display for Otherwise {
    fn fmt(&self, f: &mut fmt::Formatter<'_>) -> fmt::Result {
        f.write_str(match self {
            Otherwise::PlainPast20 => "plain curve wider past year 20",
            Otherwise::AdjustedTo20 => "adjusted curve wider in years 1 to 20",
            Otherwise::AdjustedPast20 => "adjusted curve wider past year 20",
            Otherwise::Refused => "refused",
            Otherwise::RefusedAlone => "refused for the adjusted curve alone",
            Otherwise::ExactAtTheLeastLimit => "U to U in every year, at limit 1",
        })
    }
}

/// How many accepted posts the earlier slack would show or answer otherwise.
#[derive(Clone, Debug, Default, PartialEq, Eq)]
pub struct KnownPosts {
    met: BTreeMap<Otherwise, u64>,
    all: u64,
}

impl KnownPosts {
    /// Counts a post that brought these bytes; none that is refused is shown or answered otherwise,
    /// as no band is wider than earlier. Those of smaller markets are not counted here.
    pub fn count(&mut self, bytes: &[u8], accepted: bool) {
        let counted = |sheet: &Sheet| accepted && sheet.market() == Market::EURO;
        let Some(sheet) = Sheet::read(bytes).ok().filter(counted) else {
            return;
        };
        let curves = Curves::of(&sheet).expect("the curves of an accepted sheet");
        let met = Otherwise::of(&sheet, &curves);
        self.all += u64::from(!met.is_empty());
        for otherwise in met {
            *self.met.entry(otherwise).or_default() += 1;
        }
    }

    /// How many posts are otherwise in any way.
    pub fn all(&self) -> u64 {
        self.all
    }

    /// How many posts are otherwise in this way.
    pub fn of(&self, otherwise: Otherwise) -> u64 {
        self.met.get(&otherwise).copied().unwrap_or_default()
    }

    /// Says what was not met even once.
    pub fn check(&self) -> Result<(), String> {
        match Otherwise::ALL.iter().find(|&&o| self.of(o) == 0) {
            Some(otherwise) => Err(format!(
                "slack would change no accepted post so: {otherwise}"
            )),
            None => Ok(()),
        }
    }
}

impl fmt::Display for KnownPosts {
    fn fmt(&self, f: &mut fmt::Formatter<'_>) -> fmt::Result {
        let all = self.all;
        write!(
            f,
            "accepted posts that slack at known values would change: {all}"
        )?;
        for otherwise in Otherwise::ALL {
            write!(f, "\n  {otherwise}: {}", self.of(otherwise))?;
        }
        Ok(())
    }
}
