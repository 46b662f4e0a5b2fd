//! The markets whose curves the book takes: which maturities their sheets quote, and from which
//! year on their curves are smoothed.

use std::ops::RangeInclusive;

/// Every maturity that is quoted. A market quotes the first of them, as far as it goes.
pub const MATURITIES: [u8; 17] = [1, 2, 3, 4, 5, 6, 7, 8, 9, 10, 12, 15, 20, 25, 30, 40, 50];

/// The index of the euro's smoothing year in `MATURITIES`.
pub const QUOTE_20: usize = 12;

/// As many volumes as any market's sheets carry.
pub const MOST_VOLUMES: usize = 5;

/// A market, told by the profile of its sheets.
#[derive(Clone, Copy, Debug, PartialEq, Eq)]
pub struct Market {
    /// The byte that names it in a profile record.
    pub profile: u8,
    /// The quoted maturities in their order on the sheet.
    pub maturities: &'static [u8],
    /// The maturities whose traded volume is given, in their order on the sheet: the smoothing
    /// year and the quoted ones beyond it.
    pub volume_maturities: &'static [u8],
    /// Whether its sheets may have an adjustment.
    pub takes_adjustment: bool,
}

impl Market {
    /// The euro, whose sheets need no profile record.
    pub const EURO: Market = Market {
        profile: 1,
        maturities: &MATURITIES,
        volume_maturities: &[20, 25, 30, 40, 50],
        takes_adjustment: true,
    };

    /// The market that smooths from 10.
    pub const TO_10: Market = Market {
        profile: 2,
        maturities: MATURITIES.split_at(10).0,
        volume_maturities: &[10],
        takes_adjustment: false,
    };

    /// The market that smooths from 15.
    pub const TO_15: Market = Market {
        profile: 3,
        maturities: MATURITIES.split_at(12).0,
        volume_maturities: &[15],
        takes_adjustment: false,
    };

    /// Every market.
    pub const ALL: [Market; 3] = [Market::EURO, Market::TO_10, Market::TO_15];

    /// The smaller markets.
    pub const SMALLER: [Market; 2] = [Market::TO_10, Market::TO_15];

    /// The market that a profile record names by this byte.
    pub fn of_profile(profile: u8) -> Option<Market> {
        let mut all = Market::ALL.into_iter();
        all.find(|market| market.profile == profile)
    }

    /// The last year whose factor comes from the quotes: 000's first smoothing point.
    pub fn smoothing_year(self) -> usize {
        usize::from(self.volume_maturities[0])
    }

    /// The index of the smoothing year's quote: all later ones carry a volume each.
    pub fn smoothing_quote(self) -> usize {
        self.maturities.len() - self.volume_maturities.len()
    }

    /// The years of the last forward before smoothing starts: from the quote before the smoothing
    /// year, exclusive, to that year.
    pub fn years_before_smoothing(self) -> RangeInclusive<usize> {
        let before = self.maturities[self.smoothing_quote() - 1];
        usize::from(before) + 1..=self.smoothing_year()
    }

    /// The years over whose forwards each volume's mean is taken, in the order of the volumes: the
    /// last ones before smoothing starts, then those from the smoothing year to each maturity.
    pub fn mean_years(self) -> impl Iterator<Item = RangeInclusive<usize>> {
        let first = self.smoothing_year() + 1;
        let later = self.volume_maturities[1..].iter();
        let later = later.map(move |&maturity| first..=usize::from(maturity));
        std::iter::once(self.years_before_smoothing()).chain(later)
    }
}
