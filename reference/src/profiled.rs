//! Seeded sheets with a profile record, of the euro and of the smaller markets, bytes that start
//! like one and are none, and a count of what such posts met.

use std::collections::BTreeMap;
use std::fmt;

use crate::adjusted::{adjusted_sheet, adjustment_record, phase_in_record, Tail};
use crate::bootstrap::{par_factors, yearly_factor, LOWEST_YEARLY_FACTOR};
use crate::convergence::TEN_PERCENT;
use crate::counts::Tally;
use crate::curve::{Curve, Curves};
use crate::dropped::dropped_sheet;
use crate::known::known_sheet;
use crate::market::{Market, MATURITIES, MOST_VOLUMES};
use crate::refusal::Refusal;
use crate::series::AtKnown;
use crate::sheet::Sheet;
use crate::streams::{
    move_to_edge, phase_in, quote, rates, sheet, sheet_bytes, steep_rates, steep_sheet, ufr,
    widest_band, worked, zero_sheet, Random, LARGEST_LIMIT,
};

/// The kind of a profile record.
pub const PROFILE: u8 = 0x08;

/// The kind of an adjustment's record.
const ADJUSTMENT: u8 = 0x07;

/// A sheet of `month` with a profile record, its numbers in their ranges; two in 10 are the euro's.
pub fn profiled_sheet(random: &mut Random, month: u16) -> Sheet {
    let market = random.one_of(&Market::SMALLER);
    match random.below(10) {
        0 | 1 => Sheet {
            profile: Some(Market::EURO),
            ..euro_sheet(random, month)
        },
        2..=4 => harsh_sheet(random, market, month),
        _ => small_sheet(random, market, month),
    }
}

/// A sheet as it is seeded without a profile record.
fn euro_sheet(random: &mut Random, month: u16) -> Sheet {
    match random.below(8) {
        0 => dropped_sheet(random, month),
        1 => known_sheet(random, month),
        2 => steep_sheet(random, month),
        3..=5 => adjusted_sheet(random, month),
        _ => sheet(random, month),
    }
}

/// A sheet of `month` of a smaller market, its numbers in their ranges and its volume above 0.
pub fn small_sheet(random: &mut Random, market: Market, month: u16) -> Sheet {
    let any = Sheet {
        rates: shaped_rates(random, market),
        volumes: volume(random),
        ufr: ufr(random),
        ..zero_sheet(month)
    };
    let mut sheet = in_market(&any, market);
    if random.one_in(3) {
        phase_in(random, &mut sheet);
    }
    if random.one_in(10) && Curve::plain(&sheet).is_ok() {
        // An end of the halving, or of what x may be, is then near.
        move_to_edge(random, &mut sheet, market.smoothing_quote());
    }
    sheet.limit = limit(random, &sheet);
    sheet
}

/// A sheet of `month` of a smaller market that mostly is refused on 7 to 10, on each as often.
fn harsh_sheet(random: &mut Random, market: Market, month: u16) -> Sheet {
    let last = market.smoothing_quote();
    let (rates, limit) = match random.below(5) {
        0 => (vanishing_rates(random, 9), LARGEST_LIMIT),
        1 => (rising_factors(random, market), LARGEST_LIMIT),
        2 => (with_leap(random, last, 2_500, 5_000), LARGEST_LIMIT),
        3 => (with_leap(random, last - 1, 2_500, 5_000), LARGEST_LIMIT),
        // High rates, since each year's is widened by those before it.
        _ => ([random.between(4_000, 11_000) as i16; MATURITIES.len()], 1),
    };
    let sheet = Sheet {
        rates,
        volumes: volume(random),
        limit,
        ..zero_sheet(month)
    };
    in_market(&sheet, market)
}

/// What of a sheet without a profile record the market takes, with the record: its first quotes, its
/// first volume or volumes, and an adjustment where there are any.
pub fn in_market(sheet: &Sheet, market: Market) -> Sheet {
    let mut taken = Sheet {
        profile: Some(market),
        adjustment: sheet.adjustment.filter(|_| market.takes_adjustment),
        ..sheet.clone()
    };
    taken.rates[market.maturities.len()..].fill(0);
    taken.volumes[market.volume_maturities.len()..].fill(0);
    taken
}

/// A volume above 0 at the smoothing year: whatever it is, it does not show.
fn volume(random: &mut Random) -> [u32; MOST_VOLUMES] {
    let mut volumes = [0; MOST_VOLUMES];
    volumes[0] = match random.below(3) {
        0 => 1,
        1 => 1_000_000,
        _ => random.between(1, 5_000) as u32,
    };
    volumes
}

/// Rates of every shape.
fn shaped_rates(random: &mut Random, market: Market) -> [i16; MATURITIES.len()] {
    let last = market.smoothing_quote();
    match random.below(16) {
        0 => steep_rates(random),
        1 | 2 => known_rates(random, last),
        // The last forward before smoothing starts is far from the others, or too far.
        3 => with_leap(random, last, 0, 5_000),
        4 => with_leap(random, last, 0, 1_200),
        5 => rising_factors(random, market),
        6 => vanishing_rates(random, last),
        7 => [0; MATURITIES.len()].map(|_| random.between(-2_000, -1_400) as i16),
        _ => rates(random),
    }
}

/// Rates below 0 before the quote `first` and the highest from it on: they leave less than nothing
/// of the tenth factor, what ground 7 is for, and no gap reaches them.
fn vanishing_rates(random: &mut Random, first: usize) -> [i16; MATURITIES.len()] {
    let mut rates = [0; MATURITIES.len()];
    rates[..first].fill(random.between(-2_000, -1_000) as i16);
    rates[first..].fill(random.between(11_500, 12_000) as i16);
    rates
}

/// Rates of 0, in all years or in the last ones before smoothing starts: a forward that is known.
fn known_rates(random: &mut Random, last: usize) -> [i16; MATURITIES.len()] {
    let mut rates = [0; MATURITIES.len()];
    if random.one_in(2) {
        for rate in &mut rates[..last - 1] {
            *rate = random.between(-300, 300) as i16;
        }
    }
    rates
}

/// Rates of one level and another one, from `least` to `most` away, at the quote `at`.
fn with_leap(random: &mut Random, at: usize, least: i64, most: i64) -> [i16; MATURITIES.len()] {
    let level = random.between(-500, 5_000);
    let leap = random.between(least, most) * random.one_of(&[-1, 1]);
    let mut rates = [quote(level); MATURITIES.len()];
    rates[at] = quote(level + leap);
    rates
}

/// Rates that fall to the smoothing year's so far that factors rise: past it they mostly pass 2 U.
fn rising_factors(random: &mut Random, market: Market) -> [i16; MATURITIES.len()] {
    let level = random.between(-1_500, 1_000);
    let single = market.years_before_smoothing().count() == 1;
    let fall = if single { (700, 1_100) } else { (1_100, 1_800) };
    let mut rates = [quote(level); MATURITIES.len()];
    rates[market.smoothing_quote()] = quote(level - random.between(fall.0, fall.1));
    rates
}

/// A limit for the sheet, which has the largest: so narrow that a quoted year passes it, narrow, at
/// its widest band or just below, or most often the largest.
fn limit(random: &mut Random, sheet: &Sheet) -> u32 {
    let widest = || worked(sheet).map_or(LARGEST_LIMIT, |curves| widest_band(&curves.plain));
    match random.below(12) {
        0 => 1,
        1 => random.between(2, 3_000) as u32,
        2 => widest(),
        3 => widest().max(2) - 1,
        _ => LARGEST_LIMIT,
    }
}

/// What a post brings: most often a sheet with a profile record, else one with any byte in one
/// place, or bytes that are wrong in what the record changes. Most are of `month`, some of a month
/// that is too late or too early where it is the told one.
pub fn typed_profiled_sheet(random: &mut Random, month: u16) -> Vec<u8> {
    let month = match random.below(12) {
        0 => month.saturating_add(1),
        1 | 2 => month.saturating_sub(2),
        _ => month,
    };
    let sheet = profiled_sheet(random, month);
    match random.below(40) {
        0 => with_any_byte(random, sheet_bytes(&sheet)),
        1..=3 => with_other_profile(random, sheet_bytes(&sheet)),
        4..=8 => with_other_tail(random, sheet),
        9 | 10 => of_other_length(random, sheet_bytes(&sheet)),
        11 | 12 => start_of_a_record(random),
        13 => with_record_elsewhere(random, sheet),
        14..=16 => sheet_bytes(&Sheet {
            volumes: [0; MOST_VOLUMES],
            ..sheet
        }),
        _ => sheet_bytes(&sheet),
    }
}

fn with_any_byte(random: &mut Random, mut bytes: Vec<u8>) -> Vec<u8> {
    let at = random.below(bytes.len() as u64) as usize;
    bytes[at] = random.below(256) as u8;
    bytes
}

/// The sheet under any profile byte, most often one that names no market.
fn with_other_profile(random: &mut Random, mut bytes: Vec<u8>) -> Vec<u8> {
    bytes[1] = match random.below(4) {
        0 => random.one_of(&[1, 2, 3]),
        1 => random.below(256) as u8,
        _ => random.one_of(&[0, 4, 7, 8, 255]),
    };
    bytes
}

/// The sheet with other last records: an adjustment, which the smaller markets do not take, alone
/// and behind or before an X, and numbers outside their ranges.
fn with_other_tail(random: &mut Random, sheet: Sheet) -> Vec<u8> {
    let plain = Sheet {
        phase_in: None,
        adjustment: None,
        ..sheet
    };
    let x = phase_in_record(random.between(10_000, 20_000));
    let adjustment = adjustment_record(random.between(-500, 500));
    let outside = phase_in_record(random.one_of(&[0, 9_999, 20_001, 65_535]));
    let tail = match random.below(10) {
        0..=3 => adjustment.to_vec(),
        4 => [x, adjustment].concat(),
        5 => [adjustment, x].concat(),
        6 => vec![random.below(256) as u8, 0x27, 0x10],
        _ => outside.to_vec(),
    };
    [sheet_bytes(&plain), tail].concat()
}

/// The sheet cut, or with more bytes behind it.
fn of_other_length(random: &mut Random, mut bytes: Vec<u8>) -> Vec<u8> {
    let more = random.one_of(&[-6, -4, -3, -2, -1, 1, 2, 3, 4, 6]);
    let length = (bytes.len() as i64 + more) as usize;
    bytes.resize_with(length, || random.below(256) as u8);
    bytes
}

/// A profile record or only its kind, with hardly anything behind it.
fn start_of_a_record(random: &mut Random) -> Vec<u8> {
    let bytes = [PROFILE, random.below(5) as u8, 0x01];
    bytes[..random.one_of(&[1, 1, 2, 3])].to_vec()
}

/// The sheet without its profile record, with it twice, or with it behind the month or at the end.
fn with_record_elsewhere(random: &mut Random, sheet: Sheet) -> Vec<u8> {
    let bytes = sheet_bytes(&sheet);
    let (record, rest) = bytes.split_at(2);
    let (month, others) = rest.split_at(3);
    match random.below(4) {
        0 => rest.to_vec(),
        1 => [record, record, rest].concat(),
        2 => [month, record, others].concat(),
        _ => [rest, record].concat(),
    }
}

/// The sheets that must be accepted with a profile record, by profile and tail.
pub const FORMS: [(Market, Tail); 8] = [
    (Market::EURO, Tail::new(false, false)),
    (Market::EURO, Tail::new(true, false)),
    (Market::EURO, Tail::new(false, true)),
    (Market::EURO, Tail::new(true, true)),
    (Market::TO_10, Tail::new(false, false)),
    (Market::TO_10, Tail::new(true, false)),
    (Market::TO_15, Tail::new(false, false)),
    (Market::TO_15, Tail::new(true, false)),
];

/// A ground that sheets of a profile must meet, in one of some places.
#[derive(Clone, Copy, Debug, PartialEq, Eq)]
pub struct DueGround {
    /// The profile byte, 0 where it names no market.
    pub profile: u8,
    pub number: u8,
    pub places: (u16, u16),
}

const fn due(profile: u8, number: u8, places: (u16, u16)) -> DueGround {
    DueGround {
        profile,
        number,
        places,
    }
}

/// The grounds that must be met. Ground 8 comes past the smoothing year only: to year 15 no factor
/// passes 0.98^-15.
pub const GROUNDS: [DueGround; 24] = [
    due(0, 19, (0, 0)),
    due(1, 1, (0, 0)),
    due(2, 1, (0, 0)),
    due(3, 1, (0, 0)),
    due(2, 2, (16, 16)),
    due(3, 2, (18, 18)),
    due(2, 3, (16, 16)),
    due(3, 3, (18, 18)),
    due(2, 4, (0, 0)),
    due(3, 4, (0, 0)),
    due(2, 5, (0, 0)),
    due(3, 5, (0, 0)),
    due(2, 6, (0, 0)),
    due(3, 6, (0, 0)),
    due(2, 7, (10, 10)),
    due(3, 7, (10, 15)),
    due(2, 8, (11, 150)),
    due(3, 8, (16, 150)),
    due(2, 9, (10, 10)),
    due(3, 9, (12, 12)),
    due(3, 9, (15, 15)),
    due(2, 10, (1, 10)),
    due(2, 10, (11, 150)),
    due(3, 10, (1, 15)),
];

/// What else posts must meet.
#[derive(Clone, Copy, Debug, PartialEq, Eq, PartialOrd, Ord)]
pub enum Meeting {
    LoneKind,
    AdjustmentTurnedDown(u8),
    YearlyFactorTooLow,
    YearlyFactorTooHigh,
    OwnConvergence(u8),
    SlackWouldChange(u8),
}

impl Meeting {
    /// Every one.
    pub const ALL: [Meeting; 9] = [
        Meeting::LoneKind,
        Meeting::AdjustmentTurnedDown(2),
        Meeting::AdjustmentTurnedDown(3),
        Meeting::YearlyFactorTooLow,
        Meeting::YearlyFactorTooHigh,
        Meeting::OwnConvergence(2),
        Meeting::OwnConvergence(3),
        Meeting::SlackWouldChange(2),
        Meeting::SlackWouldChange(3),
    ];

    /// What bytes met that are refused so.
    fn of_refused(bytes: &[u8], refusal: Refusal) -> Option<Meeting> {
        match (bytes, refusal.number) {
            ([PROFILE], 1) => Some(Meeting::LoneKind),
            ([PROFILE, profile, .., ADJUSTMENT, _, _], 2) => {
                let market = Market::of_profile(*profile)?;
                let is_last = usize::from(refusal.place) == most_records(market);
                is_last.then_some(Meeting::AdjustmentTurnedDown(*profile))
            }
            ([PROFILE, 2, ..], 9) => {
                let years = par_factors(Sheet::read(bytes).ok()?.quoted_rates());
                let too_low = yearly_factor(years[8], years[9]).low < LOWEST_YEARLY_FACTOR;
                Some(match too_low {
                    true => Meeting::YearlyFactorTooLow,
                    false => Meeting::YearlyFactorTooHigh,
                })
            }
            _ => None,
        }
    }

    /// What an accepted sheet of a smaller market met.
    fn of_accepted(sheet: &Sheet, profile: u8) -> Vec<Meeting> {
        let earlier = Curves::with(sheet, AtKnown::One);
        let met = [
            (
                Meeting::OwnConvergence(profile),
                sheet.convergence() != TEN_PERCENT,
            ),
            (
                Meeting::SlackWouldChange(profile),
                earlier != Curves::of(sheet),
            ),
        ];
        let met = met.into_iter().filter(|(_, met)| *met);
        met.map(|(meeting, _)| meeting).collect()
    }
}

/// The place of the last record on the longest sheet of a smaller market: behind profile and month
/// come the quotes, a volume, the ultimate forward rate, the limit and an X.
fn most_records(market: Market) -> usize {
    market.maturities.len() + 6
}

impl fmt::Display for Meeting {
    fn fmt(&self, f: &mut fmt::Formatter<'_>) -> fmt::Result {
        match self {
            Meeting::LoneKind => f.write_str("a lone kind byte of the record refused"),
            Meeting::AdjustmentTurnedDown(profile) => {
                write!(f, "an adjustment refused under profile {profile}")
            }
            Meeting::YearlyFactorTooLow => f.write_str("year 10 over year 9 below the lower end"),
            Meeting::YearlyFactorTooHigh => f.write_str("year 10 over year 9 above the upper end"),
            Meeting::OwnConvergence(profile) => {
                write!(f, "a convergence factor above 10% under profile {profile}")
            }
            Meeting::SlackWouldChange(profile) => {
                write!(f, "a curve under profile {profile} that slack would change")
            }
        }
    }
}

/// What became of posts that start with the kind of a profile record.
#[derive(Clone, Debug, Default, PartialEq, Eq)]
pub struct MarketPosts {
    /// Of all posts, whatever they start with.
    posts: u64,
    profiled: u64,
    /// By profile byte and tail.
    forms: BTreeMap<(u8, Tail), Tally>,
    /// By profile byte, which is 0 where it names no market, number and place.
    grounds: BTreeMap<(u8, u8, u16), u64>,
    met: BTreeMap<Meeting, u64>,
}

impl MarketPosts {
    /// Counts a post that brought these bytes and was answered with this number, 0 if accepted.
    pub fn count(&mut self, bytes: &[u8], number: u8) {
        self.posts += 1;
        let Some((&PROFILE, rest)) = bytes.split_first() else {
            return;
        };
        self.profiled += 1;
        let named = rest.first().copied().and_then(Market::of_profile);
        let profile = named.map_or(0, |market| market.profile);
        let sheet = Sheet::read(bytes);
        if let Ok(sheet) = &sheet {
            let tail = Tail::of(sheet);
            let tally = self.forms.entry((profile, tail)).or_default();
            tally.count(number == 0);
        }
        match (number, sheet) {
            (0, Ok(sheet)) if profile > 1 => {
                for meeting in Meeting::of_accepted(&sheet, profile) {
                    *self.met.entry(meeting).or_default() += 1;
                }
            }
            (0, _) => {}
            (_, sheet) => self.count_refused(bytes, profile, refusal(sheet, number)),
        }
    }

    fn count_refused(&mut self, bytes: &[u8], profile: u8, refusal: Refusal) {
        let ground = (profile, refusal.number, refusal.place);
        *self.grounds.entry(ground).or_default() += 1;
        if let Some(meeting) = Meeting::of_refused(bytes, refusal) {
            *self.met.entry(meeting).or_default() += 1;
        }
    }

    /// The posts with this profile and tail.
    pub fn of_form(&self, (market, tail): (Market, Tail)) -> Tally {
        let tally = self.forms.get(&(market.profile, tail));
        tally.copied().unwrap_or_default()
    }

    /// The posts that were refused so.
    pub fn refused(&self, due: DueGround) -> u64 {
        let (first, last) = due.places;
        let key = |place| (due.profile, due.number, place);
        self.grounds
            .range(key(first)..=key(last))
            .map(|(_, times)| times)
            .sum()
    }

    /// How often this was met.
    pub fn of(&self, meeting: Meeting) -> u64 {
        self.met.get(&meeting).copied().unwrap_or_default()
    }

    /// Posts that start with the record's kind, of all.
    pub fn share(&self) -> (u64, u64) {
        (self.profiled, self.posts)
    }

    /// Says what was not met: a form that is accepted, a ground, or something else; or that sheets
    /// without the record were too few to stand for what came before it.
    pub fn check(&self) -> Result<(), String> {
        let accepted = |form: &&(Market, Tail)| self.of_form(**form).accepted > 0;
        if let Some((market, tail)) = FORMS.iter().find(|form| !accepted(form)) {
            let profile = market.profile;
            return Err(format!(
                "no sheet of profile {profile} with {tail} was accepted"
            ));
        }
        if let Some(due) = GROUNDS.iter().find(|&&due| self.refused(due) == 0) {
            return Err(format!("no post was refused so: {due}"));
        }
        if let Some(meeting) = Meeting::ALL.iter().find(|&&m| self.of(m) == 0) {
            return Err(format!("no post met {meeting}"));
        }
        if 3 * self.profiled > self.posts {
            return Err("more than a third of the posts have a profile record".to_string());
        }
        Ok(())
    }
}

/// Why a post was refused with this number: its place is found once more.
fn refusal(sheet: Result<Sheet, Refusal>, number: u8) -> Refusal {
    let found = sheet.and_then(|sheet| Curves::of(&sheet)).err();
    let same = found.filter(|refusal| refusal.number == number);
    // Grounds 5 and 6 have no place; they are the book's.
    same.unwrap_or(Refusal::plain(number))
}

impl fmt::Display for DueGround {
    fn fmt(&self, f: &mut fmt::Formatter<'_>) -> fmt::Result {
        let (first, last) = self.places;
        match self.profile {
            0 => f.write_str("no known profile")?,
            profile => write!(f, "profile {profile}")?,
        }
        write!(f, ", {}, ", self.number)?;
        match first == last {
            true => write!(f, "place {first}"),
            false => write!(f, "places {first} to {last}"),
        }
    }
}

impl fmt::Display for MarketPosts {
    fn fmt(&self, f: &mut fmt::Formatter<'_>) -> fmt::Result {
        let (profiled, posts) = self.share();
        write!(f, "posts with a profile record: {profiled} of {posts}")?;
        for (market, tail) in FORMS {
            let tally = self.of_form((market, tail));
            write!(f, "\n  profile {}, {tail}: {tally}", market.profile)?;
        }
        for due in GROUNDS {
            write!(f, "\n  refused on {due}: {}", self.refused(due))?;
        }
        for meeting in Meeting::ALL {
            write!(f, "\n  {meeting}: {}", self.of(meeting))?;
        }
        Ok(())
    }
}
