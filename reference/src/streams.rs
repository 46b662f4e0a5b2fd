//! Seeded sheets and record streams: ordinary, extreme and damaged ones, for
//! comparing two desks on the same input.

use crate::adjusted::{adjustment, typed_adjusted_sheet};
use crate::bootstrap::par_factor;
use crate::convergence::{TEN_PERCENT, X_OUTSIDE_PHASE_IN};
use crate::curve::{Curve, Curves, YEARS};
use crate::dropped::typed_dropped_sheet;
use crate::enclosure::{Enclosure, RATE_UNIT, U};
use crate::journal::{look_up, post, turn, withdrawal};
use crate::known::known_sheet;
use crate::market::{Market, MATURITIES};
use crate::profiled::{in_market, typed_profiled_sheet};
use crate::sheet::Sheet;

pub(crate) const LARGEST_LIMIT: u32 = 100_000;

/// The lowest and the highest rate that a sheet may quote.
pub(crate) const LOWEST_QUOTE: i64 = -2_000;
pub(crate) const HIGHEST_QUOTE: i64 = 12_000;

/// Bytes of a sheet without a record for the phase-in or the adjustment.
pub(crate) const REQUIRED_LENGTH: usize = 109;

/// Repeatable random numbers (splitmix64): the same seed gives the same stream on
/// every machine.
pub struct Random(u64);

impl Random {
    pub fn new(seed: u64) -> Self {
        Random(seed)
    }

    pub fn number(&mut self) -> u64 {
        self.0 = self.0.wrapping_add(0x9E37_79B9_7F4A_7C15);
        let mut z = self.0;
        z = (z ^ (z >> 30)).wrapping_mul(0xBF58_476D_1CE4_E5B9);
        z = (z ^ (z >> 27)).wrapping_mul(0x94D0_49BB_1331_11EB);
        z ^ (z >> 31)
    }

    /// A number from 0 to `bound` - 1.
    pub fn below(&mut self, bound: u64) -> u64 {
        self.number() % bound
    }

    /// A number from `low` to `high`, both included.
    pub fn between(&mut self, low: i64, high: i64) -> i64 {
        low + self.below((high - low + 1) as u64) as i64
    }

    /// True once in `count` times.
    pub fn one_in(&mut self, count: u64) -> bool {
        self.below(count) == 0
    }

    /// One of `choices`.
    pub fn one_of<T: Copy>(&mut self, choices: &[T]) -> T {
        choices[self.below(choices.len() as u64) as usize]
    }
}

/// A sheet's bytes.
pub fn sheet_bytes(sheet: &Sheet) -> Vec<u8> {
    let market = sheet.market();
    let mut bytes = Vec::new();
    if let Some(market) = sheet.profile {
        bytes.extend([0x08, market.profile]);
    }
    bytes.push(0x01);
    bytes.extend(sheet.month.to_be_bytes());
    for (maturity, rate) in market.maturities.iter().zip(sheet.rates) {
        bytes.extend([0x02, *maturity]);
        bytes.extend(rate.to_be_bytes());
    }
    for (maturity, volume) in market.volume_maturities.iter().zip(sheet.volumes) {
        bytes.extend([0x03, *maturity]);
        bytes.extend(volume.to_be_bytes());
    }
    bytes.push(0x04);
    bytes.extend(sheet.ufr.to_be_bytes());
    bytes.push(0x05);
    bytes.extend(sheet.limit.to_be_bytes());
    if let Some(x) = sheet.phase_in {
        bytes.push(0x06);
        bytes.extend(x.to_be_bytes());
    }
    if let Some(adjustment) = sheet.adjustment {
        bytes.push(0x07);
        bytes.extend(adjustment.to_be_bytes());
    }
    bytes
}

/// The rate cut to what a sheet may quote.
pub(crate) fn quote(rate: i64) -> i16 {
    rate.clamp(LOWEST_QUOTE, HIGHEST_QUOTE) as i16
}

/// Halves the way from a number that passes to one that does not: the last on it that passes and
/// the next one, where all that pass come first.
pub(crate) fn edge(
    mut passes: i64,
    mut fails: i64,
    mut accepts: impl FnMut(i64) -> bool,
) -> (i64, i64) {
    while (fails - passes).abs() > 1 {
        let middle = (fails + passes) / 2;
        if accepts(middle) {
            passes = middle;
        } else {
            fails = middle;
        }
    }
    (passes, fails)
}

/// Moves the rate at the quote `i` of an accepted sheet to the last that is accepted on the way to an
/// end of its range, or to the next one, which is not.
pub(crate) fn move_to_edge(random: &mut Random, sheet: &mut Sheet, i: usize) {
    // One step past the range counts as refused, where the whole range is accepted.
    let fails = random.one_of(&[LOWEST_QUOTE - 1, HIGHEST_QUOTE + 1]);
    let (passes, fails) = edge(i64::from(sheet.rates[i]), fails, |rate| {
        sheet.rates[i] = rate as i16;
        Curve::plain(sheet).is_ok()
    });
    sheet.rates[i] = quote(random.one_of(&[passes, fails]));
}

/// Rates of one shape: a level, a slope over the maturities, and noise.
pub(crate) fn rates(random: &mut Random) -> [i16; 17] {
    let level = random.between(-600, 5_000);
    let slope = match random.below(5) {
        0 => 0,
        1 | 2 => random.between(-40, 60),
        3 => random.between(-150, 150),
        _ => random.between(-12, 12),
    };
    let noise = [0, 5, 40, 200, 1_500][random.below(5) as usize];
    let mut rates = [0; 17];
    for (rate, maturity) in rates.iter_mut().zip(MATURITIES) {
        let shaped = level + slope * i64::from(maturity) + random.between(-noise, noise);
        *rate = quote(shaped);
    }
    if random.one_in(15) {
        step(random, &mut rates);
    }
    if random.one_in(12) {
        rates[random.below(17) as usize] = [-2_000, 12_000, 0, -1, 1][random.below(5) as usize];
    }
    rates
}

/// A step from very low to very high rates: what grounds 7 and 9 are for.
fn step(random: &mut Random, rates: &mut [i16; 17]) {
    let at = 1 + random.below(15) as usize;
    let (low, high) = (random.between(-2_000, -500), random.between(6_000, 12_000));
    for (i, rate) in rates.iter_mut().enumerate() {
        *rate = if i < at { low } else { high } as i16;
    }
}

/// Volumes: ordinary, extreme, or zero in some pattern.
fn volumes(random: &mut Random) -> [u32; 5] {
    let pattern = if random.one_in(3) {
        random.below(32)
    } else {
        31
    };
    volumes_of(random, pattern)
}

/// Volumes above 0 where `pattern` has a bit, that of maturity 20 being the lowest.
pub(crate) fn volumes_of(random: &mut Random, pattern: u64) -> [u32; 5] {
    let mut volumes = [0; 5];
    for (i, volume) in volumes.iter_mut().enumerate() {
        if pattern >> i & 1 == 1 {
            *volume = match random.below(4) {
                0 => 1,
                1 => 1_000_000,
                _ => random.between(1, 5_000) as u32,
            };
        }
    }
    volumes
}

/// A sheet of `month` whose numbers are in their ranges (its volumes may all be 0).
pub fn sheet(random: &mut Random, month: u16) -> Sheet {
    let mut sheet = Sheet {
        profile: None,
        month,
        rates: rates(random),
        volumes: volumes(random),
        ufr: ufr(random),
        limit: LARGEST_LIMIT,
        phase_in: None,
        adjustment: None,
    };
    if random.one_in(2) {
        phase_in(random, &mut sheet);
    }
    sheet.limit = limit(random, &sheet);
    sheet
}

/// An ultimate forward rate: ordinary, or at an end of its range.
pub(crate) fn ufr(random: &mut Random) -> u16 {
    match random.below(6) {
        0 => 0,
        1 => 10_000,
        _ => random.between(0, 6_000) as u16,
    }
}

/// A limit for the sheet, which has the largest: narrow, at its widest band or just below, or
/// most often the largest.
pub(crate) fn limit(random: &mut Random, sheet: &Sheet) -> u32 {
    match random.below(8) {
        0 => random.between(1, 3_000) as u32,
        1 => widest(sheet),
        2 => widest(sheet).max(2) - 1,
        _ => LARGEST_LIMIT,
    }
}

/// Gives the sheet an X and, most often, a rate of the smoothing year on which its convergence factor
/// depends or that lies at an end of these rates; the other rates move with it.
pub(crate) fn phase_in(random: &mut Random, sheet: &mut Sheet) {
    sheet.phase_in = Some(match random.below(8) {
        0 => X_OUTSIDE_PHASE_IN,
        1 => X_OUTSIDE_PHASE_IN + 1,
        2 | 3 => 20_000,
        _ => random.between(10_000, 20_000) as u16,
    });
    let smoothing_rate = match random.below(8) {
        0 => return,
        1 => [-501, -500, -499, 499, 500, 501][random.below(6) as usize],
        _ => random.between(-600, 600),
    };
    let shift = smoothing_rate - i64::from(sheet.smoothing_rate());
    let quotes = sheet.quoted_rates().len();
    for rate in &mut sheet.rates[..quotes] {
        *rate = quote(i64::from(*rate) + shift);
    }
}

/// The widest band of the sheet's plain curve, so that a limit can stand at it or just below.
fn widest(sheet: &Sheet) -> u32 {
    worked(sheet).map_or(LARGEST_LIMIT, |curves| widest_band(&curves.plain))
}

/// The widest band of the curve, as the least limit within which it is.
pub fn widest_band(curve: &Curve) -> u32 {
    let widths = (1..=YEARS).map(|year| curve.factor(year).width());
    widths.max().map_or(1, |width| width.max(1) as u32)
}

/// The curves of a sheet in range, unless ground 4 or 7 to 10 applies.
pub fn worked(sheet: &Sheet) -> Option<Curves> {
    let traded = sheet.volumes.iter().any(|&volume| volume > 0);
    traded.then(|| Curves::of(sheet).ok()).flatten()
}

/// A sheet whose ninth or tenth factor is next to 0: what ground 17 is for. Its years from
/// there to about 20 mostly have no high rate; nor have its last ones, where a high ultimate
/// forward rate takes lows to 0. A band of such a factor is narrow, so no limit is set.
pub fn steep_sheet(random: &mut Random, month: u16) -> Sheet {
    Sheet {
        profile: None,
        month,
        rates: steep_rates(random),
        volumes: volumes(random),
        ufr: match random.below(3) {
            0 => 10_000,
            1 => random.between(5_000, 10_000) as u16,
            _ => random.between(0, 10_000) as u16,
        },
        limit: LARGEST_LIMIT,
        // Without effect at such a 20-year rate, but read.
        phase_in: random
            .one_in(4)
            .then(|| random.between(10_000, 20_000) as u16),
        adjustment: None,
    }
}

/// Low rates, then the highest that leaves a factor of 1 or more, or a little less than that,
/// for all later maturities: only with such a tail can every gap be filled.
pub(crate) fn steep_rates(random: &mut Random) -> [i16; 17] {
    // Eight years add up to enough only below 0.
    let (low_years, level) = if random.one_in(3) {
        (8, random.between(-1_900, -1_050))
    } else {
        (9, random.between(-1_500, 1_400))
    };
    let mut rates = [0; 17];
    let mut annuity = Enclosure::ZERO;
    for rate in &mut rates[..low_years] {
        *rate = (level + random.between(-30, 30)) as i16;
        annuity = annuity.plus(par_factor(i128::from(*rate), annuity));
    }
    let below_highest = match random.below(4) {
        0 | 1 => 0,
        2 => random.between(0, 12),
        _ => random.between(0, 60),
    };
    rates[low_years..].fill((highest_rate(annuity) - below_highest) as i16);
    if random.one_in(4) {
        rates[low_years + random.below(17 - low_years as u64) as usize] -= 1;
    }
    rates
}

/// The highest rate at which the next factor by par has a low of 1 or more, and that a sheet
/// may quote.
fn highest_rate(annuity: Enclosure) -> i64 {
    let rate = RATE_UNIT * (U - 1) / (annuity.high + 1);
    HIGHEST_QUOTE.min(rate as i64)
}

/// The zero sheet of `month`: rates and UFR 0, volumes 1, limit 100,000.
pub fn zero_sheet(month: u16) -> Sheet {
    Sheet {
        profile: None,
        month,
        rates: [0; 17],
        volumes: [1; 5],
        ufr: 0,
        limit: LARGEST_LIMIT,
        phase_in: None,
        adjustment: None,
    }
}

/// A sheet in the shape of the end of November 2020: its 20-year rate is near 0, so that its
/// convergence factor follows X.
pub fn low_rates(month: u16, phase_in: Option<u16>) -> Sheet {
    Sheet {
        profile: None,
        month,
        rates: [
            -52, -53, -51, -48, -44, -39, -33, -27, -21, -15, -4, 5, 14, 12, 8, -2, -9,
        ],
        volumes: [14, 5, 40, 6, 8],
        ufr: 360,
        limit: LARGEST_LIMIT,
        phase_in,
        adjustment: None,
    }
}

/// What a post brings: most often a sheet, else one with any byte in one place, with a wrong
/// last record, or of another length.
pub fn typed_sheet(random: &mut Random, month: u16) -> Vec<u8> {
    let mut bytes = sheet_bytes(&sheet(random, month));
    match random.below(24) {
        0..=3 => {
            let at = random.below(bytes.len() as u64) as usize;
            bytes[at] = random.below(256) as u8;
        }
        4 => {
            bytes.truncate(REQUIRED_LENGTH);
            bytes.extend(wrong_phase_in(random));
        }
        5 => {
            let length = other_length(random);
            bytes.resize_with(length, || random.below(256) as u8);
        }
        _ => {}
    }
    bytes
}

/// Three bytes for the phase-in's record whose kind is mostly another, or whose X is mostly
/// outside its range.
fn wrong_phase_in(random: &mut Random) -> [u8; 3] {
    let (kind, x) = match random.below(4) {
        0 => (random.below(256), random.between(10_000, 20_000)),
        1 => ([0, 5, 7, 8][random.below(4) as usize], 20_000),
        2 => (6, [0, 9_999, 20_001, 65_535][random.below(4) as usize]),
        _ => (6, random.between(0, 65_535)),
    };
    let [high, low] = (x as u16).to_be_bytes();
    [kind as u8, high, low]
}

/// A length that mostly no sheet has: around 109 and 112, or these in the low byte alone.
fn other_length(random: &mut Random) -> usize {
    const NEAR: [u64; 12] = [0, 1, 2, 108, 110, 111, 113, 114, 115, 116, 365, 368];
    let length = match random.below(20) {
        0 => random.below(65_536),
        1..=4 => random.below(300),
        _ => NEAR[random.below(12) as usize],
    };
    length as usize
}

/// One record of a desk's stream.
fn record(random: &mut Random, told: &mut u16) -> Vec<u8> {
    match random.below(10) {
        0 | 1 => turn(told_month(random, told)),
        2..=5 => look_up(if random.one_in(15) {
            random.below(256) as u8
        } else {
            1 + random.below(150) as u8
        }),
        _ => {
            let month = sheet_month(random, *told);
            post(&typed_sheet(random, month))
        }
    }
}

/// The month of a turn, which becomes the told one where it is accepted.
fn told_month(random: &mut Random, told: &mut u16) -> u16 {
    let month = match random.below(8) {
        0 => random.below(65_536) as u16,
        1 => told.saturating_sub(1),
        _ => told.saturating_add(random.below(3) as u16),
    };
    if (*told..=2_399).contains(&month) {
        *told = month;
    }
    month
}

fn sheet_month(random: &mut Random, told: u16) -> u16 {
    match random.below(10) {
        0 => told.saturating_add(1),
        1 => told.saturating_sub(2),
        _ => told,
    }
}

/// The post of a steep sheet and look-ups of it: before and around year 20, anywhere after it,
/// and anywhere.
fn steep_records(random: &mut Random, told: u16) -> Vec<u8> {
    let mut records = post(&sheet_bytes(&steep_sheet(random, told)));
    for (first, last) in [(8, 24), (21, 150), (1, 150)] {
        records.extend(look_up(random.between(first, last) as u8));
    }
    records
}

/// The post of a sheet with dropped quotes and look-ups of it: in the years that its gaps
/// reach, anywhere after 20, and anywhere.
fn dropped_records(random: &mut Random, told: u16) -> Vec<u8> {
    let mut records = post(&typed_dropped_sheet(random, told));
    for (first, last) in [(18, 52), (21, 150), (1, 150)] {
        records.extend(look_up(random.between(first, last) as u8));
    }
    records
}

/// The post of a sheet with an adjustment and look-ups, which are of its plain curve: on both
/// sides of year 20, and anywhere.
fn adjusted_records(random: &mut Random, told: u16) -> Vec<u8> {
    let mut records = post(&typed_adjusted_sheet(random, told));
    for (first, last) in [(1, 20), (21, 150), (1, 150)] {
        records.extend(look_up(random.between(first, last) as u8));
    }
    records
}

/// The post of a sheet that meets a known argument and look-ups of it: next to year 20, where what
/// it meets starts to show, in the last years, and anywhere.
fn known_records(random: &mut Random, told: u16) -> Vec<u8> {
    let mut records = post(&sheet_bytes(&known_sheet(random, told)));
    for (first, last) in [(20, 22), (140, 150), (1, 150)] {
        records.extend(look_up(random.between(first, last) as u8));
    }
    records
}

/// The post of a sheet with a profile record and look-ups of it: around the smoothing years, past
/// them, and anywhere.
fn profiled_records(random: &mut Random, told: u16) -> Vec<u8> {
    let mut records = post(&typed_profiled_sheet(random, told));
    for (first, last) in [(8, 17), (16, 150), (1, 150)] {
        records.extend(look_up(random.between(first, last) as u8));
    }
    records
}

/// A stream of `count` whole records.
pub fn records(random: &mut Random, count: usize) -> Vec<u8> {
    let mut told = 0;
    let mut stream = Vec::new();
    for _ in 0..count {
        stream.extend(record(random, &mut told));
    }
    stream
}

/// A stream of `count` records, and a few of a steep sheet after one in 60 of them, of a sheet
/// with dropped quotes after one in 8, of one with an adjustment after one in 5, of one that
/// meets a known argument after one in 10 and of one with a profile record after one in 4, so that
/// the other grounds are met as often as without.
pub fn whole_stream(random: &mut Random, count: usize) -> Vec<u8> {
    let mut told = 0;
    let mut stream = Vec::new();
    for _ in 0..count {
        stream.extend(record(random, &mut told));
        if random.one_in(60) {
            stream.extend(steep_records(random, told));
        }
        if random.one_in(8) {
            stream.extend(dropped_records(random, told));
        }
        if random.one_in(5) {
            stream.extend(adjusted_records(random, told));
        }
        if random.one_in(10) {
            stream.extend(known_records(random, told));
        }
        if random.one_in(4) {
            stream.extend(profiled_records(random, told));
        }
    }
    stream
}

/// A whole stream, sometimes cut, with any byte in one place (a wrong length shifts all that
/// follows), or ended by any kind.
pub fn stream(seed: u64, count: usize) -> Vec<u8> {
    let mut random = Random::new(seed);
    let mut stream = whole_stream(&mut random, count);
    let at = random.below(stream.len() as u64 + 1) as usize;
    match random.below(8) {
        0 => stream.truncate(at),
        1 if at < stream.len() => stream[at] = random.below(256) as u8,
        2 => stream.push(random.below(256) as u8),
        _ => {}
    }
    stream
}

/// What a measured post has beside the quotes that are always used.
#[derive(Clone, Copy, Debug, PartialEq, Eq)]
pub enum Measured {
    /// All quotes are used and the weights are those of the table.
    Plain,
    /// An X, and a convergence factor that is not that of the table.
    PhaseIn,
    /// No volume at 30 and 40, so that the gap 25-50 is filled in place of three.
    TwoDropped,
    /// An adjustment, so that a second curve is worked.
    Adjusted,
    /// A profile record of a smaller market, which has fewer quotes and more extrapolated years.
    Smaller(Market),
}

impl Measured {
    const ALL: [Measured; 6] = [
        Measured::Plain,
        Measured::PhaseIn,
        Measured::TwoDropped,
        Measured::Adjusted,
        Measured::Smaller(Market::TO_10),
        Measured::Smaller(Market::TO_15),
    ];

    /// The sheet, which has an X, an adjustment and all volumes, in this form.
    fn form(self, sheet: &Sheet) -> Sheet {
        let [v20, v25, _, _, v50] = sheet.volumes;
        let formed = Sheet {
            volumes: match self {
                Measured::TwoDropped => [v20, v25, 0, 0, v50],
                _ => sheet.volumes,
            },
            phase_in: sheet.phase_in.filter(|_| self == Measured::PhaseIn),
            adjustment: sheet.adjustment.filter(|_| self == Measured::Adjusted),
            ..sheet.clone()
        };
        match self {
            Measured::Smaller(market) => in_market(&formed, market),
            _ => formed,
        }
    }
}

/// `count` accepted posts of one month, for measuring, and a look-up, which shows that the last
/// was worked. They are of the same sheets in every case, each of them accepted in all forms.
pub fn accepted_posts(seed: u64, count: usize, measured: Measured) -> Vec<u8> {
    measured_stream(accepted_records(seed, count, measured))
}

/// The journal of `accepted_posts` with a withdrawal in place of every third post, for measuring
/// withdrawals beside it. Each of them is accepted, as it has two posts before it.
pub fn posts_and_withdrawals(seed: u64, count: usize, measured: Measured) -> Vec<u8> {
    let mut records = accepted_records(seed, count, measured);
    for third in records.iter_mut().skip(2).step_by(3) {
        *third = withdrawal();
    }
    measured_stream(records)
}

/// The told month of the posts, the records, and a look-up.
fn measured_stream(records: Vec<Vec<u8>>) -> Vec<u8> {
    [turn(1), records.concat(), look_up(YEARS as u8)].concat()
}

/// `count` accepted posts of month 1.
fn accepted_records(seed: u64, count: usize, measured: Measured) -> Vec<Vec<u8>> {
    let mut random = Random::new(seed);
    let mut records = Vec::new();
    while records.len() < count {
        let mut sheet = sheet(&mut random, 1);
        sheet.limit = LARGEST_LIMIT;
        sheet.adjustment = Some(adjustment(&mut random));
        let suits = sheet.convergence() != TEN_PERCENT && sheet.volumes.iter().all(|&v| v > 0);
        let accepted = |form: &Measured| worked(&form.form(&sheet)).is_some();
        if suits && Measured::ALL.iter().all(accepted) {
            records.push(post(&sheet_bytes(&measured.form(&sheet))));
        }
    }
    records
}

/// An accepted post and `count` look-ups of one year of its curve, for measuring.
pub fn look_ups(year: u8, count: usize) -> Vec<u8> {
    let mut stream = post(&sheet_bytes(&low_rates(0, None)));
    stream.extend(look_up(year).repeat(count));
    stream
}
