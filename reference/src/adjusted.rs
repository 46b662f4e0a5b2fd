//! Seeded sheets with an adjustment, tails of sheets that are wrong, and a count of what such
//! posts met.

use std::collections::BTreeMap;
use std::fmt;

use crate::convergence::X_OUTSIDE_PHASE_IN;
use crate::counts::Tally;
use crate::curve::{Curve, Curves};
use crate::dropped::dropped_sheet;
use crate::market::QUOTE_20;
use crate::profiled::PROFILE;
use crate::sheet::Sheet;
use crate::streams::{
    edge, quote, sheet, sheet_bytes, steep_sheet, widest_band, worked, Random, LARGEST_LIMIT,
    REQUIRED_LENGTH,
};

/// The least and the greatest adjustment that a sheet may have.
const LEAST: i64 = -500;
const GREATEST: i64 = 500;

/// A sheet of `month` with an adjustment, its numbers in their ranges. Some are refused for their
/// adjusted curve alone.
pub fn adjusted_sheet(random: &mut Random, month: u16) -> Sheet {
    let mut sheet = match random.below(8) {
        0 => steep_sheet(random, month),
        1 => dropped_sheet(random, month),
        2 | 3 => return high_sheet(random, month),
        _ => sheet(random, month),
    };
    sheet.adjustment = Some(adjustment(random));
    sheet.limit = limit(random, &sheet);
    sheet
}

/// An adjustment from anywhere in its range, at its ends, or at 0 or next to it.
pub fn adjustment(random: &mut Random) -> i16 {
    let adjustment = match random.below(8) {
        0 | 1 => random.one_of(&[LEAST, GREATEST]),
        2 => 0,
        3 => random.between(-3, 3),
        _ => random.between(LEAST, GREATEST),
    };
    adjustment as i16
}

/// A limit for the sheet: at or just below the widest band of its plain curve, where the adjusted
/// one mostly passes it, or of its adjusted curve; narrow; or most often the largest.
fn limit(random: &mut Random, sheet: &Sheet) -> u32 {
    let widest = Sheet {
        limit: LARGEST_LIMIT,
        ..sheet.clone()
    };
    let Some(Curves { plain, adjusted }) = worked(&widest) else {
        return LARGEST_LIMIT;
    };
    let adjusted = adjusted.expect("a sheet with an adjustment");
    match random.below(10) {
        0 | 1 => widest_band(&plain),
        2 => widest_band(&plain).max(2) - 1,
        3 => widest_band(&adjusted),
        4 => widest_band(&adjusted).max(2) - 1,
        5 => random.between(1, 3_000) as u32,
        _ => LARGEST_LIMIT,
    }
}

/// A sheet whose rates are so far below 0, as far as 20, that its plain curve comes near 2 U: an
/// adjustment below 0 takes the adjusted one past it. This is what ground 8 is for there.
pub(crate) fn high_sheet(random: &mut Random, month: u16) -> Sheet {
    let level = random.between(-1_960, -1_850);
    // Beyond 20 they rise, since the quotes' own years to 50 must stay below 2 U as well.
    let rises = [200, 400, 620, 760];
    let rise = |i: usize| i.checked_sub(QUOTE_20 + 1).map_or(0, |later| rises[later]);
    let rates = std::array::from_fn(|i| quote(level + rise(i) + random.between(-10, 10)));
    // The forward of 15-20, which alone gains the adjustment, has nearly all of the weight.
    let later = random.between(1, 20_000) as u32;
    let mut sheet = Sheet {
        profile: None,
        month,
        rates,
        volumes: [1_000_000, later, 1, later, 1],
        ufr: random.one_of(&[0, 0, 0, 20]),
        limit: LARGEST_LIMIT,
        phase_in: random.one_in(3).then_some(X_OUTSIDE_PHASE_IN),
        adjustment: Some(random.between(LEAST, LEAST / 2) as i16),
    };
    if random.one_in(3) {
        move_to_edge(random, &mut sheet);
    }
    sheet
}

/// Moves the adjustment to the last that is accepted on the way from 0 to the least, or to the
/// next one, which is not.
fn move_to_edge(random: &mut Random, sheet: &mut Sheet) {
    let mut with = sheet.clone();
    let mut accepts = |adjustment: i64| {
        with.adjustment = Some(adjustment as i16);
        Curves::of(&with).is_ok()
    };
    if accepts(0) && !accepts(LEAST) {
        let (passes, fails) = edge(0, LEAST, accepts);
        sheet.adjustment = Some(random.one_of(&[passes, fails]) as i16);
    }
}

/// What a post brings: most often a sheet with an adjustment, else one with any byte in one
/// place, or one whose tail is wrong.
pub fn typed_adjusted_sheet(random: &mut Random, month: u16) -> Vec<u8> {
    let mut bytes = sheet_bytes(&adjusted_sheet(random, month));
    match random.below(16) {
        0 => {
            let at = random.below(bytes.len() as u64) as usize;
            bytes[at] = random.below(256) as u8;
        }
        1..=4 => {
            bytes.truncate(REQUIRED_LENGTH);
            bytes.extend(wrong_tail(random));
        }
        _ => {}
    }
    bytes
}

/// A tail that no sheet has, or mostly none: records in another order, twice, of another kind,
/// with numbers outside their ranges, or cut.
fn wrong_tail(random: &mut Random) -> Vec<u8> {
    let x = phase_in_record(random.between(10_000, 20_000));
    let adjustment = adjustment_record(i64::from(adjustment(random)));
    let outside = adjustment_record(outside(random));
    let any_kind = [random.below(256) as u8, 0, random.below(256) as u8];
    match random.below(11) {
        0 => [adjustment, x].concat(),
        1 => [adjustment, adjustment].concat(),
        2 => [x, x].concat(),
        3 => any_kind.to_vec(),
        4 => [x, any_kind].concat(),
        5 => [any_kind, adjustment].concat(),
        6 => outside.to_vec(),
        7 => [x, outside].concat(),
        8 => [phase_in_record(random.one_of(&[0, 9_999, 20_001])), outside].concat(),
        9 => [
            phase_in_record(random.one_of(&[9_999, 20_001, 65_535])),
            adjustment,
        ]
        .concat(),
        _ => {
            let mut tail = [random.one_of(&[x, adjustment]), adjustment, adjustment].concat();
            tail.truncate(random.one_of(&[1, 2, 4, 5, 7, 8, 9]));
            tail
        }
    }
}

/// An adjustment outside its range: next to it, at an end of what two bytes tell, or mostly.
fn outside(random: &mut Random) -> i64 {
    match random.below(3) {
        0 => random.one_of(&[LEAST - 1, GREATEST + 1]),
        1 => random.one_of(&[-32_768, -10_000, 10_000, 20_000, 32_767]),
        _ => random.between(-32_768, 32_767),
    }
}

pub(crate) fn phase_in_record(x: i64) -> [u8; 3] {
    let [high, low] = (x as u16).to_be_bytes();
    [0x06, high, low]
}

pub(crate) fn adjustment_record(adjustment: i64) -> [u8; 3] {
    let [high, low] = (adjustment as i16).to_be_bytes();
    [0x07, high, low]
}

/// The records that a tail can have.
#[derive(Clone, Copy, Debug, PartialEq, Eq, PartialOrd, Ord)]
pub struct Tail {
    pub phase_in: bool,
    pub adjustment: bool,
}

impl Tail {
    /// Every combination.
    pub const ALL: [Tail; 4] = [
        Tail::new(false, false),
        Tail::new(true, false),
        Tail::new(false, true),
        Tail::new(true, true),
    ];

    pub const fn new(phase_in: bool, adjustment: bool) -> Self {
        Tail {
            phase_in,
            adjustment,
        }
    }

    /// That of a sheet.
    pub fn of(sheet: &Sheet) -> Self {
        Tail::new(sheet.phase_in.is_some(), sheet.adjustment.is_some())
    }
}

impl fmt::Display for Tail {
    fn fmt(&self, f: &mut fmt::Formatter<'_>) -> fmt::Result {
        f.write_str(match (self.phase_in, self.adjustment) {
            (false, false) => "no record",
            (true, false) => "hex 06",
            (false, true) => "hex 07",
            (true, true) => "hex 06 and 07",
        })
    }
}

/// What a post can be refused on for its adjusted curve alone. Ground 8 comes past year 20 only:
/// to 20 a plain factor is at most 0.98^-20, about 1.5 U, and the adjustment adds a tenth.
#[derive(Clone, Copy, Debug, PartialEq, Eq, PartialOrd, Ord)]
pub enum Alone {
    High,
    WidthTo20,
    WidthPast20,
}

impl Alone {
    /// Every one.
    pub const ALL: [Alone; 3] = [Alone::High, Alone::WidthTo20, Alone::WidthPast20];
}

impl fmt::Display for Alone {
    fn fmt(&self, f: &mut fmt::Formatter<'_>) -> fmt::Result {
        f.write_str(match self {
            Alone::High => "8 past year 20",
            Alone::WidthTo20 => "10 in years 1 to 20",
            Alone::WidthPast20 => "10 past year 20",
        })
    }
}

/// The adjustments that must be accepted, beside all others.
pub const NAMED_ADJUSTMENTS: [i16; 3] = [-500, 0, 500];

/// Number and place of what a tail can be refused on.
pub const TAIL_GROUNDS: [(u8, u16); 5] = [(1, 0), (2, 26), (2, 27), (3, 26), (3, 27)];

/// What became of posts by their tails.
#[derive(Clone, Debug, Default, PartialEq, Eq)]
pub struct AdjustedPosts {
    by_tail: BTreeMap<Tail, Tally>,
    by_adjustment: BTreeMap<i16, Tally>,
    alone: BTreeMap<Alone, u64>,
    tails: BTreeMap<(u8, u16), u64>,
}

impl AdjustedPosts {
    /// Counts a post that brought these bytes and was answered with this number, 0 if accepted. One
    /// that names its profile is not counted here: its records have other places.
    pub fn count(&mut self, bytes: &[u8], number: u8) {
        if bytes.first() == Some(&PROFILE) {
            return;
        }
        match Sheet::read(bytes) {
            Ok(sheet) => self.count_sheet(&sheet, number),
            Err(refusal) => {
                let ground = (refusal.number, refusal.place);
                if TAIL_GROUNDS.contains(&ground) && bytes.len() > REQUIRED_LENGTH {
                    *self.tails.entry(ground).or_default() += 1;
                }
            }
        }
    }

    fn count_sheet(&mut self, sheet: &Sheet, number: u8) {
        let accepted = number == 0;
        let tail = Tail::of(sheet);
        self.by_tail.entry(tail).or_default().count(accepted);
        if let Some(adjustment) = sheet.adjustment {
            let tally = self.by_adjustment.entry(adjustment).or_default();
            tally.count(accepted);
            if [8, 10].contains(&number) {
                self.count_alone(sheet);
            }
        }
    }

    /// Counts a sheet that is refused on 8 or 10, where its plain curve is not.
    fn count_alone(&mut self, sheet: &Sheet) {
        let (Ok(_), Err(refusal)) = (Curve::plain(sheet), Curves::of(sheet)) else {
            return;
        };
        let to_20 = usize::from(refusal.place) <= sheet.market().smoothing_year();
        let alone = match (refusal.number, to_20) {
            (8, _) => Alone::High,
            (_, true) => Alone::WidthTo20,
            (_, false) => Alone::WidthPast20,
        };
        *self.alone.entry(alone).or_default() += 1;
    }

    /// The posts with this tail.
    pub fn of_tail(&self, tail: Tail) -> Tally {
        self.by_tail.get(&tail).copied().unwrap_or_default()
    }

    /// The posts with this adjustment.
    pub fn of_adjustment(&self, adjustment: i16) -> Tally {
        let tally = self.by_adjustment.get(&adjustment);
        tally.copied().unwrap_or_default()
    }

    /// How many different adjustments were accepted.
    pub fn accepted_adjustments(&self) -> usize {
        let accepted = self
            .by_adjustment
            .values()
            .filter(|tally| tally.accepted > 0);
        accepted.count()
    }

    /// The posts that were refused so for their adjusted curve alone.
    pub fn refused_alone(&self, alone: Alone) -> u64 {
        self.alone.get(&alone).copied().unwrap_or_default()
    }

    /// The posts whose tail was refused with this number and place.
    pub fn refused_tails(&self, ground: (u8, u16)) -> u64 {
        self.tails.get(&ground).copied().unwrap_or_default()
    }

    /// Says what was not met: a tail that is accepted, an adjustment that is, or a refusal.
    pub fn check(&self) -> Result<(), String> {
        if let Some(tail) = Tail::ALL.iter().find(|&&t| self.of_tail(t).accepted == 0) {
            return Err(format!("no sheet with {tail} was accepted"));
        }
        let accepted = |&&adjustment: &&i16| self.of_adjustment(adjustment).accepted > 0;
        if let Some(adjustment) = NAMED_ADJUSTMENTS.iter().find(|a| !accepted(a)) {
            return Err(format!("no adjustment of {adjustment} was accepted"));
        }
        if let Some(alone) = Alone::ALL.iter().find(|&&a| self.refused_alone(a) == 0) {
            return Err(format!("no adjusted curve alone was refused on {alone}"));
        }
        match TAIL_GROUNDS.iter().find(|&&g| self.refused_tails(g) == 0) {
            Some(ground) => Err(format!("no tail was refused on {ground:?}")),
            None => Ok(()),
        }
    }
}

impl fmt::Display for AdjustedPosts {
    fn fmt(&self, f: &mut fmt::Formatter<'_>) -> fmt::Result {
        write!(f, "posts by their tails:")?;
        for tail in Tail::ALL {
            write!(f, "\n  {tail}: {}", self.of_tail(tail))?;
        }
        let adjustments = self.accepted_adjustments();
        write!(f, "\n  adjustments accepted: {adjustments} different ones")?;
        for adjustment in NAMED_ADJUSTMENTS {
            let tally = self.of_adjustment(adjustment);
            write!(f, "\n  adjustment {adjustment}: {tally}")?;
        }
        for alone in Alone::ALL {
            let times = self.refused_alone(alone);
            write!(f, "\n  adjusted curve alone refused on {alone}: {times}")?;
        }
        for (number, place) in TAIL_GROUNDS {
            let times = self.refused_tails((number, place));
            write!(f, "\n  tail refused on {number}, place {place}: {times}")?;
        }
        Ok(())
    }
}
