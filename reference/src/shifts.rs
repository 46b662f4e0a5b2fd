//! Seeded questions about the shift that meets a target, and a count of what they met.

use std::collections::BTreeMap;
use std::fmt;

use crate::adjusted::{adjusted_sheet, adjustment, high_sheet, typed_adjusted_sheet};
use crate::blocks::{block, numbers};
use crate::bootstrap::used_quotes;
use crate::curve::{Curve, Curves};
use crate::dropped::dropped_sheet;
use crate::known::known_sheet;
use crate::market::{Market, MATURITIES, QUOTE_20};
use crate::profiled::{in_market, profiled_sheet, typed_profiled_sheet, PROFILE};
use crate::refusal::Refusal;
use crate::sheet::Sheet;
use crate::shift::{shift_by, SHIFTS};
use crate::streams::{
    sheet, sheet_bytes, steep_sheet, typed_sheet, zero_sheet, Random, HIGHEST_QUOTE, LOWEST_QUOTE,
};
use crate::valuation::{flows_of, numbers_of, Block, Flow};

/// Months of sheets are below this one: no month is too late for a shift, and none too early.
const MONTHS: u64 = 2_400;

/// A narrow question has at most so many shifts in range on either side of 0.
const NARROW: i64 = 24;

/// What is asked: the bytes of a sheet, the numbers of a list, and a target in cents.
#[derive(Clone, Debug, PartialEq, Eq)]
pub struct Asked {
    pub sheet: Vec<u8>,
    pub numbers: Vec<u64>,
    pub target: u64,
}

impl Asked {
    /// What the shift is, or why there is none.
    pub fn answer(&self) -> Result<i16, Refusal> {
        shift_by(&self.sheet, &self.numbers, self.target)
    }
}

/// A question to which no curve has to be worked: a ground is against its sheet, its list or both.
pub fn refused_at_once(random: &mut Random) -> Asked {
    loop {
        let sheet = match random.below(3) {
            0 => sheet_bytes(&any_sheet(random)),
            _ => wrong_sheet(random),
        };
        let numbers = match random.below(3) {
            0 => numbers_of(&block(random)),
            _ => numbers(random),
        };
        if Sheet::read(&sheet).is_err() || Block::of(&flows_of(&numbers)).is_err() {
            let target = random.one_of(&[0, 1_000_000, u64::MAX]);
            return Asked {
                sheet,
                numbers,
                target,
            };
        }
    }
}

/// A question that is soon worked: most often about a sheet of the euro with two dropped quotes
/// that let only a few shifts pass, else about one that mostly is met early for the largest
/// target.
pub fn narrow(random: &mut Random) -> Asked {
    let early = match random.below(8) {
        0 => high_sheet(random, 0),
        1 => exact_at_zero(random),
        2 => accepted(random, any_sheet),
        _ => return between_dropped(random),
    };
    at_any_cost(random, early)
}

/// A question about a sheet with a dropped quote next to the lowest rate and one next to the
/// highest one.
fn between_dropped(random: &mut Random) -> Asked {
    let mut sheet = accepted(random, with_dropped);
    if random.one_in(3) {
        sheet.adjustment = Some(adjustment(random));
    }
    if random.one_in(12) {
        // No curve of ordinary rates is so narrow.
        return at_any_cost(random, Sheet { limit: 1, ..sheet });
    }
    asked(random, &sheet, |random| {
        random.between(-NARROW, NARROW) as i16
    })
}

fn with_dropped(random: &mut Random) -> Sheet {
    let ([low, high], month) = (two_later(random), month(random));
    let mut sheet = sheet(random, month);
    sheet.volumes = sheet.volumes.map(|volume| 1.max(volume));
    for (quote, end, inward) in [(low, LOWEST_QUOTE, 1), (high, HIGHEST_QUOTE, -1)] {
        sheet.volumes[quote - QUOTE_20] = 0;
        sheet.rates[quote] = (end + inward * random.between(0, NARROW)) as i16;
    }
    sheet
}

/// A sheet that passes where the shift takes its rates to 0, and hardly anywhere else.
fn exact_at_zero(random: &mut Random) -> Sheet {
    let sheet = Sheet {
        rates: [random.between(470, 505) as i16; MATURITIES.len()],
        limit: 1,
        ..zero_sheet(month(random))
    };
    in_market(&sheet, random.one_of(&Market::ALL))
}

/// The question about this sheet for the largest target.
fn at_any_cost(random: &mut Random, sheet: Sheet) -> Asked {
    Asked {
        sheet: sheet_bytes(&sheet),
        numbers: numbers_of(&block(random)),
        target: u64::MAX,
    }
}

/// Two quotes beyond 20.
fn two_later(random: &mut Random) -> [usize; 2] {
    let first = random.between(1, 4) as usize;
    let second = 1 + (first + random.below(3) as usize) % 4;
    [QUOTE_20 + first, QUOTE_20 + second]
}

/// A question about a sheet of any market and sort, whose shifts are mostly all in range.
pub fn wide(random: &mut Random) -> Asked {
    let sheet = match random.below(10) {
        0 => any_sheet(random),
        1 => at_an_end(random),
        2 => turning_sheet(random),
        3..=6 => return at_the_last(random),
        _ => accepted(random, any_sheet),
    };
    asked(random, &sheet, |random| match random.below(6) {
        0 => random.one_of(&[-500, -500, 500]),
        1 | 2 => random.between(-500, -400) as i16,
        _ => random.between(-500, 500) as i16,
    })
}

/// A question about an ordinary sheet of a smaller market, all of whose shifts are soon worked,
/// that is met at the last one or, with a cent less, mostly nowhere.
fn at_the_last(random: &mut Random) -> Asked {
    let market = random.one_of(&Market::SMALLER);
    let ordinary = Sheet {
        rates: [random.between(-400, 4_000) as i16; MATURITIES.len()],
        ufr: random.between(0, 6_000) as u16,
        ..zero_sheet(month(random))
    };
    let sheet = in_market(&ordinary, market);
    let flows = block(random);
    let last = |_: &mut Random| *SHIFTS.end();
    let high = near(random, &sheet, &flows, last);
    Asked {
        sheet: sheet_bytes(&sheet),
        numbers: numbers_of(&flows),
        target: high,
    }
}

/// A sheet that is accepted, where a few draws have one among them.
fn accepted(random: &mut Random, draw: impl Fn(&mut Random) -> Sheet) -> Sheet {
    let mut sheet = draw(random);
    for _ in 0..8 {
        if Curves::of(&sheet).is_ok() {
            break;
        }
        sheet = draw(random);
    }
    sheet
}

/// A sheet with numbers in their ranges, of any market, half of the markets being smaller ones.
fn any_sheet(random: &mut Random) -> Sheet {
    let month = month(random);
    let drawn = match random.below(12) {
        0 => dropped_sheet(random, month),
        1 | 2 => adjusted_sheet(random, month),
        3 => known_sheet(random, month),
        4 => steep_sheet(random, month),
        5 => sheet(random, month),
        _ => profiled_sheet(random, month),
    };
    // A sheet without volume is no matter of shifts.
    let traded = drawn.carried_volumes().iter().any(|&volume| volume > 0);
    let volumes = if traded { drawn.volumes } else { [1; 5] };
    Sheet { volumes, ..drawn }
}

fn month(random: &mut Random) -> u16 {
    random.below(MONTHS) as u16
}

/// A sheet of a smaller market with rates next to an end of their range, at which shifts fail.
fn at_an_end(random: &mut Random) -> Sheet {
    let (end, inward) = random.one_of(&[(LOWEST_QUOTE, 1), (HIGHEST_QUOTE, -1)]);
    let level = end + inward * random.between(0, 520);
    let noise = level.abs_diff(end).min(20) as i64;
    let rates = [0; MATURITIES.len()].map(|_| (level + random.between(-noise, noise)) as i16);
    let month = month(random);
    let drawn = Sheet {
        rates,
        ..profiled_sheet(random, month)
    };
    let market = random.one_of(&Market::SMALLER);
    in_market(
        &Sheet {
            profile: None,
            volumes: [1; 5],
            ..drawn
        },
        market,
    )
}

/// A sheet of which late years may cost more as rates rise: they also slow down the convergence to
/// an ultimate rate that is far higher.
fn turning_sheet(random: &mut Random) -> Sheet {
    let (level, month) = (random.between(-700, 700) as i16, month(random));
    let drawn = Sheet {
        rates: [level; MATURITIES.len()],
        volumes: [1; 5],
        ufr: 10_000,
        phase_in: Some(20_000),
        ..sheet(random, month)
    };
    in_market(&drawn, random.one_of(&Market::ALL))
}

/// The question about this sheet, a good list and a target that is most often next to what the
/// block costs at one of the shifts that are drawn.
fn asked(random: &mut Random, sheet: &Sheet, draw: impl Fn(&mut Random) -> i16) -> Asked {
    let flows = block(random);
    let target = match random.below(16) {
        0 => 0,
        1 => u64::MAX,
        2 => random.number(),
        _ => near(random, sheet, &flows, draw),
    };
    Asked {
        sheet: sheet_bytes(sheet),
        numbers: numbers_of(&flows),
        target,
    }
}

/// The block's high at a drawn shift, one more or one less; the largest target where none passes.
fn near(
    random: &mut Random,
    sheet: &Sheet,
    flows: &[Flow],
    draw: impl Fn(&mut Random) -> i16,
) -> u64 {
    let block = Block::of(flows).expect("a list in range");
    for _ in 0..6 {
        if let Some(curves) = shifted_curves(sheet, draw(random)) {
            let high = block.worth(&curves.plain).high as u64;
            return random.one_of(&[high.saturating_sub(1), high, high, high, high + 1]);
        }
    }
    u64::MAX
}

/// The curves of the shifted sheet, where it passes its checks.
fn shifted_curves(sheet: &Sheet, shift: i16) -> Option<Curves> {
    let shifted = sheet.shifted(shift)?;
    Curves::of(&shifted).ok()
}

/// Bytes that mostly are no sheet, on each ground of one.
fn wrong_sheet(random: &mut Random) -> Vec<u8> {
    let mut drawn = any_sheet(random);
    let mut bytes = sheet_bytes(&drawn);
    match random.below(10) {
        0 => bytes.truncate(random.below(bytes.len() as u64) as usize),
        1 => bytes.extend(vec![0; random.between(1, 6) as usize]),
        2 => {
            bytes = random
                .one_of(&[&[][..], &[PROFILE], &[PROFILE, 1], &[PROFILE, 9]])
                .to_vec()
        }
        3 => bytes
            .splice(..0, [PROFILE, random.one_of(&[0, 4, 8, 255])])
            .for_each(drop),
        4 => return typed_adjusted_sheet(random, 0),
        5 => return typed_profiled_sheet(random, 0),
        6 => return typed_sheet(random, 0),
        7 => {
            drawn.volumes = [0; 5];
            return sheet_bytes(&drawn);
        }
        8 => {
            // A rate that a shift would bring back into its range.
            let quote = random.below(drawn.quoted_rates().len() as u64) as usize;
            drawn.rates[quote] = random.one_of(&[-2_500, -2_001, 12_001, 12_500]);
            return sheet_bytes(&drawn);
        }
        _ => {
            let at = random.below(bytes.len() as u64) as usize;
            bytes[at] = random.below(256) as u8;
        }
    }
    bytes
}

/// What shifts can meet.
#[derive(Clone, Copy, Debug, PartialEq, Eq, PartialOrd, Ord)]
pub enum Meeting {
    LowEnd,
    HighEnd,
    BelowZero,
    Zero,
    AboveZero,
    Equal,
    OfAMarket(u8),
    WithPhaseIn,
    WithAdjustment,
    UnshiftedFails,
    AfterOutOfRange,
    AfterDroppedOutOfRange,
    AfterFailing,
    AfterAdjustedFailing,
    AfterLowWithin,
    BesideAdjusted,
    RoundedOnce,
    LaterFails,
    NotByHalving,
    LargestTarget,
    NothingPasses,
    TooDear,
    SheetFirst,
    ListFirst,
    ListBeforeCurve,
    OddCount,
}

impl Meeting {
    /// Every one.
    pub const ALL: [Meeting; 28] = [
        Meeting::LowEnd,
        Meeting::HighEnd,
        Meeting::BelowZero,
        Meeting::Zero,
        Meeting::AboveZero,
        Meeting::Equal,
        Meeting::OfAMarket(1),
        Meeting::OfAMarket(2),
        Meeting::OfAMarket(3),
        Meeting::WithPhaseIn,
        Meeting::WithAdjustment,
        Meeting::UnshiftedFails,
        Meeting::AfterOutOfRange,
        Meeting::AfterDroppedOutOfRange,
        Meeting::AfterFailing,
        Meeting::AfterAdjustedFailing,
        Meeting::AfterLowWithin,
        Meeting::BesideAdjusted,
        Meeting::RoundedOnce,
        Meeting::LaterFails,
        Meeting::NotByHalving,
        Meeting::LargestTarget,
        Meeting::NothingPasses,
        Meeting::TooDear,
        Meeting::SheetFirst,
        Meeting::ListFirst,
        Meeting::ListBeforeCurve,
        Meeting::OddCount,
    ];

    /// What a question meets that is answered so.
    pub fn of(asked: &Asked, answer: Result<i16, Refusal>) -> Vec<Meeting> {
        let sheet = Sheet::read(&asked.sheet).ok();
        let met = match (answer, &sheet) {
            (Ok(shift), Some(sheet)) => Found::of(asked, sheet, shift).meetings(),
            (Err(refusal), _) => Meeting::of_refused(asked, sheet.as_ref(), refusal.number),
            _ => panic!("a shift of bytes that are no sheet"),
        };
        let met = met.into_iter().filter(|(_, met)| *met);
        met.map(|(meeting, _)| meeting).collect()
    }

    fn of_refused(asked: &Asked, sheet: Option<&Sheet>, number: u8) -> Vec<(Meeting, bool)> {
        let list = Block::of(&flows_of(&asked.numbers));
        let even = &asked.numbers[..asked.numbers.len() / 2 * 2];
        let of_list = (20..=22).contains(&number);
        let passes = sheet.is_some_and(|sheet| Curves::of(sheet).is_ok());
        vec![
            (
                Meeting::NothingPasses,
                number == 23 && asked.target == u64::MAX,
            ),
            (Meeting::TooDear, number == 23 && passes),
            (Meeting::SheetFirst, sheet.is_none() && list.is_err()),
            (Meeting::ListFirst, of_list && asked.target == 0),
            (Meeting::ListBeforeCurve, of_list && !passes),
            (
                Meeting::OddCount,
                number == 20
                    && even.len() < asked.numbers.len()
                    && Block::of(&flows_of(even)).is_ok(),
            ),
        ]
    }
}

/// A shift that was found, with what it was found for and the shifted sheet's curves.
struct Found<'a> {
    asked: &'a Asked,
    sheet: &'a Sheet,
    shift: i16,
    block: Block,
    curves: Curves,
}

impl<'a> Found<'a> {
    fn of(asked: &'a Asked, sheet: &'a Sheet, shift: i16) -> Self {
        Found {
            asked,
            sheet,
            shift,
            block: Block::of(&flows_of(&asked.numbers)).expect("a list that has a shift"),
            curves: shifted_curves(sheet, shift).expect("curves of the shifted sheet"),
        }
    }

    fn meetings(&self) -> Vec<(Meeting, bool)> {
        let shift = self.shift;
        let target = i128::from(self.asked.target);
        let profile = self.sheet.market().profile;
        let mut met = vec![
            (Meeting::LowEnd, shift == *SHIFTS.start()),
            (Meeting::HighEnd, shift == *SHIFTS.end()),
            (Meeting::BelowZero, shift < 0),
            (Meeting::Zero, shift == 0),
            (Meeting::AboveZero, shift > 0),
            (
                Meeting::Equal,
                self.block.worth(&self.curves.plain).high == target,
            ),
            (Meeting::OfAMarket(profile), true),
            (Meeting::WithPhaseIn, self.sheet.phase_in.is_some()),
            (Meeting::WithAdjustment, self.sheet.adjustment.is_some()),
            (Meeting::UnshiftedFails, Curves::of(self.sheet).is_err()),
            (Meeting::BesideAdjusted, self.adjusted_is_dearer()),
            (Meeting::RoundedOnce, self.each_rounded() > target),
            (Meeting::LaterFails, !self.meets(*SHIFTS.end())),
            (Meeting::NotByHalving, self.by_halving() != shift),
            (Meeting::LargestTarget, self.asked.target == u64::MAX),
        ];
        if shift > *SHIFTS.start() {
            met.extend(self.after(shift - 1));
        }
        met
    }

    /// What kept the shift before it from being the answer.
    fn after(&self, before: i16) -> Vec<(Meeting, bool)> {
        let in_range = |rate: i128| {
            let rate = rate + i128::from(before);
            (i128::from(LOWEST_QUOTE)..=i128::from(HIGHEST_QUOTE)).contains(&rate)
        };
        let used = used_quotes(self.sheet).all(|quote| in_range(quote.rate));
        let shifted = self.sheet.shifted(before);
        let out_of_range = shifted.is_none();
        let plain = shifted.as_ref().map(Curve::plain);
        let target = i128::from(self.asked.target);
        let worth = plain.as_ref().and_then(|plain| plain.as_ref().ok());
        let worth = worth.map(|plain| self.block.worth(plain));
        vec![
            (Meeting::AfterOutOfRange, out_of_range),
            (Meeting::AfterDroppedOutOfRange, out_of_range && used),
            (
                Meeting::AfterFailing,
                plain.is_some_and(|plain| plain.is_err()),
            ),
            (
                Meeting::AfterAdjustedFailing,
                worth.is_some_and(|worth| worth.high <= target),
            ),
            (
                Meeting::AfterLowWithin,
                worth.is_some_and(|worth| worth.low <= target && target < worth.high),
            ),
        ]
    }

    fn meets(&self, shift: i16) -> bool {
        let target = i128::from(self.asked.target);
        shifted_curves(self.sheet, shift)
            .is_some_and(|curves| self.block.worth(&curves.plain).high <= target)
    }

    /// Whether the adjusted curve is there and the block costs more than the target on it.
    fn adjusted_is_dearer(&self) -> bool {
        let target = i128::from(self.asked.target);
        let adjusted = self.curves.adjusted.as_ref();
        adjusted.is_some_and(|curve| self.block.worth(curve).high > target)
    }

    /// The highs of the entries, each rounded by itself, added up.
    fn each_rounded(&self) -> i128 {
        let high = |flow: Flow| {
            let one = Block::of(&[flow]).expect("an entry in range");
            one.worth(&self.curves.plain).high
        };
        flows_of(&self.asked.numbers).into_iter().map(high).sum()
    }

    /// What halving would find, as if every shift above one that meets the target did so too.
    fn by_halving(&self) -> i16 {
        let (mut misses, mut meets) = (SHIFTS.start() - 1, SHIFTS.end() + 1);
        while meets - misses > 1 {
            let middle = (misses + meets) / 2;
            match self.meets(middle) {
                true => meets = middle,
                false => misses = middle,
            }
        }
        meets
    }
}

impl fmt::Display for Meeting {
    fn fmt(&self, f: &mut fmt::Formatter<'_>) -> fmt::Result {
        f.write_str(match self {
            Meeting::LowEnd => "found at -500",
            Meeting::HighEnd => "found at 500",
            Meeting::BelowZero => "found below 0",
            Meeting::Zero => "found at 0",
            Meeting::AboveZero => "found above 0",
            Meeting::Equal => "found where the block costs the target",
            Meeting::OfAMarket(profile) => {
                return write!(f, "found of a sheet of profile {profile}")
            }
            Meeting::WithPhaseIn => "found of a sheet with an X",
            Meeting::WithAdjustment => "found of a sheet with an adjustment",
            Meeting::UnshiftedFails => "found of a sheet that fails 7 to 10 itself",
            Meeting::AfterOutOfRange => "found after one at which a rate is out of its range",
            Meeting::AfterDroppedOutOfRange => "found after one at which a dropped rate alone is",
            Meeting::AfterFailing => "found after one at which the plain curve fails",
            Meeting::AfterAdjustedFailing => {
                "found after one at which the adjusted curve alone fails"
            }
            Meeting::AfterLowWithin => {
                "found after one at which the low alone is within the target"
            }
            Meeting::BesideAdjusted => "found where the block costs more on the adjusted curve",
            Meeting::RoundedOnce => "found where the entries cost more, each rounded by itself",
            Meeting::LaterFails => "found where 500 does not meet the target",
            Meeting::NotByHalving => "found where halving finds another",
            Meeting::LargestTarget => "found for the largest target",
            Meeting::NothingPasses => "refused on 23 for the largest target",
            Meeting::TooDear => "refused on 23 of a sheet that passes unshifted",
            Meeting::SheetFirst => "refused on a ground of the sheet before one of the list",
            Meeting::ListFirst => "refused on a ground of the list before 23",
            Meeting::ListBeforeCurve => {
                "refused on a ground of the list where the sheet fails 7 to 10"
            }
            Meeting::OddCount => "refused on 20, of an odd count behind a good list",
        })
    }
}

/// What became of shifts.
#[derive(Clone, Debug, Default, PartialEq, Eq)]
pub struct Shifts {
    met: BTreeMap<Meeting, u64>,
}

impl Shifts {
    /// Counts a question that is answered so.
    pub fn count(&mut self, asked: &Asked, answer: Result<i16, Refusal>) {
        for meeting in Meeting::of(asked, answer) {
            *self.met.entry(meeting).or_default() += 1;
        }
    }

    /// How often this was met.
    pub fn of(&self, meeting: Meeting) -> u64 {
        self.met.get(&meeting).copied().unwrap_or_default()
    }

    /// Says what was not met even once.
    pub fn check(&self) -> Result<(), String> {
        match Meeting::ALL.iter().find(|&&meeting| self.of(meeting) == 0) {
            Some(meeting) => Err(format!("no shift was {meeting}")),
            None => Ok(()),
        }
    }
}

impl fmt::Display for Shifts {
    fn fmt(&self, f: &mut fmt::Formatter<'_>) -> fmt::Result {
        write!(f, "shifts:")?;
        for meeting in Meeting::ALL {
            write!(f, "\n  {meeting}: {}", self.of(meeting))?;
        }
        Ok(())
    }
}
