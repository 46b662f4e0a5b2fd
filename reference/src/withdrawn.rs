//! Seeded posts that are taken back, and a count of what withdrawals met.

use std::collections::BTreeMap;
use std::fmt;

use crate::accepted::Count;
use crate::adjusted::adjustment;
use crate::journal::{calls, post, turn, withdrawal, Call};
use crate::market::Market;
use crate::profiled::in_market;
use crate::sheet::{Sheet, LAST_MONTH};
use crate::streams::{low_rates, sheet_bytes, Random};

/// Posts that are all accepted where their book tells `told`, most of months of their own, then
/// withdrawals, often more than there are posts or than a book lets pass; half of the time one more
/// post, of a month that may be before or after what then stands.
pub fn taken_back(random: &mut Random, told: &mut u16) -> Vec<u8> {
    let mut records = Vec::new();
    for _ in 0..random.between(1, 7) {
        if random.one_in(2) && u32::from(*told) < LAST_MONTH {
            *told += 1;
            records.extend(turn(*told));
        }
        records.extend(post(&sheet_bytes(&accepted_sheet(random, *told))));
    }
    records.extend(withdrawals(random));
    if random.one_in(2) {
        let month = told.saturating_sub(random.below(4) as u16);
        records.extend(post(&sheet_bytes(&accepted_sheet(random, month))));
    }
    records
}

/// From one withdrawal to five in a row.
pub fn withdrawals(random: &mut Random) -> Vec<u8> {
    withdrawal().repeat(random.between(1, 5) as usize)
}

/// A sheet of `month` that only its month can turn down. Its rates are moved as a whole, so that
/// hardly any two have the same curve; half of those of the euro have an adjustment, and one in 8 is
/// of a smaller market.
fn accepted_sheet(random: &mut Random, month: u16) -> Sheet {
    let shift = random.between(0, 3_000) as i16;
    let x = random.one_in(4).then_some(15_000);
    let mut sheet = low_rates(month, x);
    sheet.rates = sheet.rates.map(|rate| rate + shift);
    sheet.adjustment = random.one_in(2).then(|| adjustment(random));
    match random.below(16) {
        0 => in_market(&sheet, Market::TO_10),
        1 => in_market(&sheet, Market::TO_15),
        2 => in_market(&sheet, Market::EURO),
        _ => sheet,
    }
}

/// What withdrawals can meet.
#[derive(Clone, Copy, Debug, PartialEq, Eq, PartialOrd, Ord)]
pub enum Meeting {
    ToNoCurve,
    ToAnEarlierMonth,
    AdjustedLost,
    AdjustedBack,
    ThirdInARow,
    ToAnotherMarket,
    RefusedWithoutCurve,
    RefusedWithCurve,
    PostedBeforeWithdrawn,
}

impl Meeting {
    /// Every one.
    pub const ALL: [Meeting; 9] = [
        Meeting::ToNoCurve,
        Meeting::ToAnEarlierMonth,
        Meeting::AdjustedLost,
        Meeting::AdjustedBack,
        Meeting::ThirdInARow,
        Meeting::ToAnotherMarket,
        Meeting::RefusedWithoutCurve,
        Meeting::RefusedWithCurve,
        Meeting::PostedBeforeWithdrawn,
    ];

    /// What an accepted withdrawal meets that takes back the sheet `before`, if that is the way to
    /// `after`; it is number `row` in its row.
    fn of_accepted(before: &Sheet, after: Option<&Sheet>, row: usize) -> Vec<Meeting> {
        let adjusted = |sheet: &Sheet| sheet.adjustment.is_some();
        let (was, is) = (adjusted(before), after.is_some_and(adjusted));
        let met = [
            (Meeting::ToNoCurve, after.is_none()),
            (
                Meeting::ToAnEarlierMonth,
                after.is_some_and(|after| after.month < before.month),
            ),
            (Meeting::AdjustedLost, was && !is && after.is_some()),
            (Meeting::AdjustedBack, is && !was),
            (Meeting::ThirdInARow, row == 3),
            (
                Meeting::ToAnotherMarket,
                after.is_some_and(|after| after.market() != before.market()),
            ),
        ];
        let met = met.into_iter().filter(|(_, met)| *met);
        met.map(|(meeting, _)| meeting).collect()
    }
}

impl fmt::Display for Meeting {
    fn fmt(&self, f: &mut fmt::Formatter<'_>) -> fmt::Result {
        f.write_str(match self {
            Meeting::ToNoCurve => "accepted, and no curve is left",
            Meeting::ToAnEarlierMonth => "accepted, back to an earlier month",
            Meeting::AdjustedLost => "accepted, from an adjusted curve to none",
            Meeting::AdjustedBack => "accepted, from no adjusted curve to one",
            Meeting::ThirdInARow => "accepted as the third in a row",
            Meeting::ToAnotherMarket => "accepted, back to a curve of another market",
            Meeting::RefusedWithoutCurve => "refused where there is no curve",
            Meeting::RefusedWithCurve => "refused where a curve still stands",
            Meeting::PostedBeforeWithdrawn => {
                "followed by an accepted post of a month before a withdrawn one"
            }
        })
    }
}

/// What became of the withdrawals of journals.
#[derive(Clone, Debug, Default, PartialEq, Eq)]
pub struct Withdrawals {
    met: BTreeMap<Meeting, u64>,
}

impl Withdrawals {
    /// Counts the withdrawals of a journal, each after what comes before it.
    pub fn count_journal(&mut self, journal: &[u8]) {
        let mut count = Count::default();
        // Months of the posts that are withdrawn since one was accepted.
        let mut withdrawn = Vec::new();
        for call in calls(journal) {
            self.count_call(&mut count, &mut withdrawn, &call);
        }
    }

    fn count_call(&mut self, count: &mut Count, withdrawn: &mut Vec<u16>, call: &Call) {
        let before = count.sheet().cloned();
        let accepted = count.count(call).is_ok();
        let meetings = match (call, before) {
            (Call::Withdrawal, Some(before)) if accepted => {
                withdrawn.push(before.month);
                Meeting::of_accepted(&before, count.sheet(), withdrawn.len())
            }
            (Call::Withdrawal, Some(_)) => vec![Meeting::RefusedWithCurve],
            (Call::Withdrawal, None) => vec![Meeting::RefusedWithoutCurve],
            _ if call.posted().is_some() && accepted => posted_before(withdrawn, count.sheet()),
            _ => vec![],
        };
        for meeting in meetings {
            *self.met.entry(meeting).or_default() += 1;
        }
    }

    /// How often this was met.
    pub fn of(&self, meeting: Meeting) -> u64 {
        self.met.get(&meeting).copied().unwrap_or_default()
    }

    /// Says what was not met even once.
    pub fn check(&self) -> Result<(), String> {
        match Meeting::ALL.iter().find(|&&meeting| self.of(meeting) == 0) {
            Some(meeting) => Err(format!("no withdrawal was {meeting}")),
            None => Ok(()),
        }
    }
}

/// What an accepted post meets, which ends the row of withdrawals before it.
fn posted_before(withdrawn: &mut Vec<u16>, posted: Option<&Sheet>) -> Vec<Meeting> {
    let posted = posted.expect("an accepted post stands").month;
    let before = withdrawn.drain(..).any(|month| posted < month);
    before
        .then_some(Meeting::PostedBeforeWithdrawn)
        .into_iter()
        .collect()
}

impl fmt::Display for Withdrawals {
    fn fmt(&self, f: &mut fmt::Formatter<'_>) -> fmt::Result {
        write!(f, "withdrawals:")?;
        for meeting in Meeting::ALL {
            write!(f, "\n  {meeting}: {}", self.of(meeting))?;
        }
        Ok(())
    }
}
