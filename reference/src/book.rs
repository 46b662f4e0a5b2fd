//! The book: its age limit, the standing curves with their sums and their month, what stood before
//! the latest accepted posts, and the told month.

use std::collections::VecDeque;

use crate::curve::{Curve, Curves, Which, YEARS};
use crate::enclosure::Enclosure;
use crate::page::Page;
use crate::rates::ZeroRates;
use crate::refusal::Refusal;
use crate::sheet::{Sheet, LAST_MONTH};
use crate::sums::{Sums, Wanted};
use crate::valuation::{Block, Flow, Valued};

pub use crate::page::PAGE_LENGTH;

/// The largest age limit, in months. No curve gets older: sheets' months start at 0 and the
/// last month that can be told is 2,399.
pub const LARGEST_AGE_LIMIT: u64 = 2_399;

/// So many posts can be taken back, one after another.
pub const DEEPEST: usize = 3;

/// A curve with its sums. They are made together and move together, so that the sums are those of
/// the curve after every post and every withdrawal.
#[derive(Clone, Debug, PartialEq, Eq)]
struct Summed {
    curve: Curve,
    sums: Sums,
}

impl Summed {
    fn of(curve: Curve) -> Self {
        let sums = Sums::of(&curve);
        Summed { curve, sums }
    }

    /// The wanted amount of `year`, which is from 1 to 150.
    fn amount(&self, wanted: Wanted, year: usize) -> Enclosure {
        match wanted {
            Wanted::Factor => self.curve.factor(year),
            Wanted::Sum => self.sums.to(year),
        }
    }
}

/// The curves of a sheet, each with its sums, and its month.
#[derive(Clone, Debug, PartialEq, Eq)]
struct Standing {
    month: u16,
    plain: Summed,
    adjusted: Option<Summed>,
}

impl Standing {
    fn of(month: u16, curves: Curves) -> Self {
        Standing {
            month,
            plain: Summed::of(curves.plain),
            adjusted: curves.adjusted.map(Summed::of),
        }
    }

    /// The named curve, if the sheet has it.
    fn get(&self, which: Which) -> Option<&Summed> {
        match which {
            Which::Plain => Some(&self.plain),
            Which::Adjusted => self.adjusted.as_ref(),
        }
    }
}

/// A curve that is shown.
struct Shown<'a> {
    summed: &'a Summed,
    month: u16,
    age: u16,
}

/// The dated curve book.
#[derive(Clone, Debug, PartialEq, Eq)]
pub struct Book {
    /// The greatest age at which the curve is shown, at most `LARGEST_AGE_LIMIT`.
    age_limit: u64,
    told_month: u16,
    standing: Option<Standing>,
    /// What stood before each of the latest accepted posts that can be withdrawn, the latest last;
    /// at most `DEEPEST`.
    ways_back: VecDeque<Option<Standing>>,
}

/// The answer to a look-up.
#[derive(Clone, Copy, Debug, PartialEq, Eq)]
pub struct Found {
    /// The factor of the year or the sum of years 1 to it, whichever was wanted.
    pub amount: Enclosure,
    /// Annual zero rates of the year's factor, whichever was wanted.
    pub rates: ZeroRates,
    /// Month of the sheet behind the curve.
    pub month: u16,
    /// Told month less sheet month.
    pub age: u16,
}

impl Book {
    /// A fresh book: told month 0, no curve, nothing to withdraw. A limit above the largest makes a
    /// book with the largest.
    pub fn new(age_limit: u64) -> Self {
        Book {
            age_limit: age_limit.min(LARGEST_AGE_LIMIT),
            told_month: 0,
            standing: None,
            ways_back: VecDeque::new(),
        }
    }

    /// The book that the same calls leave on one made with `age_limit`: no post, turn
    /// or withdrawal looks at the limit. It spares those who compare under many limits the work of the posts.
    pub fn with_age_limit(&self, age_limit: u64) -> Self {
        Book {
            told_month: self.told_month,
            standing: self.standing.clone(),
            ways_back: self.ways_back.clone(),
            ..Book::new(age_limit)
        }
    }

    /// Replaces the curves and their sums by those of the sheet in `bytes` and hands back its month,
    /// or refuses on the first of grounds 19 and 1 to 10 and leaves the book unchanged: no plain curve
    /// is kept where the adjusted one fails, and no adjusted one where the sheet has none. A
    /// curve that is too old to be shown still stands in ground 6.
    pub fn post(&mut self, bytes: &[u8]) -> Result<u16, Refusal> {
        let sheet = Sheet::read(bytes)?;
        if sheet.month > self.told_month {
            return Err(Refusal::plain(5));
        }
        if self
            .standing
            .as_ref()
            .is_some_and(|standing| sheet.month < standing.month)
        {
            return Err(Refusal::plain(6));
        }
        let posted = Standing::of(sheet.month, Curves::of(&sheet)?);
        let before = self.standing.replace(posted);
        self.remember(before);
        Ok(sheet.month)
    }

    /// Keeps the way back to what stood before an accepted post; on a book that is as deep as can
    /// be only the oldest way is forgotten.
    fn remember(&mut self, before: Option<Standing>) {
        if self.ways_back.len() == DEEPEST {
            self.ways_back.pop_front();
        }
        self.ways_back.push_back(before);
    }

    /// Takes back the latest accepted post that is not withdrawn: curves, sums and month are again
    /// what stood before it, be it none, and the told month remains. Or refuses on ground 18 and
    /// leaves the book unchanged.
    pub fn withdraw(&mut self) -> Result<(), Refusal> {
        self.standing = self.ways_back.pop_back().ok_or(Refusal::plain(18))?;
        Ok(())
    }

    /// How many posts can be taken back, one after another.
    pub fn depth(&self) -> usize {
        self.ways_back.len()
    }

    /// Sets the told month and hands it back, or refuses on ground 11 or 12 and
    /// leaves the book unchanged.
    pub fn turn(&mut self, month: u32) -> Result<u16, Refusal> {
        if month > LAST_MONTH {
            return Err(Refusal::plain(11));
        }
        if month < u32::from(self.told_month) {
            return Err(Refusal::plain(12));
        }
        self.told_month = u16::try_from(month).expect("at most 2,399");
        Ok(self.told_month)
    }

    /// The factor of `year` on the named curve with its rates and its dating, or the first of
    /// grounds 13, 14, 16 and 17. The desk and a journal's record look up so.
    pub fn look_up(&self, which: Which, year: u32) -> Result<Found, Refusal> {
        self.look_up_wanted(which, Wanted::Factor, year)
    }

    /// The wanted amount of `year` on the named curve. Whichever it is, the rates are those of the
    /// year's factor, and so is ground 17: of a sum neither is asked.
    pub fn look_up_wanted(
        &self,
        which: Which,
        wanted: Wanted,
        year: u32,
    ) -> Result<Found, Refusal> {
        let year = usize::try_from(year)
            .ok()
            .filter(|year| (1..=YEARS).contains(year))
            .ok_or(Refusal::plain(13))?;
        let shown = self.shown(which)?;
        let factor = shown.summed.curve.factor(year);
        Ok(Found {
            rates: ZeroRates::of(factor, year).ok_or(Refusal::plain(17))?,
            amount: shown.summed.amount(wanted, year),
            month: shown.month,
            age: shown.age,
        })
    }

    /// Writes the page of the named curve into the first 1,505 bytes of `buffer` and keeps the
    /// others, or refuses on the first of grounds 14, 16 and 15, in this order, and leaves the
    /// buffer unchanged. It tells no rates, so that a year without them keeps its pair.
    pub fn page(&self, which: Which, buffer: &mut [u8]) -> Result<(), Refusal> {
        self.shown_page(which)?.write(buffer, |_, _| {})
    }

    /// The page of the named curve, to be written, or the first of grounds 14 and 16.
    pub fn shown_page(
        &self,
        which: Which,
    ) -> Result<Page<impl Fn(usize) -> Enclosure + '_>, Refusal> {
        let shown = self.shown(which)?;
        Ok(Page {
            month: shown.month,
            age: shown.age,
            factor: |year| shown.summed.curve.factor(year),
        })
    }

    /// What the list is worth on the plain curve, with the curve's dating, or the first of
    /// grounds 14, 16 and 20 to 22, in this order. It tells no rates, so that a year without them
    /// has its worth.
    pub fn value(&self, flows: &[Flow]) -> Result<Valued, Refusal> {
        let shown = self.shown(Which::Plain)?;
        Ok(Valued {
            amount: Block::of(flows)?.worth(&shown.summed.curve),
            month: shown.month,
            age: shown.age,
        })
    }

    /// Whether the book holds the named curve, shown or too old.
    pub fn holds(&self, which: Which) -> bool {
        self.held(which).is_ok()
    }

    /// The age of the curve that the book holds, if it holds one, shown or too old.
    pub fn curve_age(&self) -> Option<u16> {
        self.standing.as_ref().map(|standing| self.age(standing))
    }

    /// The named curve with what it stands among, or ground 14: no post is accepted and not
    /// withdrawn, or the last such sheet has no adjustment.
    fn held(&self, which: Which) -> Result<(&Standing, &Summed), Refusal> {
        let standing = self.standing.as_ref().ok_or(Refusal::plain(14))?;
        let summed = standing.get(which).ok_or(Refusal::plain(14))?;
        Ok((standing, summed))
    }

    /// The named curve with its dating, if it is young enough to be shown; else ground 14 or 16.
    fn shown(&self, which: Which) -> Result<Shown<'_>, Refusal> {
        let (standing, summed) = self.held(which)?;
        let age = self.age(standing);
        if u64::from(age) > self.age_limit {
            return Err(Refusal::plain(16));
        }
        Ok(Shown {
            summed,
            month: standing.month,
            age,
        })
    }

    /// Never below 0: ground 5 bounds the sheet's month, ground 12 keeps the told month.
    fn age(&self, standing: &Standing) -> u16 {
        self.told_month - standing.month
    }
}
