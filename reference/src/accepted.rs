//! Which calls of a list are accepted, counted from what they bring alone, without a book: with
//! the told month, the depth and the accepted posts and withdrawals so far. The sheet that the
//! count holds is that of the last accepted post not withdrawn.

use crate::curve::{Curves, Which};
use crate::desk;
use crate::journal::Call;
use crate::refusal::Refusal;
use crate::sheet::{Sheet, LAST_MONTH};

/// An accepted post adds 1 to the depth, up to this.
const MOST: u8 = 3;

/// What of the accepted calls tells which post stands.
#[derive(Clone, Debug)]
enum Accepted {
    Post(Sheet),
    Withdrawal,
}

/// The count of the calls of a list, at first of none.
#[derive(Clone, Debug, Default)]
pub struct Count {
    told_month: u16,
    depth: u8,
    accepted: Vec<Accepted>,
}

impl Count {
    /// The count of these calls, in their order.
    pub fn of(calls: impl IntoIterator<Item = Call>) -> Self {
        let mut count = Count::default();
        for call in calls {
            // What is refused is not counted.
            _ = count.count(&call);
        }
        count
    }

    /// Counts one more call, or says which of its grounds applies; a look-up is not counted in any
    /// case, so that its grounds are not tried.
    pub fn count(&mut self, call: &Call) -> Result<(), Refusal> {
        match call {
            Call::OfDesk(desk::Call::Post(bytes)) => self.count_post(bytes),
            Call::OfDesk(desk::Call::Turn(month)) => self.count_turn(*month),
            Call::OfDesk(desk::Call::LookUp(_)) => Ok(()),
            Call::Withdrawal => self.count_withdrawal(),
        }
    }

    fn count_post(&mut self, bytes: &[u8]) -> Result<(), Refusal> {
        let sheet = Sheet::read(bytes)?;
        if self.told_month < sheet.month {
            return Err(Refusal::plain(5));
        }
        match self.sheet() {
            Some(held) if sheet.month < held.month => return Err(Refusal::plain(6)),
            _ => Curves::of(&sheet)?,
        };
        self.accepted.push(Accepted::Post(sheet));
        self.depth = MOST.min(self.depth + 1);
        Ok(())
    }

    fn count_turn(&mut self, month: u16) -> Result<(), Refusal> {
        if u32::from(month) > LAST_MONTH {
            return Err(Refusal::plain(11));
        }
        if month < self.told_month {
            return Err(Refusal::plain(12));
        }
        self.told_month = month;
        Ok(())
    }

    fn count_withdrawal(&mut self) -> Result<(), Refusal> {
        if self.depth == 0 {
            return Err(Refusal::plain(18));
        }
        self.accepted.push(Accepted::Withdrawal);
        self.depth -= 1;
        Ok(())
    }

    /// The sheet of the last accepted post not withdrawn, if there is one: from the end of the list
    /// on, each withdrawal takes one post before it with it.
    pub fn sheet(&self) -> Option<&Sheet> {
        let mut withdrawn = 0;
        for accepted in self.accepted.iter().rev() {
            match accepted {
                Accepted::Withdrawal => withdrawn += 1,
                Accepted::Post(_) if withdrawn > 0 => withdrawn -= 1,
                Accepted::Post(sheet) => return Some(sheet),
            }
        }
        None
    }

    pub fn told_month(&self) -> u16 {
        self.told_month
    }

    /// How many withdrawals would be accepted now, one after another.
    pub fn depth(&self) -> u8 {
        self.depth
    }

    /// Whether a look-up of a year 1 to 150, or a page, finds the named curve, be it too old: it
    /// answers 14 exactly when it does not.
    pub fn finds(&self, which: Which) -> bool {
        self.sheet().is_some_and(|sheet| match which {
            Which::Plain => true,
            Which::Adjusted => sheet.adjustment.is_some(),
        })
    }
}
