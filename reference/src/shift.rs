//! The shift that meets a target: the smallest whole number which, added to every quote of a sheet,
//! makes a sheet that passes its checks and on whose plain curve a block of policies costs no more
//! than the target. No book is consulted, so that no month is too late or too early.

use std::ops::RangeInclusive;

use crate::curve::Curves;
use crate::refusal::Refusal;
use crate::sheet::Sheet;
use crate::valuation::{flows_of, Block, Flow};

/// The shifts that are tried, in the unit of the quotes.
pub const SHIFTS: RangeInclusive<i16> = -500..=500;

/// The smallest shift that meets the target, in cents, or the first ground that applies: 19 and 1
/// to 4 of the sheet as it is in `bytes`, 20 to 22 of the list, and 23 where no shift does. The
/// sheet itself may fail 7 to 10.
pub fn shift(bytes: &[u8], flows: &[Flow], target: u64) -> Result<i16, Refusal> {
    let sheet = Sheet::read(bytes)?;
    let block = Block::of(flows)?;
    // All are tried in their order: as rates rise sheets may fail and pass again, and a block may
    // cost more.
    let mut shifts = SHIFTS;
    let smallest = shifts.find(|&shift| meets(&sheet, shift, &block, target));
    smallest.ok_or(Refusal::plain(23))
}

/// Whether the shifted sheet passes its checks, those of an adjusted curve among them, and the
/// block's high on its plain curve is at most the target.
fn meets(sheet: &Sheet, shift: i16, block: &Block, target: u64) -> bool {
    let curves = sheet
        .shifted(shift)
        .and_then(|shifted| Curves::of(&shifted).ok());
    curves.is_some_and(|curves| block.worth(&curves.plain).high <= i128::from(target))
}

/// What a shift of the C interface finds: the numbers are years and cents in turn.
pub fn shift_by(bytes: &[u8], numbers: &[u64], target: u64) -> Result<i16, Refusal> {
    shift(bytes, &flows_of(numbers), target)
}
