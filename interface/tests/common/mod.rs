//! How many journals are tried, and the age limits that each is tried under.

use interface::compare::Case;
use reference::questions::{age_limits, limits_around};
use reference::streams::Random;

/// How many journals are tried: 400, or what the environment's JOURNALS says.
pub fn journals() -> u64 {
    let told = std::env::var("JOURNALS").ok();
    told.and_then(|word| word.parse().ok()).unwrap_or(400)
}

/// The journal under age limits of every sort, and under those around its curve's age. The
/// second implementation replays it under each.
#[allow(dead_code)]
pub fn cases<'a>(random: &mut Random, journal: &'a [u8]) -> Vec<Case<'a>> {
    let first = Case::replayed(0, journal);
    let around = first.age().into_iter().flat_map(limits_around);
    let limits = age_limits(random).into_iter().chain(around);
    limits.map(|limit| first.again(limit)).collect()
}
