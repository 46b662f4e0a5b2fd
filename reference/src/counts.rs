//! What became of the posts of streams and journals, counted by what is rare in them.

use std::fmt;

use crate::adjusted::AdjustedPosts;
use crate::book::{Book, LARGEST_AGE_LIMIT};
use crate::dropped::DroppedPosts;
use crate::journal::{calls, make};
use crate::known::KnownPosts;
use crate::profiled::MarketPosts;

/// How often something was posted, and how often it was accepted.
#[derive(Clone, Copy, Debug, Default, PartialEq, Eq)]
pub struct Tally {
    pub posted: u64,
    pub accepted: u64,
}

impl Tally {
    /// Counts one more.
    pub fn count(&mut self, accepted: bool) {
        self.posted += 1;
        self.accepted += u64::from(accepted);
    }
}

impl fmt::Display for Tally {
    fn fmt(&self, f: &mut fmt::Formatter<'_>) -> fmt::Result {
        write!(f, "{} ({} accepted)", self.posted, self.accepted)
    }
}

/// What became of posts.
#[derive(Clone, Debug, Default, PartialEq, Eq)]
pub struct PostCounts {
    pub dropped: DroppedPosts,
    pub adjusted: AdjustedPosts,
    pub known: KnownPosts,
    pub markets: MarketPosts,
}

impl PostCounts {
    /// Counts a post that brought these bytes and was answered with this number, 0 if accepted.
    pub fn count(&mut self, sheet: &[u8], number: u8) {
        self.dropped.count(sheet, number == 0);
        self.adjusted.count(sheet, number);
        self.known.count(sheet, number == 0);
        self.markets.count(sheet, number);
    }

    /// Counts the posts of a journal, each after what comes before it.
    pub fn count_journal(&mut self, journal: &[u8]) {
        for (sheet, number) in answered_posts(journal) {
            self.count(&sheet, number);
        }
    }

    /// Says what was not met even once.
    pub fn check(&self) -> Result<(), String> {
        self.dropped.check()?;
        self.adjusted.check()?;
        self.known.check()?;
        self.markets.check()
    }
}

impl fmt::Display for PostCounts {
    fn fmt(&self, f: &mut fmt::Formatter<'_>) -> fmt::Result {
        write!(f, "{}\n{}\n", self.dropped, self.adjusted)?;
        write!(f, "{}\n{}", self.known, self.markets)
    }
}

/// The sheets that a journal posts, with the number of each one's answer after what comes before
/// it, 0 if accepted.
pub fn answered_posts(journal: &[u8]) -> Vec<(Vec<u8>, u8)> {
    let mut book = Book::new(LARGEST_AGE_LIMIT);
    let mut posts = Vec::new();
    for call in calls(journal) {
        let number = make(&mut book, &call).map_or_else(|refusal| refusal.number, |()| 0);
        posts.extend(call.posted().map(|sheet| (sheet.to_vec(), number)));
    }
    posts
}
