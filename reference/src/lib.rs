//! Second implementation of the dated curve book of the euro and two smaller markets: sheet
//! reading, bootstrap from par rates, extrapolation, adjustment, zero rates, annuity sums, values
//! of cash flows, the shift that meets a target, the book itself, and the true curve of order n
//! against which the enclosures, the rates, the sums and the values are checked.

pub mod accepted;
pub mod adjusted;
pub mod adjustment;
pub mod arguments;
pub mod bigint;
pub mod blocks;
pub mod book;
pub mod bootstrap;
pub mod convergence;
pub mod counts;
pub mod curve;
pub mod desk;
pub mod dropped;
pub mod enclosure;
pub mod euro;
pub mod every_ground;
pub mod extrapolation;
pub mod forwards;
pub mod interval;
pub mod journal;
pub mod known;
pub mod market;
pub mod page;
pub mod profiled;
pub mod questions;
pub mod rates;
pub mod records;
pub mod refusal;
pub mod series;
pub mod sheet;
pub mod shift;
pub mod shifts;
pub mod streams;
pub mod sums;
pub mod true_curve;
pub mod true_value;
pub mod valuation;
pub mod weights;
pub mod withdrawn;
