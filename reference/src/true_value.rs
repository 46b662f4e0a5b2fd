//! Whether the true curve's value of a list of cash flows lies between the ends of its value: the
//! sum of cents × true factor / U. It is compared in billionths of a cent, so that nothing is
//! divided.

use crate::bigint::BigInt;
use crate::curve::YEARS;
use crate::enclosure::{Enclosure, U};
use crate::interval::Interval;
use crate::sheet::Sheet;
use crate::true_curve::{
    distances, exactly_inside, inside, true_extrapolation, Fraction, NoYearlyFactor, TrueQuotes,
    PRECISIONS,
};
use crate::valuation::Flow;

/// Says of each list, whose entries are all in range, whether low ≤ its value ≤ high on the true
/// plain curve of the sheet, of order `order`; the true curve is worked once for all.
pub fn check_values(
    sheet: &Sheet,
    values: &[(&[Flow], Enclosure)],
    order: usize,
) -> Result<Vec<bool>, NoYearlyFactor> {
    let quotes = TrueQuotes::of(sheet, order)?;
    let all_inside = |&bits: &usize| -> Option<Vec<bool>> {
        let later = true_extrapolation(sheet, &quotes, order, bits);
        let values = values.iter();
        values
            .map(|(flows, ends)| lies_between(quotes.liquid(), &later, flows, *ends))
            .collect()
    };
    let decided = PRECISIONS.iter().find_map(all_inside);
    Ok(decided.expect("a comparison stays undecided at the highest precision"))
}

/// The same of one list, or none if undecided. Without cents past the smoothing year the value is
/// an exact fraction, which can meet an end.
fn lies_between(
    liquid: &[Fraction],
    later: &[Interval],
    flows: &[Flow],
    ends: Enclosure,
) -> Option<bool> {
    let cents: Vec<i128> = (1..=YEARS).map(|year| cents_of(flows, year)).collect();
    let (early, late) = cents.split_at(liquid.len());
    let exact = exact_value(liquid, early);
    let ends = ends.times(U);
    if late.iter().all(|&cents| cents == 0) {
        return Some(exactly_inside(ends, &exact));
    }
    let parts = later.iter().zip(late);
    let parts = parts.map(|(factor, &cents)| factor.times(cents));
    let value = parts.fold(exact.interval(later[0].bits()), |sum, part| sum.add(&part));
    inside(&distances(ends, &value))
}

/// All cents of one year.
fn cents_of(flows: &[Flow], year: usize) -> i128 {
    let of_year = flows.iter().filter(|flow| flow.year == year as u64);
    of_year.map(|flow| i128::from(flow.cents)).sum()
}

fn exact_value(factors: &[Fraction], cents: &[i128]) -> Fraction {
    let mut sum = Fraction::new(0, 1);
    for (factor, &cents) in factors.iter().zip(cents) {
        sum = sum.plus_next(&Fraction {
            numerator: &factor.numerator * &BigInt::from(cents),
            denominator: factor.denominator.clone(),
        });
    }
    sum
}
