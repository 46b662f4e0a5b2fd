//! The true curve of order n, whether a curve's enclosures hold it, whether its own rate lies
//! between the curve's rates, and whether its sums lie between the ends of the curve's sums.
//!
//! Years from the quotes are exact fractions: the earlier years' sum and the newest
//! factor share one denominator, below 1,700 bits up to order 3 whichever maturities
//! are traded, so the search for a gap's yearly factor compares whole numbers and no
//! tie can be undecided. Where smoothing starts after a single year, not a gap, its yearly factor is
//! that year's fraction over the one before. So are adjusted years to the smoothing year: e to minus
//! the adjustment of order n is a fraction too, of a denominator below 300 bits up to order 3.
//! From the logarithm on, exact fractions would grow to millions of digits; there
//! every value is an interval of fixed-point numbers with 1,024 bits (308 decimal
//! digits) and outward rounding, and the precision is doubled when a comparison with
//! a low or a high is undecided. Growth at a rate is an exact fraction in every year. A sum is an
//! exact fraction where its last factor is one: sums of fractions can meet an end that none of
//! their terms meets, and no interval would decide that.

use crate::bigint::BigInt;
use crate::convergence::RATE_BOUND;
use crate::curve::{Curve, Which, YEARS};
use crate::enclosure::{Enclosure, RATE_STEP, RATE_UNIT, U};
use crate::interval::Interval;
use crate::market::Market;
use crate::rates::ZeroRates;
use crate::sheet::Sheet;
use crate::sums::Sums;
use crate::weights::HORIZON;

/// Terms of the logarithm's sum at order 0.
const LOG_TERMS: usize = 5;

/// Last term of the exponential's sum at order 0.
const LAST_EXP_TERM: usize = 12;

/// Decimal places of a gap's yearly factor at order 0.
const YEARLY_FACTOR_PLACES: usize = 9;

/// Bits of the fixed-point numbers, tried in turn.
pub(crate) const PRECISIONS: [usize; 5] = [1_024, 2_048, 4_096, 8_192, 16_384];

/// Parts of a billionth in which slack is told.
pub const SLACK_UNIT: i128 = 1_000_000;

/// A fraction with a denominator above 0.
#[derive(Clone, Debug)]
pub struct Fraction {
    pub numerator: BigInt,
    pub denominator: BigInt,
}

impl Fraction {
    /// `numerator / denominator`, for a denominator above 0.
    pub fn new(numerator: i128, denominator: i128) -> Self {
        Fraction {
            numerator: BigInt::from(numerator),
            denominator: BigInt::from(denominator),
        }
    }

    /// The quotient by a fraction, not in lowest terms; none unless that one is above 0.
    fn over(&self, other: &Self) -> Option<Self> {
        other.numerator.is_positive().then(|| Fraction {
            numerator: &self.numerator * &other.denominator,
            denominator: &self.denominator * &other.numerator,
        })
    }

    /// The product, not in lowest terms.
    fn times(&self, other: &Self) -> Self {
        Fraction {
            numerator: &self.numerator * &other.numerator,
            denominator: &self.denominator * &other.denominator,
        }
    }

    /// The sum with a fraction whose denominator is a multiple of this one, over that denominator.
    /// The years' fractions are such, each beside the one before it, so that their sums stay short.
    pub(crate) fn plus_next(&self, next: &Self) -> Self {
        let more = next.denominator.div_down(&self.denominator);
        assert!(&more * &self.denominator == next.denominator);
        Fraction {
            numerator: &(&self.numerator * &more) + &next.numerator,
            denominator: next.denominator.clone(),
        }
    }

    /// The interval of `bits` that holds the fraction.
    pub(crate) fn interval(&self, bits: usize) -> Interval {
        Interval::ratio(&self.numerator, &self.denominator, bits)
    }
}

/// How one year's enclosure stands to the true factor.
#[derive(Clone, Copy, Debug, PartialEq, Eq)]
pub struct YearCheck {
    pub year: usize,
    pub factor: Enclosure,
    /// Whether low ≤ true factor ≤ high.
    pub inside: bool,
    /// True factor less low in millionths of a billionth, rounded down.
    pub slack_below: i128,
    /// High less true factor in millionths of a billionth, rounded down.
    pub slack_above: i128,
    /// Of a year that has rates: how they stand to it.
    pub rates: Option<RateCheck>,
}

impl YearCheck {
    /// Whether the enclosure and, where there are any, the rates hold the true curve.
    pub fn holds(&self) -> bool {
        self.inside && self.rates.is_none_or(|rates| rates.between)
    }
}

/// How one year's rates stand to the true curve's own rate.
#[derive(Clone, Copy, Debug, PartialEq, Eq)]
pub struct RateCheck {
    pub rates: ZeroRates,
    /// Whether the true factor times the growth, without rounding, is at most U × U at the
    /// low rate and at least U × U at the high rate.
    pub between: bool,
}

/// How the sum of years 1 to one year stands to the true curve's sum.
#[derive(Clone, Copy, Debug, PartialEq, Eq)]
pub struct SumCheck {
    pub year: usize,
    pub sum: Enclosure,
    /// Whether low ≤ true sum ≤ high.
    pub inside: bool,
}

/// How a curve and its sums stand to the true curve, year by year.
#[derive(Clone, Debug, PartialEq, Eq)]
pub struct Checks {
    pub years: Vec<YearCheck>,
    pub sums: Vec<SumCheck>,
}

/// The true curve could not be worked: no multiple is the largest at or below par, or the year
/// before a single one has no factor above 0.
#[derive(Clone, Copy, Debug, PartialEq, Eq)]
pub struct NoYearlyFactor {
    /// Last maturity of the gap, or that single year.
    pub maturity: u8,
}

/// Checks every year of `curve` against the named true curve of the sheet, of order `order`.
/// A true adjusted curve is asked for of sheets with an adjustment alone.
pub fn check(
    sheet: &Sheet,
    which: Which,
    curve: &Curve,
    order: usize,
) -> Result<Vec<YearCheck>, NoYearlyFactor> {
    Ok(check_all(sheet, which, curve, &Sums::of(curve), order)?.years)
}

/// Checks every year of `curve`, and every one of the sums, against the same true curve; what
/// takes long, the true curve, is worked once for both.
pub fn check_all(
    sheet: &Sheet,
    which: Which,
    curve: &Curve,
    sums: &Sums,
    order: usize,
) -> Result<Checks, NoYearlyFactor> {
    let mut quotes = TrueQuotes::of(sheet, order)?;
    if which == Which::Adjusted {
        quotes.adjust(sheet.adjustment.expect("a sheet with an adjustment"), order);
    }
    let liquid = liquid_checks(curve, sums, &quotes);
    let later = PRECISIONS
        .iter()
        .find_map(|&bits| extrapolated_checks(sheet, (curve, sums), &quotes, order, bits))
        .expect("a comparison stays undecided at the highest precision");
    Ok(Checks {
        years: [liquid.years, later.years].concat(),
        sums: [liquid.sums, later.sums].concat(),
    })
}

/// The part of the true curve that comes from the quotes.
pub(crate) struct TrueQuotes {
    market: Market,
    /// True factors of year 1 to the longest maturity that counts, or of adjusted years to the
    /// smoothing year, in billionths.
    factors: Vec<Fraction>,
    /// Every stretch of years with one forward.
    gaps: Vec<TrueGap>,
    /// What the last forward before smoothing starts has more in LLFR, as a part of one.
    gain: Fraction,
}

/// The years after `start` up to `end`, through which the forward is the same.
struct TrueGap {
    start: usize,
    end: usize,
    /// As a part of one.
    yearly_factor: Fraction,
}

impl TrueQuotes {
    pub(crate) fn of(sheet: &Sheet, order: usize) -> Result<TrueQuotes, NoYearlyFactor> {
        let market = sheet.market();
        let mut years = ExactYears::new(order);
        let mut gaps = Vec::new();
        for (&maturity, &rate) in market.maturities.iter().zip(sheet.quoted_rates()) {
            if nobody_trades(sheet, maturity) {
                continue;
            }
            let rate = BigInt::from(i128::from(rate));
            let (start, end) = (years.factors.len(), usize::from(maturity));
            let in_gap = match end - start {
                1 => None,
                gap_years => {
                    let found = years.fill_gap(gap_years, &rate);
                    Some(found.ok_or(NoYearlyFactor { maturity })?)
                }
            };
            years.push_par_factor(&rate);
            let single = || years.last_over_the_one_before();
            let yearly_factor = match in_gap {
                None if end == market.smoothing_year() => {
                    Some(single().ok_or(NoYearlyFactor { maturity })?)
                }
                in_gap => in_gap,
            };
            gaps.extend(yearly_factor.map(|yearly_factor| TrueGap {
                start,
                end,
                yearly_factor,
            }));
        }
        Ok(TrueQuotes {
            market,
            factors: years.factors,
            gaps,
            gain: Fraction::new(0, 1),
        })
    }

    /// The factors of years 1 to the smoothing year.
    pub(crate) fn liquid(&self) -> &[Fraction] {
        &self.factors[..self.market.smoothing_year()]
    }

    /// Makes the plain years to the smoothing year the adjusted ones: that of year t times the t-th
    /// power of e to minus the adjustment; the last forward of them gains the adjustment. Later years
    /// are not on the curve.
    fn adjust(&mut self, adjustment: i16, order: usize) {
        let yearly = true_exp_of_minus(adjustment, order);
        let mut power = Fraction::new(1, 1);
        self.factors.truncate(self.market.smoothing_year());
        for factor in &mut self.factors {
            power = power.times(&yearly);
            *factor = factor.times(&power);
        }
        self.gain = Fraction::new(i128::from(adjustment), RATE_UNIT);
    }

    /// The sums of years 1 to each year up to the smoothing year.
    fn sums(&self) -> Vec<Fraction> {
        let mut sum = Fraction::new(0, 1);
        let next = |factor| {
            sum = sum.plus_next(factor);
            sum.clone()
        };
        self.liquid().iter().map(next).collect()
    }
}

/// e to minus the adjustment, of order n: one over the sum at an adjustment of 0 or more, else
/// the sum at its size.
fn true_exp_of_minus(adjustment: i16, order: usize) -> Fraction {
    let size = i128::from(adjustment).abs();
    let (mut numerator, mut denominator) = (BigInt::one(), BigInt::one());
    // 1 + y/1 × (1 + y/2 × (1 + ..)), from the last term inward, with y = size / 100,000.
    for i in (1..=LAST_EXP_TERM + order).rev() {
        denominator = &denominator * &BigInt::from(RATE_UNIT * i as i128);
        numerator = &denominator + &(&numerator * &BigInt::from(size));
    }
    if adjustment < 0 {
        Fraction {
            numerator,
            denominator,
        }
    } else {
        Fraction {
            numerator: denominator,
            denominator: numerator,
        }
    }
}

/// Whether supervisors dropped the maturity: one beyond the smoothing year whose volume is 0. The
/// curve then runs on as if it were not quoted.
fn nobody_trades(sheet: &Sheet, maturity: u8) -> bool {
    let beyond = usize::from(maturity) > sheet.market().smoothing_year();
    beyond && volumes(sheet).any(|(of, volume)| of == maturity && volume == 0)
}

/// The maturities whose volume the sheet carries, each with it.
fn volumes(sheet: &Sheet) -> impl Iterator<Item = (u8, u32)> + '_ {
    let maturities = sheet.market().volume_maturities.iter();
    maturities
        .copied()
        .zip(sheet.carried_volumes().iter().copied())
}

/// The true years worked so far. Last factor and sum are over the same `denominator`.
struct ExactYears {
    factors: Vec<Fraction>,
    last: BigInt,
    sum: BigInt,
    denominator: BigInt,
    /// 10^(9 + n): yearly factors are multiples of one over it.
    grid: BigInt,
}

impl ExactYears {
    fn new(order: usize) -> Self {
        ExactYears {
            factors: Vec::new(),
            last: BigInt::zero(),
            sum: BigInt::zero(),
            denominator: BigInt::one(),
            grid: BigInt::from(10).pow(YEARLY_FACTOR_PLACES + order),
        }
    }

    /// Appends the factor `last / denominator` and adds it to the sum.
    fn push(&mut self, last: BigInt) {
        self.sum = &self.sum + &last;
        self.factors.push(Fraction {
            numerator: last.clone(),
            denominator: self.denominator.clone(),
        });
        self.last = last;
    }

    /// Brings everything over the denominator times `factor`.
    fn extend_denominator(&mut self, factor: &BigInt) {
        self.last = &self.last * factor;
        self.sum = &self.sum * factor;
        self.denominator = &self.denominator * factor;
    }

    /// Appends a quoted year by par.
    fn push_par_factor(&mut self, rate: &BigInt) {
        let divisor = &BigInt::from(RATE_UNIT) + rate;
        let par = &BigInt::from(RATE_UNIT * U) * &self.denominator;
        let numerator = &par - &(rate * &self.sum);
        self.extend_denominator(&divisor);
        self.push(numerator);
    }

    /// The last year's factor over that of the year before it, which is above 0; else none.
    fn last_over_the_one_before(&self) -> Option<Fraction> {
        match &self.factors[..] {
            [.., before, last] => last.over(before),
            _ => None,
        }
    }

    /// Appends the years inside a gap that ends with a quote of `rate`, and hands back the
    /// gap's yearly factor; none if there is no such factor.
    fn fill_gap(&mut self, gap_years: usize, rate: &BigInt) -> Option<Fraction> {
        let multiple = self.largest_multiple(gap_years, rate)?;
        let grid = self.grid.clone();
        for _ in 1..gap_years {
            let next = &self.last * &multiple;
            self.extend_denominator(&grid);
            self.push(next);
        }
        Some(Fraction {
            numerator: multiple,
            denominator: grid,
        })
    }

    /// The largest whole number from 0 up whose multiple of one over the grid puts
    /// the swap's value at most at par; none if there is no such number.
    ///
    /// Halving is sound: for a rate of 0 or more the value rises with the yearly
    /// factor; for one below 0 only the highest power has a positive coefficient, so
    /// value less par changes sign once from 0 up.
    fn largest_multiple(&self, gap_years: usize, rate: &BigInt) -> Option<BigInt> {
        let at_most_par = |multiple: &BigInt| self.at_most_par(gap_years, rate, multiple);
        if !self.last.is_positive() || !at_most_par(&BigInt::zero()) {
            return None;
        }
        let mut low = BigInt::zero();
        let mut high = self.grid.clone();
        while at_most_par(&high) {
            low = high.clone();
            high = high.shift_left(1);
        }
        while (&high - &low) > BigInt::one() {
            let middle = (&low + &high).shift_right_down(1);
            if at_most_par(&middle) {
                low = middle;
            } else {
                high = middle;
            }
        }
        Some(low)
    }

    /// Whether rate × (A + S) + 100,000 × Tk ≤ 100,000 × U, compared as whole numbers
    /// after multiplying both sides by denominator × grid^k.
    fn at_most_par(&self, gap_years: usize, rate: &BigInt, multiple: &BigInt) -> bool {
        let mut term = self.last.clone();
        let mut sum = self.sum.clone();
        let mut denominator = self.denominator.clone();
        for _ in 0..gap_years {
            term = &term * multiple;
            sum = &(&sum * &self.grid) + &term;
            denominator = &denominator * &self.grid;
        }
        let value = &(rate * &sum) + &(&BigInt::from(RATE_UNIT) * &term);
        value <= &BigInt::from(RATE_UNIT * U) * &denominator
    }
}

/// The checks of years 1 to the smoothing year, where all is an exact fraction.
fn liquid_checks(curve: &Curve, sums: &Sums, quotes: &TrueQuotes) -> Checks {
    let years = (1..).zip(quotes.liquid());
    let true_sums = quotes.sums();
    Checks {
        years: years
            .map(|(year, exact)| exact_check(year, curve.factor(year), exact))
            .collect(),
        sums: (1..)
            .zip(&true_sums)
            .map(|(year, exact)| exact_sum_check(year, sums.to(year), exact))
            .collect(),
    }
}

/// The check of a sum whose true sum is an exact fraction.
fn exact_sum_check(year: usize, sum: Enclosure, exact: &Fraction) -> SumCheck {
    let inside = exactly_inside(sum, exact);
    SumCheck { year, sum, inside }
}

/// Whether low ≤ the fraction ≤ high.
pub(crate) fn exactly_inside(ends: Enclosure, exact: &Fraction) -> bool {
    let over = |bound: i128| &BigInt::from(bound) * &exact.denominator;
    over(ends.low) <= exact.numerator && exact.numerator <= over(ends.high)
}

/// The check of a year whose true factor is an exact fraction.
fn exact_check(year: usize, factor: Enclosure, exact: &Fraction) -> YearCheck {
    let over = |bound: i128| &BigInt::from(bound) * &exact.denominator;
    let below = &exact.numerator - &over(factor.low);
    let above = &over(factor.high) - &exact.numerator;
    let slack = |difference: &BigInt| {
        (difference * &BigInt::from(SLACK_UNIT))
            .div_down(&exact.denominator)
            .to_i128()
            .expect("slack within 128 bits")
    };
    YearCheck {
        year,
        factor,
        inside: !below.is_negative() && !above.is_negative(),
        slack_below: slack(&below),
        slack_above: slack(&above),
        rates: ZeroRates::of(factor, year).map(|rates| exact_rate_check(year, rates, exact)),
    }
}

/// The check of the rates of a year whose true factor is an exact fraction.
fn exact_rate_check(year: usize, rates: ZeroRates, exact: &Fraction) -> RateCheck {
    let worth = |rate| &exact.numerator * &power(rate, year);
    let par = &par(year) * &exact.denominator;
    RateCheck {
        rates,
        between: worth(rates.low) <= par && par <= worth(rates.high),
    }
}

/// (100,000 + rate)^t. A true factor times growth is at most U × U where the factor times this
/// is at most `par`, and so for at least: growth without rounding is U × this / 100,000^t.
fn power(rate: i32, years: usize) -> BigInt {
    BigInt::from(RATE_UNIT + i128::from(rate)).pow(years)
}

/// U × 100,000^t.
fn par(years: usize) -> BigInt {
    &BigInt::from(U) * &BigInt::from(RATE_UNIT).pow(years)
}

/// What an interval is above an enclosure's low and below its high.
pub(crate) fn distances(ends: Enclosure, enclosed: &Interval) -> [Interval; 2] {
    let bits = enclosed.bits();
    [
        enclosed.sub(&Interval::integer(ends.low, bits)),
        Interval::integer(ends.high, bits).sub(enclosed),
    ]
}

/// Whether neither distance is below 0, or none if undecided.
pub(crate) fn inside(distances: &[Interval; 2]) -> Option<bool> {
    let [below, above] = distances;
    Some(below.not_negative()? & above.not_negative()?)
}

/// The check of a sum whose true sum is an interval, or none if undecided.
fn interval_sum_check(year: usize, sum: Enclosure, enclosed: &Interval) -> Option<SumCheck> {
    let inside = inside(&distances(sum, enclosed))?;
    Some(SumCheck { year, sum, inside })
}

/// The check of a year whose true factor is an interval, or none if undecided.
fn interval_check(year: usize, factor: Enclosure, enclosed: &Interval) -> Option<YearCheck> {
    let distances = distances(factor, enclosed);
    let inside = inside(&distances)?;
    let [below, above] = distances;
    Some(YearCheck {
        year,
        factor,
        inside,
        slack_below: below.times(SLACK_UNIT).low_floor(),
        slack_above: above.times(SLACK_UNIT).low_floor(),
        rates: match ZeroRates::of(factor, year) {
            Some(rates) => Some(interval_rate_check(year, rates, enclosed)?),
            None => None,
        },
    })
}

/// The check of the rates of a year whose true factor is an interval, or none if undecided.
fn interval_rate_check(year: usize, rates: ZeroRates, enclosed: &Interval) -> Option<RateCheck> {
    let worth = |rate| enclosed.times_whole(&power(rate, year));
    let par = Interval::whole(&par(year), enclosed.bits());
    let at_most = par.sub(&worth(rates.low)).not_negative()?;
    let at_least = worth(rates.high).sub(&par).not_negative()?;
    Some(RateCheck {
        rates,
        between: at_most && at_least,
    })
}

/// The checks of the years past the smoothing year, or none if one is undecided at this precision.
fn extrapolated_checks(
    sheet: &Sheet,
    (curve, sums): (&Curve, &Sums),
    quotes: &TrueQuotes,
    order: usize,
    bits: usize,
) -> Option<Checks> {
    let smoothing_year = quotes.market.smoothing_year();
    let mut true_sum = quotes.sums()[smoothing_year - 1].interval(bits);
    let mut checks = Checks {
        years: Vec::new(),
        sums: Vec::new(),
    };
    let factors = true_extrapolation(sheet, quotes, order, bits);
    for (year, enclosed) in (smoothing_year + 1..=YEARS).zip(&factors) {
        let check = interval_check(year, curve.factor(year), enclosed)?;
        checks.years.push(check);
        true_sum = true_sum.add(enclosed);
        let check = interval_sum_check(year, sums.to(year), &true_sum)?;
        checks.sums.push(check);
    }
    Some(checks)
}

/// True factors of the years past the smoothing year, in billionths.
pub(crate) fn true_extrapolation(
    sheet: &Sheet,
    quotes: &TrueQuotes,
    order: usize,
    bits: usize,
) -> Vec<Interval> {
    let ultimate = true_log_ultimate(sheet.ufr, order, bits);
    let last_liquid = true_last_liquid_forward(sheet, quotes, order, bits);
    let smoothing_year = quotes.market.smoothing_year();
    let mut factor = quotes.factors[smoothing_year - 1].interval(bits);
    let mut factors = Vec::new();
    let weights = true_weights(&true_convergence(sheet), order, bits);
    for weight in weights.into_iter().take(YEARS - smoothing_year) {
        let rest = Interval::integer(1, bits).sub(&weight);
        let forward = ultimate.mul(&rest).add(&last_liquid.mul(&weight));
        factor = factor.mul(&exp_of_minus(&forward, order));
        factors.push(factor.clone());
    }
    factors
}

/// ln(1 + UFR) as a part of one: minus G at U + 10,000 × UFR.
fn true_log_ultimate(ufr: u16, order: usize, bits: usize) -> Interval {
    let x = BigInt::from(U + RATE_STEP * i128::from(ufr));
    true_neg_log(&x, &BigInt::from(U), order, bits).neg()
}

/// G at x / one, as a part of one. The sum is odd in z, so a signed z covers x above
/// one as well.
fn true_neg_log(x: &BigInt, one: &BigInt, order: usize, bits: usize) -> Interval {
    let z = Interval::ratio(&(one - x), &(one + x), bits);
    let square = z.mul(&z);
    let mut power = z.clone();
    let mut sum = z;
    for i in 1..LOG_TERMS + order {
        power = power.mul(&square);
        sum = sum.add(&power.div_whole(2 * i as i128 + 1));
    }
    sum.times(2)
}

/// LLFR as a part of one: the last forward before smoothing starts and those from the smoothing year
/// to each traded maturity after it, weighed by volume.
fn true_last_liquid_forward(
    sheet: &Sheet,
    quotes: &TrueQuotes,
    order: usize,
    bits: usize,
) -> Interval {
    let smoothing_year = quotes.market.smoothing_year();
    let before = quotes.market.years_before_smoothing().start() - 1;
    let traded: Vec<_> = volumes(sheet).filter(|&(_, volume)| volume > 0).collect();
    let mut sum = Interval::integer(0, bits);
    for &(maturity, volume) in &traded {
        let maturity = usize::from(maturity);
        let forward = if maturity == smoothing_year {
            let gain = quotes.gain.interval(bits);
            quotes.forward(before, maturity, order, bits).add(&gain)
        } else {
            quotes.forward(smoothing_year, maturity, order, bits)
        };
        sum = sum.add(&forward.times(i128::from(volume)));
    }
    sum.div_whole(traded.iter().map(|&(_, volume)| i128::from(volume)).sum())
}

impl TrueQuotes {
    /// The forward from `start` to `end`, both ends of gaps, as a part of one: that of every
    /// gap between them, as often as the gap has years, over all years.
    fn forward(&self, start: usize, end: usize, order: usize, bits: usize) -> Interval {
        let between = |gap: &&TrueGap| start <= gap.start && gap.end <= end;
        let mut sum = Interval::integer(0, bits);
        for gap in self.gaps.iter().filter(between) {
            let (x, one) = (&gap.yearly_factor.numerator, &gap.yearly_factor.denominator);
            let forward = true_neg_log(x, one, order, bits);
            sum = sum.add(&forward.times((gap.end - gap.start) as i128));
        }
        sum.div_whole((end - start) as i128)
    }
}

/// The convergence factor as a part of one, in the words of the phase-in paper: ten percent
/// at a rate of 0.5% or higher in the smoothing year, X at -0.5% or lower, linear between them.
pub fn true_convergence(sheet: &Sheet) -> Fraction {
    let (rate, bound) = (i128::from(sheet.smoothing_rate()), i128::from(RATE_BOUND));
    let x = i128::from(sheet.x());
    if rate >= bound {
        Fraction::new(1, 10)
    } else if rate <= -bound {
        Fraction::new(x, RATE_UNIT)
    } else {
        // The mean of both ends, each weighed by the distance from the other.
        let ten_percent = RATE_UNIT / 10;
        let sum = (rate + bound) * ten_percent + (bound - rate) * x;
        Fraction::new(sum, 2 * bound * RATE_UNIT)
    }
}

/// k(1) to k(140) of order n at `convergence`, all as parts of one.
pub fn true_weights(convergence: &Fraction, order: usize, bits: usize) -> Vec<Interval> {
    let one_over = Fraction {
        numerator: convergence.denominator.clone(),
        denominator: convergence.numerator.clone(),
    };
    let q = exp_sum(&convergence.interval(bits), order).reciprocal();
    let mut weight = Interval::integer(1, bits)
        .sub(&q)
        .mul(&one_over.interval(bits));
    let mut weights = Vec::new();
    for _ in 0..HORIZON {
        weights.push(weight.clone());
        weight = weight.mul(&q);
    }
    weights
}

/// The exponential's sum through term 12 + n, for `y` from 0 up.
fn exp_sum(y: &Interval, order: usize) -> Interval {
    let mut term = Interval::integer(1, y.bits());
    let mut sum = term.clone();
    for i in 1..=LAST_EXP_TERM + order {
        term = term.mul(y).div_whole(i as i128);
        sum = sum.add(&term);
    }
    sum
}

/// e to minus the forward. On both sides of 0 it falls as the forward rises and both
/// sides meet in 1, so the ends of the forward give the ends of the result.
fn exp_of_minus(forward: &Interval, order: usize) -> Interval {
    let low = exp_of_minus_point(&forward.high_point(), order);
    let high = exp_of_minus_point(&forward.low_point(), order);
    low.up_to(&high)
}

/// e to minus an exact forward: one over the sum for 0 or more, else the sum.
fn exp_of_minus_point(forward: &Interval, order: usize) -> Interval {
    if forward.low_is_negative() {
        exp_sum(&forward.neg(), order)
    } else {
        exp_sum(forward, order).reciprocal()
    }
}
