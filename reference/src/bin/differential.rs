//! Runs another desk program on seeded record streams and compares its lines, byte for byte, with
//! this implementation's; fails where no look-up was turned down on 17, where no sheet was
//! accepted with some gap that runs on over a dropped maturity, where some tail of a sheet, or a
//! refusal for the adjusted curve alone, was not met, where no accepted post shows that nothing
//! is added to the high of a known logarithm or growth, or where some profile was not accepted in
//! some form or did not meet one of its grounds. Then checks on sampled sheets of all markets
//! that the bands of the plain and the adjusted curve hold their true factors of orders 0 to 3,
//! that the true curves' own rates lie between the rates, that their sums of years 1 to each year
//! lie between the ends of the sums, and that the true plain curve's values of lists of cash
//! flows lie between the book's; some of these sheets must meet a known value.
//!
//!     differential DESK [SEED [POSTS [SAMPLES]]]

use std::collections::BTreeMap;
use std::fmt;
use std::io::Write;
use std::process::{Command, ExitCode, Stdio};

use reference::adjusted::adjusted_sheet;
use reference::blocks::block;
use reference::book::Book;
use reference::counts::PostCounts;
use reference::curve::{Curve, Curves, Which, YEARS};
use reference::desk::run_desk;
use reference::dropped::dropped_sheet;
use reference::journal::calls;
use reference::known::known_sheet;
use reference::market::Market;
use reference::profiled::small_sheet;
use reference::rates::ZeroRates;
use reference::sheet::Sheet;
use reference::streams::{sheet, sheet_bytes, steep_sheet, stream, worked, Random};
use reference::sums::{Sums, Wanted};
use reference::true_curve::check_all;
use reference::true_value::check_values;
use reference::valuation::Flow;

/// Records in a stream; about four in ten are posts.
const RECORDS: usize = 1_000;
const ORDERS: usize = 4;

/// Of so many samples one is a steep sheet, in which some years have no high rate, two have
/// dropped quotes, three an adjustment, two meet a known value and two are of the smaller markets.
const ROUND: u64 = 12;

/// Lists of cash flows that are valued on each sampled sheet.
const LISTS: usize = 10;

/// So many samples have all of these among them.
const ENOUGH: u64 = 10;

/// What was compared.
#[derive(Default)]
struct Compared {
    posts: u64,
    /// Look-ups of years that have no high rate.
    without_rates: u64,
    counts: PostCounts,
}

/// What was checked against the true curves of all orders.
#[derive(Default)]
struct Checked {
    sheets: u64,
    adjusted: u64,
    years_with_rates: u64,
    years_without: u64,
    /// Sums, each against the true ones of all orders, and those of them that are wider than the
    /// sheet's limit, which is the factors' alone.
    sums: u64,
    wide_sums: u64,
    /// Values, each against the true ones of all orders.
    values: u64,
    counts: PostCounts,
    /// Sheets by profile.
    by_profile: BTreeMap<u8, u64>,
}

impl Checked {
    fn of(&self, market: Market) -> u64 {
        let sheets = self.by_profile.get(&market.profile);
        sheets.copied().unwrap_or_default()
    }

    /// Says what so many samples should have met and did not.
    fn check(&self) -> Result<(), String> {
        if self.counts.known.all() == 0 {
            return Err("no sampled sheet meets a known value".to_string());
        }
        match Market::ALL.iter().find(|&&market| self.of(market) == 0) {
            Some(market) => Err(format!("no sampled sheet has profile {}", market.profile)),
            None => Ok(()),
        }
    }
}

impl fmt::Display for Checked {
    fn fmt(&self, f: &mut fmt::Formatter<'_>) -> fmt::Result {
        write!(
            f,
            "the plain curves of {} sheets, {} with dropped quotes, {} of profile 2 and {} of \
             profile 3, and {} adjusted ones hold their true factors of orders 0 to 3, and {} of \
             their years the true rates, {} have none; {} sums hold the true ones, {} of them wider \
             than the limit, and {} values of cash flows theirs; slack at known values would change \
             {} sheets of the euro",
            self.sheets,
            self.counts.dropped.all.accepted,
            self.of(Market::TO_10),
            self.of(Market::TO_15),
            self.adjusted,
            self.years_with_rates,
            self.years_without,
            self.sums,
            self.wide_sums,
            self.values,
            self.counts.known.all()
        )
    }
}

fn main() -> ExitCode {
    let mut arguments = std::env::args().skip(1);
    let Some(desk) = arguments.next() else {
        eprintln!("usage: differential DESK [SEED [POSTS [SAMPLES]]]");
        return ExitCode::FAILURE;
    };
    let mut number = |default: u64| {
        arguments
            .next()
            .and_then(|word| word.parse().ok())
            .unwrap_or(default)
    };
    let (seed, posts, samples) = (number(1), number(100_000), number(200));
    match compare_desks(&desk, seed, posts).and_then(|done| {
        let (posts, without_rates) = (done.posts, done.without_rates);
        eprintln!("{posts} posts and {without_rates} refusals on 17 compared, no difference");
        println!("{}", done.counts);
        check_truth(seed, samples)
    }) {
        Ok(checked) => {
            println!("desks agree; {checked}");
            ExitCode::SUCCESS
        }
        Err(text) => {
            println!("{text}");
            ExitCode::FAILURE
        }
    }
}

fn compare_desks(desk: &str, seed: u64, posts: u64) -> Result<Compared, String> {
    let mut done = Compared::default();
    let mut number = 0;
    while done.posts < posts {
        let stream_seed = seed.wrapping_mul(1_000_003).wrapping_add(number);
        let input = stream(stream_seed, RECORDS);
        let mut expected = Vec::new();
        run_desk(&input[..], &mut expected).map_err(|e| e.to_string())?;
        let found = run_program(desk, &input)?;
        if found != expected {
            return Err(difference(stream_seed, &found, &expected));
        }
        done.count(&input, &String::from_utf8_lossy(&expected));
        number += 1;
        if number % 20 == 0 {
            eprintln!("{} posts", done.posts);
        }
    }
    if posts > 0 && done.without_rates == 0 {
        return Err("no look-up was turned down on 17".to_string());
    }
    if posts > 0 {
        done.counts.check()?;
    }
    Ok(done)
}

impl Compared {
    /// Counts the records that were answered, so that the figure is honest where a stream was
    /// cut.
    fn count(&mut self, input: &[u8], lines: &str) {
        for (call, line) in calls(input).zip(lines.lines()) {
            if let Some(sheet) = call.posted() {
                self.posts += 1;
                self.counts.count(sheet, refused_on(line));
            }
            self.without_rates += u64::from(line == "R 17 0");
        }
    }
}

/// The number of a line's refusal, or 0.
fn refused_on(line: &str) -> u8 {
    let mut words = line.split(' ');
    match (words.next(), words.next()) {
        (Some("R"), Some(number)) => number.parse().expect("a ground's number"),
        _ => 0,
    }
}

fn run_program(desk: &str, input: &[u8]) -> Result<Vec<u8>, String> {
    let mut child = Command::new(desk)
        .stdin(Stdio::piped())
        .stdout(Stdio::piped())
        .spawn()
        .map_err(|e| format!("{desk}: {e}"))?;
    let mut stdin = child.stdin.take().ok_or("no standard input")?;
    let bytes = input.to_vec();
    // The desk answers while it reads: writing on a thread keeps both pipes moving.
    let writer = std::thread::spawn(move || stdin.write_all(&bytes).is_ok());
    let output = child.wait_with_output().map_err(|e| e.to_string())?;
    // A desk may stop reading at an unknown kind, so a broken pipe is no fault.
    writer
        .join()
        .map_err(|_| "the writer stopped".to_string())?;
    Ok(output.stdout)
}

fn difference(seed: u64, found: &[u8], expected: &[u8]) -> String {
    let found = String::from_utf8_lossy(found).into_owned();
    let expected = String::from_utf8_lossy(expected).into_owned();
    let line = found
        .lines()
        .zip(expected.lines())
        .position(|(a, b)| a != b)
        .unwrap_or_else(|| found.lines().count().min(expected.lines().count()));
    format!(
        "stream {seed}, line {}: found {:?}, expected {:?}",
        line + 1,
        found.lines().nth(line),
        expected.lines().nth(line)
    )
}

fn check_truth(seed: u64, samples: u64) -> Result<Checked, String> {
    // Lists have random numbers of their own: the sheets are then those of the seed alone.
    let (mut random, mut of_lists) = (Random::new(seed), Random::new(!seed));
    let mut checked = Checked::default();
    while checked.sheets < samples {
        let sheet = match checked.sheets % ROUND {
            0 => steep_sheet(&mut random, 0),
            1 | 2 => dropped_sheet(&mut random, 0),
            3..=5 => adjusted_sheet(&mut random, 0),
            6 | 7 => known_sheet(&mut random, 0),
            8 => small_sheet(&mut random, Market::TO_10, 0),
            9 => small_sheet(&mut random, Market::TO_15, 0),
            _ => sheet(&mut random, 0),
        };
        if let Some(curves) = worked(&sheet) {
            let lists: [_; LISTS] = std::array::from_fn(|_| block(&mut of_lists));
            check_sheet(&sheet, &curves, &lists, &mut checked)?;
        }
    }
    if samples >= ENOUGH {
        checked.check()?;
    }
    Ok(checked)
}

fn check_sheet(
    sheet: &Sheet,
    curves: &Curves,
    lists: &[Vec<Flow>],
    checked: &mut Checked,
) -> Result<(), String> {
    let mut book = Book::new(0);
    book.post(&sheet_bytes(sheet))
        .map_err(|refusal| format!("{refusal}: {sheet:?}"))?;
    for which in Which::ALL {
        if let Some(curve) = curves.get(which) {
            let sums = Sums::of(curve);
            check_curve(sheet, which, curve, &sums, checked)?;
            check_held(&book, which, &sums).map_err(|text| format!("{text}: {sheet:?}"))?;
        }
    }
    check_lists(sheet, &book, lists)?;
    checked.values += lists.len() as u64;
    checked.adjusted += u64::from(curves.adjusted.is_some());
    checked.counts.count(&sheet_bytes(sheet), 0);
    let profile = sheet.market().profile;
    *checked.by_profile.entry(profile).or_default() += 1;
    checked.sheets += 1;
    if checked.sheets.is_multiple_of(50) {
        let (sheets, adjusted) = (checked.sheets, checked.adjusted);
        eprintln!(
            "{sheets} sheets, {adjusted} of them adjusted, hold their true factors, rates, sums and \
             values"
        );
    }
    Ok(())
}

fn check_curve(
    sheet: &Sheet,
    which: Which,
    curve: &Curve,
    sums: &Sums,
    checked: &mut Checked,
) -> Result<(), String> {
    for order in 0..ORDERS {
        let checks = check_all(sheet, which, curve, sums, order).map_err(|e| format!("{e:?}"))?;
        if let Some(year) = checks.years.iter().find(|year| !year.holds()) {
            return Err(format!("order {order}, {which:?}, {year:?}: {sheet:?}"));
        }
        if let Some(sum) = checks.sums.iter().find(|sum| !sum.inside) {
            return Err(format!("order {order}, {which:?}, {sum:?}: {sheet:?}"));
        }
    }
    let wide = |&year: &usize| sums.to(year).width() > i128::from(sheet.limit);
    checked.wide_sums += (1..=YEARS).filter(wide).count() as u64;
    checked.sums += YEARS as u64;
    let with_rates = |&year: &usize| ZeroRates::of(curve.factor(year), year).is_some();
    let with_rates = (1..=YEARS).filter(with_rates).count();
    checked.years_with_rates += with_rates as u64;
    checked.years_without += (YEARS - with_rates) as u64;
    Ok(())
}

/// Whether the book's values of the lists hold those of the true plain curve.
fn check_lists(sheet: &Sheet, book: &Book, lists: &[Vec<Flow>]) -> Result<(), String> {
    let mut values = Vec::new();
    for flows in lists {
        let valued = book.value(flows).map_err(|refusal| refusal.to_string())?;
        values.push((&flows[..], valued.amount));
    }
    for order in 0..ORDERS {
        let inside = check_values(sheet, &values, order).map_err(|e| format!("{e:?}"))?;
        if let Some(at) = inside.iter().position(|inside| !inside) {
            return Err(format!("order {order}, {:?}: {sheet:?}", values[at]));
        }
    }
    Ok(())
}

/// Whether the sums are those that the book of the sheet holds, in every year that it shows.
fn check_held(book: &Book, which: Which, sums: &Sums) -> Result<(), String> {
    for year in 1..=YEARS {
        let found = book.look_up_wanted(which, Wanted::Sum, year as u32);
        let other = found.ok().filter(|found| found.amount != sums.to(year));
        if let Some(found) = other {
            return Err(format!("{which:?}, sum of year {year}: {found:?}"));
        }
    }
    Ok(())
}
