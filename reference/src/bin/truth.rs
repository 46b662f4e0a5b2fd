//! Reads a sheet of any profile from standard input and an order n as first argument; writes
//! `year low high inside low-rate high-rate between` for each year, with `-` in place of the
//! last three where the year has no rates, or the line of the refusal. With `adjusted` as a
//! further argument the years are those of the adjusted curve, in place of the plain one; it is
//! refused with 14 where the sheet has none. With `slack` as last argument each line also gives
//! the true factor less the low and the high less the true factor, in billionths.
//!
//!     truth ORDER [adjusted] [slack] < sheet

use std::io::{self, Read, Write};
use std::process::ExitCode;

use reference::curve::{Curve, Curves, Which};
use reference::refusal::Refusal;
use reference::sheet::Sheet;
use reference::true_curve::{check, NoYearlyFactor, RateCheck, YearCheck, SLACK_UNIT};

fn main() -> io::Result<ExitCode> {
    let words: Vec<_> = std::env::args().skip(1).collect();
    let Some((order, which, with_slack)) = arguments(&words) else {
        eprintln!("usage: truth ORDER [adjusted] [slack] < sheet");
        return Ok(ExitCode::FAILURE);
    };
    let mut bytes = Vec::new();
    io::stdin().lock().read_to_end(&mut bytes)?;
    let mut output = io::BufWriter::new(io::stdout().lock());
    let code = match sheet_and_curve(&bytes, which) {
        Ok((sheet, curve)) => {
            write_checks(check(&sheet, which, &curve, order), with_slack, &mut output)?
        }
        Err(refusal) => {
            writeln!(output, "{refusal}")?;
            ExitCode::SUCCESS
        }
    };
    output.flush()?;
    Ok(code)
}

/// The order, the curve and whether slack is told; none where the words are others.
fn arguments(words: &[String]) -> Option<(usize, Which, bool)> {
    let (order, rest) = words.split_first()?;
    let (which, with_slack) = match rest.iter().map(String::as_str).collect::<Vec<_>>()[..] {
        [] => (Which::Plain, false),
        ["slack"] => (Which::Plain, true),
        ["adjusted"] => (Which::Adjusted, false),
        ["adjusted", "slack"] => (Which::Adjusted, true),
        _ => return None,
    };
    Some((order.parse().ok()?, which, with_slack))
}

fn sheet_and_curve(bytes: &[u8], which: Which) -> Result<(Sheet, Curve), Refusal> {
    let sheet = Sheet::read(bytes)?;
    let curves = Curves::of(&sheet)?;
    let curve = curves.get(which).ok_or(Refusal::plain(14))?;
    Ok((sheet, curve.clone()))
}

fn write_checks(
    checks: Result<Vec<YearCheck>, NoYearlyFactor>,
    with_slack: bool,
    output: &mut impl Write,
) -> io::Result<ExitCode> {
    match checks {
        Ok(checks) => {
            for check in checks {
                writeln!(output, "{}", line(&check, with_slack))?;
            }
            Ok(ExitCode::SUCCESS)
        }
        Err(missing) => {
            eprintln!(
                "no true yearly factor in the gap or year that ends at {}",
                missing.maturity
            );
            Ok(ExitCode::FAILURE)
        }
    }
}

fn line(check: &YearCheck, with_slack: bool) -> String {
    let (low, high, inside) = (check.factor.low, check.factor.high, yes_or_no(check.inside));
    let rates = check.rates.map_or("- - -".to_string(), rate_words);
    let line = format!("{} {low} {high} {inside} {rates}", check.year);
    if !with_slack {
        return line;
    }
    format!(
        "{line} {} {}",
        decimal(check.slack_below),
        decimal(check.slack_above)
    )
}

fn rate_words(check: RateCheck) -> String {
    let (low, high) = (check.rates.low, check.rates.high);
    format!("{low} {high} {}", yes_or_no(check.between))
}

fn yes_or_no(answer: bool) -> &'static str {
    if answer {
        "yes"
    } else {
        "no"
    }
}

/// A slack in billionths with six decimal places.
fn decimal(slack: i128) -> String {
    let sign = if slack < 0 { "-" } else { "" };
    let size = slack.unsigned_abs();
    let unit = SLACK_UNIT.unsigned_abs();
    format!("{sign}{}.{:06}", size / unit, size % unit)
}
