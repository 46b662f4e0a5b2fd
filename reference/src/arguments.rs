//! The age limit as the optional argument of a program that reads a journal.

use std::ffi::OsString;
use std::num::IntErrorKind;
use std::process::ExitCode;

use crate::book::LARGEST_AGE_LIMIT;

/// The age limit that a program's arguments name, the largest where there is none. None
/// where there are several or the one is not a whole number.
pub fn age_limit(mut words: impl Iterator<Item = OsString>) -> Option<u64> {
    match (words.next(), words.next()) {
        (None, _) => Some(LARGEST_AGE_LIMIT),
        (Some(word), None) => whole_number(word.to_str()?),
        _ => None,
    }
}

/// A number in digits alone. One that does not fit counts as the greatest that does: a book
/// makes the same of both.
fn whole_number(word: &str) -> Option<u64> {
    if !word.bytes().all(|byte| byte.is_ascii_digit()) {
        return None;
    }
    match word.parse() {
        Ok(number) => Some(number),
        Err(error) if *error.kind() == IntErrorKind::PosOverflow => Some(u64::MAX),
        Err(_) => None,
    }
}

/// Tells how `program` is called; the exit status that says it was called wrongly.
pub fn usage_error(program: &str) -> ExitCode {
    eprintln!("usage: {program} [AGE_LIMIT] < journal");
    ExitCode::from(2)
}
