//! Writes the journal that meets every ground a record can meet; `every_ground age_limit`
//! writes the age limit under which it does.

use std::io::Write;
use std::process::ExitCode;

use reference::every_ground::{records, AGE_LIMIT};

fn main() -> std::io::Result<ExitCode> {
    let words: Vec<_> = std::env::args_os().skip(1).collect();
    let mut output = std::io::stdout().lock();
    match words.as_slice() {
        [] => {
            for (record, _, _) in records() {
                output.write_all(&record)?;
            }
        }
        [word] if word == "age_limit" => writeln!(output, "{AGE_LIMIT}")?,
        _ => {
            eprintln!("usage: every_ground [age_limit]");
            return Ok(ExitCode::from(2));
        }
    }
    Ok(ExitCode::SUCCESS)
}
