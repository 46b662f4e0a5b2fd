//! Writes for the last sheet that the journal of standard input posts, and for some amounts, the
//! shift at which a small block of policies costs no more, in the words of examples/shift.c.
//!
//!     shift < journal

use std::io::{self, Read};
use std::process::ExitCode;

use reference::euro::euro;
use reference::journal::{calls, Call};
use reference::shift::shift_by;

/// Year and cents in turn.
const FLOWS: [u64; 16] = [
    1, 120_000, 2, 120_000, 3, 118_050, 10, 95_000, 10, 40_001, 20, 10_000_000, 60, 4_000, 150, 99,
];

/// In cents.
const TARGETS: [u64; 3] = [6_500_000, 6_000_000, 5_000_000];

fn main() -> io::Result<ExitCode> {
    if std::env::args_os().len() != 1 {
        eprintln!("usage: shift < journal");
        return Ok(ExitCode::from(2));
    }
    let mut journal = Vec::new();
    io::stdin().read_to_end(&mut journal)?;
    let posts: Vec<Call> = calls(&journal)
        .filter(|call| call.posted().is_some())
        .collect();
    match posts.last().and_then(Call::posted) {
        None => println!("no sheet was posted"),
        Some(sheet) => print_shifts(sheet),
    }
    Ok(ExitCode::SUCCESS)
}

fn print_shifts(sheet: &[u8]) {
    println!("sheet of {} bytes", sheet.len());
    for target in TARGETS {
        println!(
            "at most {}: {}",
            euro(i128::from(target)),
            words(sheet, target)
        );
    }
}

/// The shift, or why there is none.
fn words(sheet: &[u8], target: u64) -> String {
    match shift_by(sheet, &FLOWS, target) {
        Ok(shift) => format!("shift {shift}"),
        Err(refusal) if refusal.number == 23 => "no shift from -500 to 500".to_string(),
        Err(refusal) => format!("refused: {}, place {}", refusal.number, refusal.place),
    }
}
