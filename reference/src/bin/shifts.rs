//! Takes two sheets from standard input, the first being its first 109 bytes, and writes the
//! shifts at which a block meets targets, and what lists and sheets that are turned down are
//! answered: a line for each, the ground's number, or 0, and its place, then the shift in 16 bits
//! of two's complement, 0 where there is none. Input that is shorter than a sheet has no line.

use std::io::{self, Read};

use reference::shift::shift_by;

/// Bytes of the first sheet.
const FIRST: usize = 109;

/// Year and cents in turn.
const PENSION: [u64; 6] = [1, 100_000, 10, 100_000, 30, 500_000];

const TARGETS: [u64; 7] = [u64::MAX, 650_000, 620_000, 390_000, 380_000, 370_000, 0];

/// Lists that are turned down, whatever the target.
const REFUSED: [&[u64]; 4] = [
    &[1, 100_000, 10, 100_000, 30],
    &[],
    &[1, 1, 151, 1_000_000_001],
    &[1, 1_000_000_001],
];

fn main() -> io::Result<()> {
    let mut input = Vec::new();
    io::stdin().read_to_end(&mut input)?;
    if input.len() < FIRST {
        return Ok(());
    }
    for sheet in [&input[..FIRST], &input[FIRST..], &input[..FIRST - 1]] {
        for target in TARGETS {
            println!("{}", line(sheet, &PENSION, target));
        }
        for list in REFUSED {
            println!("{}", line(sheet, list, 380_000));
        }
    }
    Ok(())
}

fn line(sheet: &[u8], numbers: &[u64], target: u64) -> String {
    match shift_by(sheet, numbers, target) {
        Err(refusal) => format!("{} {} 0", refusal.number, refusal.place),
        Ok(shift) => format!("0 0 {}", shift as u16),
    }
}
