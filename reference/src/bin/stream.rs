//! Writes a seeded record stream to standard output: stream SEED RECORDS.

use std::io::Write;

fn main() -> std::io::Result<()> {
    let mut arguments = std::env::args()
        .skip(1)
        .filter_map(|word| word.parse().ok());
    let seed = arguments.next().unwrap_or(1);
    let records = arguments.next().unwrap_or(100);
    std::io::stdout().write_all(&reference::streams::stream(seed, records as usize))
}
