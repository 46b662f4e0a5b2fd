//! Reads desk records from standard input and answers each with a line.

use std::io;

fn main() -> io::Result<()> {
    reference::desk::run_desk(io::stdin().lock(), io::stdout().lock())
}
