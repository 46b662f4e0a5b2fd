//! Cents as the programs print them.

/// Euro and cents, of whole cents from 0 up.
pub fn euro(cents: i128) -> String {
    format!("{}.{:02}", cents / 100, cents % 100)
}
