//! The limits of a table, as docs/refusals.md has them.

/// The most bytes of a text.
pub const TEXT: usize = 8192;
/// The most rows.
pub const ROWS: u64 = 64;
/// The largest gap.
pub const GAP: u64 = 100_000;
/// The largest common period.
pub const COMMON: u64 = 1_000_000;
/// The most bytes of a name.
pub const NAME: usize = 12;
/// The most digits of a number.
pub const DIGITS: usize = 7;
