//! The proved sleep planner, for programs in Rust.
//!
//! A table is a text such as
//!
//! ```text
//! (table 3)
//! (task head (run 8) (due 16) (gap 16))
//! (task lens (run 12) (due 28) (gap 28))
//! (task fan (run 1) (due 56) (gap 56))
//! ```
//!
//! [`check`] says whether it is accepted, and [`sleep`] how long the machine may sleep once a job of a row is released.
//! Both take any bytes and any row, allocate nothing and keep nothing from call to call, so they can be called from any
//! thread. docs/refusals.md of the repository says what is refused, and docs/demand.md what a sleep is.
//!
//! ```
//! let table = b"(table 2)\n(task head (run 2) (due 2) (gap 4))\n(task lens (run 1) (due 4) (gap 4))\n";
//! assert_eq!(sleepplan::check(table), Ok(()));
//! assert_eq!(sleepplan::sleep(table, 0), Ok(0));
//! assert_eq!(sleepplan::sleep(table, 2), Err(sleepplan::Refusal::NoSuchRow));
//! ```

mod refusal;

pub use refusal::Refusal;

/// What the library adds to a refusal's number where a sleep is asked for. Every sleep is below it.
const REFUSED: u32 = 1_000_000;

// A slice crosses as a pointer and then a length. include/bolzighes.h has the same two for C.
extern "C" {
    fn bolzighes_check(text: *const u8, len: usize) -> u32;
    fn bolzighes_sleep(text: *const u8, len: usize, row: u64) -> u32;
}

/// Whether the table is accepted, and if not, why.
pub fn check(text: &[u8]) -> Result<(), Refusal> {
    // SAFETY: the slice can be read for its length, and the call reads nothing else and writes nothing.
    match unsafe { bolzighes_check(text.as_ptr(), text.len()) } {
        0 => Ok(()),
        number => Err(Refusal::of_number(number)),
    }
}

/// The sleep of a row, in ticks. Rows count from 0. A refused text is refused whatever the row.
pub fn sleep(text: &[u8], row: u64) -> Result<u32, Refusal> {
    // SAFETY: as above.
    match unsafe { bolzighes_sleep(text.as_ptr(), text.len(), row) } {
        ticks @ 0..REFUSED => Ok(ticks),
        answer => Err(Refusal::of_number(answer - REFUSED)),
    }
}
