//! Reader and planner once more, in plain Rust, written from docs/table-text.md, docs/refusals.md and docs/demand.md and
//! not from the proved code. There are two of each, which share nothing but the limits of a table:
//!
//! - [`plan`] is written to be believed. It reads by the forms of the lines and adds up the demand by its formula, window
//!   by window. It answers the whole plan, or the whole record of the refusal.
//! - [`fast`] is written to be quick. It is what the benchmark compares the proved planner with.
//!
//! [`board`] and [`alarms`] are the board and the four kinds of alarms, written from docs/board.md and docs/alarms.md.

pub mod alarms;
pub mod board;
mod demand;
pub mod fast;
mod limits;
mod text;

pub use demand::{need, Plan};
pub use text::{read, Row};

/// A refusal, told in full. Lines count from 1 and places are byte offsets from 0; what is not named is 0.
#[derive(Clone, Copy, Debug, PartialEq, Eq)]
pub struct Record {
    pub number: u32,
    pub line: usize,
    pub place: usize,
    pub value: u64,
}

impl Record {
    /// 1 the text, 2 its rows, 3 the plan, 4 the board, 5 an alarm.
    pub fn layer(&self) -> u32 {
        match self.number {
            1 | 2 => 1,
            3..=9 => 2,
            10 | 11 => 3,
            12..=16 => 4,
            _ => 5,
        }
    }

    fn of_value(number: u32, value: u64) -> Record {
        Record { number, line: 0, place: 0, value }
    }
}

impl std::fmt::Display for Record {
    fn fmt(&self, f: &mut std::fmt::Formatter) -> std::fmt::Result {
        let Record { number, line, place, value } = self;
        let layer = self.layer();
        write!(f, "(refused {number} (layer {layer}) (line {line}) (place {place}) (value {value}))")
    }
}

/// The plan of a text, or why there is none.
pub fn plan(text: &[u8]) -> Result<Plan, Record> {
    Plan::of(read(text)?)
}
