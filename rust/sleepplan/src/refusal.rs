//! Why a table is refused, or a row.

/// The refusals that the two calls can answer, with their numbers. docs/refusals.md of the repository has an example of
/// each, and the line, the place or the value that the program `sleeptable` prints with it.
#[derive(Clone, Copy, Debug, PartialEq, Eq, Hash)]
#[repr(u32)]
pub enum Refusal {
    TextLength = 1,
    LineForm = 2,
    RowCount = 3,
    RunAboveDue = 4,
    DueAboveGap = 5,
    GapLimit = 6,
    NameTaken = 7,
    CommonLimit = 8,
    TextAfter = 9,
    Overload = 10,
    Overdemand = 11,
    NoSuchRow = 12,
}

use Refusal::*;

const ALL: [Refusal; 12] = [
    TextLength,
    LineForm,
    RowCount,
    RunAboveDue,
    DueAboveGap,
    GapLimit,
    NameTaken,
    CommonLimit,
    TextAfter,
    Overload,
    Overdemand,
    NoSuchRow,
];

impl Refusal {
    /// Its number, 1 to 12.
    pub fn number(self) -> u32 {
        self as u32
    }

    /// The refusal with a number that the library answered. The library answers no other numbers; that is proved.
    pub(crate) fn of_number(number: u32) -> Refusal {
        match ALL.iter().find(|refusal| refusal.number() == number) {
            Some(&refusal) => refusal,
            None => panic!("the planner answered {number}, which is no refusal's number"),
        }
    }
}

impl std::fmt::Display for Refusal {
    fn fmt(&self, f: &mut std::fmt::Formatter) -> std::fmt::Result {
        let meaning = match self {
            TextLength => "the text is empty or longer than 8,192 bytes",
            LineForm => "a line has not its form",
            RowCount => "the count of rows is not 1 to 64",
            RunAboveDue => "a row's run is above its due",
            DueAboveGap => "a row's due is above its gap",
            GapLimit => "a row's gap is above 100,000",
            NameTaken => "a row has the name of an earlier one",
            CommonLimit => "the common period is above 1,000,000",
            TextAfter => "something stands after the last row",
            Overload => "the load is above the common period",
            Overdemand => "a window demands more ticks than it has",
            NoSuchRow => "there is no such row",
        };
        write!(f, "refusal {}: {meaning}", self.number())
    }
}

impl std::error::Error for Refusal {}
