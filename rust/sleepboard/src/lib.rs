//! The proved board, for programs in Rust.
//!
//! [`make_calls`] makes a list of calls on a new board over a table's plan, and writes what each answered. It allocates
//! nothing and keeps nothing from call to call. docs/board.md of the repository says what a board does, and
//! docs/alarms.md what the alarms are.
//!
//! ```
//! use sleepboard::{make_calls, Alarm, Answer, AnswerRecord, Call};
//!
//! let table = b"(table 1)\n(task head (run 1) (due 2) (gap 4))\n";
//! let calls = [Call::release(0), Call::tick(), Call::tick(), Call::release(0)];
//! let mut answers = [AnswerRecord::default(); 4];
//! make_calls(table, Alarm::Counter, 0, &calls, &mut answers).unwrap();
//! let answers = answers.map(|record| record.answer());
//! assert_eq!(answers[1], Answer::Ticked { row: None, rang: true });
//! assert_eq!(answers[2], Answer::Ticked { row: Some(0), rang: false });
//! assert_eq!(answers[3], Answer::Refused(13));
//! ```

/// A call, in one number: four times its row, and its kind.
#[derive(Clone, Copy, Debug, PartialEq, Eq)]
#[repr(transparent)]
pub struct Call(u64);

impl Call {
    /// No table has so many rows, so a row above it is as good as this one.
    const LAST_ROW: u64 = u64::MAX / 4;

    fn of(row: u64, kind: u64) -> Call {
        Call(4 * row.min(Call::LAST_ROW) + kind)
    }

    pub fn release(row: u64) -> Call {
        Call::of(row, 0)
    }

    pub fn done(row: u64) -> Call {
        Call::of(row, 1)
    }

    pub fn tick() -> Call {
        Call::of(0, 2)
    }

    pub fn report(row: u64) -> Call {
        Call::of(row, 3)
    }
}

/// What a board may sleep on; a ramp comes by its warm-up.
#[derive(Clone, Copy, Debug, PartialEq, Eq)]
#[repr(u32)]
pub enum Alarm {
    Counter = 0,
    Divider = 1,
    TopUpOverDivider = 2,
}

/// An answer as the library writes it. A field that its kind does not name is 0.
#[derive(Clone, Copy, Debug, Default, PartialEq, Eq)]
#[repr(C)]
pub struct AnswerRecord {
    pub now: u64,
    pub ran: u64,
    pub slept: u64,
    pub due: u64,
    pub row: u64,
    /// 0 released, 1 closed, 2 ticked, 3 reported, 4 refused.
    pub kind: u32,
    /// The refusal's number.
    pub number: u32,
    /// 1 where a row ran, of a tick, or has a job open, of a report.
    pub busy: u32,
    /// 1 where the alarm rang, of a tick.
    pub rang: u32,
    pub given: u32,
}

/// What a report answers; of an open job the due tick, and the ticks that it was given.
#[derive(Clone, Copy, Debug, PartialEq, Eq)]
pub struct Status {
    pub now: u64,
    pub ran: u64,
    pub slept: u64,
    pub job: Option<(u64, u32)>,
}

#[derive(Clone, Copy, Debug, PartialEq, Eq)]
pub enum Answer {
    Released,
    Closed,
    Ticked {
        row: Option<u64>,
        rang: bool,
    },
    Reported(Status),
    /// By its number.
    Refused(u32),
}

impl AnswerRecord {
    pub fn answer(self) -> Answer {
        let AnswerRecord { now, ran, slept, due, row, kind, number, busy, rang, given } = self;
        let busy = busy == 1;
        match kind {
            0 => Answer::Released,
            1 => Answer::Closed,
            2 => Answer::Ticked { row: busy.then_some(row), rang: rang == 1 },
            3 => Answer::Reported(Status { now, ran, slept, job: busy.then_some((due, given)) }),
            4 => Answer::Refused(number),
            // The library writes no other kind; that is proved.
            _ => panic!("a record that the board did not write"),
        }
    }
}

/// Why no call was made.
#[derive(Clone, Copy, Debug, PartialEq, Eq)]
pub enum Unmade {
    /// There are more calls than places for answers.
    TooFewPlaces,
    /// The text or the warm-up is refused, by this number.
    Refused(u32),
}

const TOO_FEW_PLACES: u32 = 101;

// A slice crosses as a pointer and then a length. include/bolzighes_board.h has the same for C.
extern "C" {
    fn bolzighes_calls(
        text: *const u8,
        text_len: usize,
        alarm: u32,
        warm: u32,
        calls: *const Call,
        calls_len: usize,
        answers: *mut AnswerRecord,
        answers_len: usize,
    ) -> u32;
}

/// Makes the calls on a new board over the table's plan and the alarm, under a ramp of `warm` ticks unless that is 0, and
/// writes what each answered to the first places. Where nothing is made, nothing is written.
pub fn make_calls(
    text: &[u8],
    alarm: Alarm,
    warm: u32,
    calls: &[Call],
    answers: &mut [AnswerRecord],
) -> Result<(), Unmade> {
    // SAFETY: text and calls can be read for their lengths, answers can be written and no one else holds it; a call is a
    // number of 64 bits, and a record is laid out as the library's.
    let number = unsafe {
        bolzighes_calls(
            text.as_ptr(),
            text.len(),
            alarm as u32,
            warm,
            calls.as_ptr(),
            calls.len(),
            answers.as_mut_ptr(),
            answers.len(),
        )
    };
    match number {
        0 => Ok(()),
        TOO_FEW_PLACES => Err(Unmade::TooFewPlaces),
        number => Err(Unmade::Refused(number)),
    }
}
