//! The board once more, written from docs/board.md and docs/alarms.md to be quick: one record a row, and the standard
//! library's heap of open jobs. A job that is done stays in the heap until it comes up, and is passed over then.

use std::cmp::Reverse;
use std::collections::BinaryHeap;

use crate::alarms::Alarm;
use crate::Plan;

/// The clock's last tick.
const CLOCK_END: u64 = 1_000_000_000_000;

#[derive(Clone, Copy, Debug, PartialEq, Eq)]
pub enum Call {
    Release(u64),
    Done(u64),
    Tick,
    Report(u64),
}

#[derive(Clone, Copy, Debug, PartialEq, Eq)]
pub struct Status {
    pub now: u64,
    pub ran: u64,
    pub slept: u64,
    /// The due tick of the open job, and the ticks that it was given.
    pub job: Option<(u64, u32)>,
}

#[derive(Clone, Copy, Debug, PartialEq, Eq)]
pub enum Answer {
    Released,
    Closed,
    Ticked {
        row: Option<u64>,
        rang: bool,
    },
    Reported(Status),
    /// By its number.
    Refused(u32),
}

struct Row {
    run: u32,
    due: u32,
    gap: u32,
    sleep: u32,
    /// The first tick at which it may be released again.
    next: u64,
    /// Of its open job; its due tick is 0 if there is none.
    due_tick: u64,
    given: u32,
}

pub struct Board<A> {
    rows: Vec<Row>,
    /// Due tick and row of each open job, and of some that are done.
    turns: BinaryHeap<Reverse<(u64, u32)>>,
    open: usize,
    awake: bool,
    now: u64,
    ran: u64,
    slept: u64,
    alarm: A,
}

impl<A: Alarm> Board<A> {
    pub fn new(plan: &Plan, mut alarm: A) -> Board<A> {
        alarm.clear();
        let row = |(row, &sleep): (&crate::Row, &u64)| Row {
            run: row.run as u32,
            due: row.due as u32,
            gap: row.gap as u32,
            sleep: sleep as u32,
            next: 0,
            due_tick: 0,
            given: 0,
        };
        Board {
            rows: plan.rows.iter().zip(&plan.sleeps).map(row).collect(),
            turns: BinaryHeap::with_capacity(2 * plan.rows.len()),
            open: 0,
            awake: false,
            now: 0,
            ran: 0,
            slept: 0,
            alarm,
        }
    }

    #[inline]
    pub fn call(&mut self, call: Call) -> Answer {
        let answer = match call {
            Call::Release(row) => self.release(row),
            Call::Done(row) => self.done(row),
            Call::Tick => self.tick(),
            Call::Report(row) => self.report(row),
        };
        answer.unwrap_or_else(Answer::Refused)
    }

    #[inline]
    fn release(&mut self, at: u64) -> Result<Answer, u32> {
        let row = self.rows.get_mut(at as usize).ok_or(12u32)?;
        if self.now < row.next {
            return Err(13);
        }
        row.next = self.now + u64::from(row.gap);
        row.due_tick = self.now + u64::from(row.due);
        row.given = 0;
        self.turns.push(Reverse((row.due_tick, at as u32)));
        self.open += 1;
        if !self.awake && self.alarm.left().is_none_or(|left| left > row.sleep) {
            self.awake = self.alarm.set(row.sleep) == 0;
        }
        Ok(Answer::Released)
    }

    #[inline]
    fn done(&mut self, at: u64) -> Result<Answer, u32> {
        let row = self.rows.get_mut(at as usize).ok_or(12u32)?;
        if row.due_tick == 0 {
            return Err(15);
        }
        if row.given == 0 {
            return Err(16);
        }
        row.due_tick = 0;
        self.closed();
        Ok(Answer::Closed)
    }

    #[inline]
    fn tick(&mut self) -> Result<Answer, u32> {
        if self.now >= CLOCK_END {
            return Err(14);
        }
        self.now += 1;
        let rang = self.alarm.pass();
        if !self.awake {
            self.slept += 1;
            self.awake = rang;
            return Ok(Answer::Ticked { row: None, rang });
        }
        let at = self.first();
        let row = &mut self.rows[at as usize];
        row.given += 1;
        self.ran += 1;
        if row.given >= row.run {
            row.due_tick = 0;
            self.turns.pop();
            self.closed();
        }
        Ok(Answer::Ticked { row: Some(u64::from(at)), rang })
    }

    #[inline]
    fn report(&mut self, at: u64) -> Result<Answer, u32> {
        let row = self.rows.get(at as usize).ok_or(12u32)?;
        let job = (row.due_tick > 0).then_some((row.due_tick, row.given));
        Ok(Answer::Reported(Status { now: self.now, ran: self.ran, slept: self.slept, job }))
    }

    /// The row whose job comes first. A board that is awake has one.
    #[inline]
    fn first(&mut self) -> u32 {
        loop {
            let &Reverse((due_tick, at)) = self.turns.peek().expect("awake with no job open");
            if self.rows[at as usize].due_tick == due_tick {
                return at;
            }
            self.turns.pop();
        }
    }

    #[inline]
    fn closed(&mut self) {
        self.open -= 1;
        if self.open == 0 {
            self.turns.clear();
            self.awake = false;
            self.alarm.clear();
        }
    }
}
