//! Times the proved board beside one in plain Rust on the same calls, in turns, in one run, and checks that they answer
//! alike. Prints a table in Markdown.

mod streams;
#[allow(dead_code)]
#[path = "../../../sleepplan/examples/bench/timing.rs"]
mod timing;

use std::hint::black_box;

use reference::alarms::Counter;
use reference::board::{self, Board};
use reference::{plan, Plan};
use sleepboard::{make_calls, Alarm, AnswerRecord, Call};
use streams::Stream;
use timing::in_turns;

fn coded(call: board::Call) -> Call {
    match call {
        board::Call::Release(row) => Call::release(row),
        board::Call::Done(row) => Call::done(row),
        board::Call::Tick => Call::tick(),
        board::Call::Report(row) => Call::report(row),
    }
}

/// The record that the library writes for an answer.
#[inline]
fn recorded(answer: board::Answer) -> AnswerRecord {
    let blank = |kind| AnswerRecord { kind, ..AnswerRecord::default() };
    match answer {
        board::Answer::Released => blank(0),
        board::Answer::Closed => blank(1),
        board::Answer::Ticked { row, rang } => {
            AnswerRecord { row: row.unwrap_or(0), busy: u32::from(row.is_some()), rang: u32::from(rang), ..blank(2) }
        }
        board::Answer::Reported(board::Status { now, ran, slept, job }) => {
            let (due, given) = job.unwrap_or((0, 0));
            AnswerRecord { now, ran, slept, due, given, busy: u32::from(job.is_some()), ..blank(3) }
        }
        board::Answer::Refused(number) => AnswerRecord { number, ..blank(4) },
    }
}

/// What the library does, by the plain board: a new board over a counter, each call, and the record of each answer. The
/// plan is there already.
fn make_plain_calls(plan: &Plan, calls: &[board::Call], answers: &mut [AnswerRecord]) {
    let mut board = Board::new(plan, Counter::default());
    for (&call, answer) in calls.iter().zip(answers) {
        *answer = recorded(board.call(call));
    }
}

fn compared(stream: &Stream) {
    let Stream { name, text, calls } = stream;
    let plan = plan(text).expect("a good table");
    let codes: Vec<Call> = calls.iter().map(|&call| coded(call)).collect();
    let mut proved = vec![AnswerRecord::default(); calls.len()];
    let mut plain = proved.clone();
    let [first, second] = in_turns([
        &mut || make_calls(black_box(text), Alarm::Counter, 0, black_box(&codes), &mut proved).expect("a good table"),
        &mut || make_plain_calls(black_box(&plan), black_box(calls), &mut plain),
    ]);
    assert!(proved == plain, "the two boards differ");
    let count = calls.len() as f64;
    let each = |seconds: f64| format!("{:.1} | {:.0}", seconds * 1e9 / count, count / seconds / 1e6);
    let refused = proved.iter().filter(|record| record.kind == 4).count() * 100 / calls.len();
    let rows = plan.rows.len();
    println!("| {name} | {rows} | {refused} % | {} | {} | {:.2} |", each(first), each(second), first / second);
}

fn main() {
    println!("| calls | rows | refused | proved, ns a call | millions a second | plain Rust, ns a call | millions a second | ratio |");
    println!("| --- | --: | --: | --: | --: | --: | --: | --: |");
    for stream in streams::all() {
        compared(&stream);
    }
}
