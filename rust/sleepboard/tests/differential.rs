//! The proved board, through its C call, beside the plain one of the package `reference`: each of some millions of calls
//! must have the same answer.
//!
//! The calls are the same in every run. SLEEPBOARD_SEED=n takes others, and SLEEPBOARD_SHARE=n only about every n-th table.

#[allow(dead_code)]
#[path = "../../sleepplan/tests/differential/random.rs"]
mod random;

use random::Random;
use reference::alarms::{self, Ramp, TopUp};
use reference::board::{self, Board};
use reference::{plan, Plan};
use sleepboard::{make_calls, Alarm, Answer, AnswerRecord, Call, Status};

const ALARMS: [Alarm; 3] = [Alarm::Counter, Alarm::Divider, Alarm::TopUpOverDivider];
const WARM_UPS: [u32; 6] = [0, 1, 7, 31, 64, 1_000];

/// How often each answer came: released, closed, ticks that slept, ticks that a row got, rings, reports of an idle row and
/// of a busy one, and the refusals 12, 13, 15 and 16.
const ANSWERS: usize = 11;

fn coded(call: board::Call) -> Call {
    match call {
        board::Call::Release(row) => Call::release(row),
        board::Call::Done(row) => Call::done(row),
        board::Call::Tick => Call::tick(),
        board::Call::Report(row) => Call::report(row),
    }
}

fn told(answer: board::Answer) -> Answer {
    match answer {
        board::Answer::Released => Answer::Released,
        board::Answer::Closed => Answer::Closed,
        board::Answer::Ticked { row, rang } => Answer::Ticked { row, rang },
        board::Answer::Reported(board::Status { now, ran, slept, job }) => {
            Answer::Reported(Status { now, ran, slept, job })
        }
        board::Answer::Refused(number) => Answer::Refused(number),
    }
}

fn kinds_of(answer: Answer) -> impl Iterator<Item = usize> {
    let (kind, rings) = match answer {
        Answer::Released => (0, false),
        Answer::Closed => (1, false),
        Answer::Ticked { row: None, rang } => (2, rang),
        Answer::Ticked { row: Some(_), rang } => (3, rang),
        Answer::Reported(Status { job: None, .. }) => (5, false),
        Answer::Reported(Status { job: Some(_), .. }) => (6, false),
        Answer::Refused(12) => (7, false),
        Answer::Refused(13) => (8, false),
        Answer::Refused(15) => (9, false),
        Answer::Refused(16) => (10, false),
        Answer::Refused(number) => panic!("refusal {number}"),
    };
    std::iter::once(kind).chain(rings.then_some(4))
}

fn answers_over(plan: &Plan, alarm: impl alarms::Alarm, calls: &[board::Call]) -> Vec<Answer> {
    let mut board = Board::new(plan, alarm);
    calls.iter().map(|&call| told(board.call(call))).collect()
}

fn under_a_ramp(plan: &Plan, alarm: impl alarms::Alarm, warm: u32, calls: &[board::Call]) -> Vec<Answer> {
    if warm == 0 {
        return answers_over(plan, alarm, calls);
    }
    answers_over(plan, Ramp::new(alarm, warm).expect("a warm-up within its limits"), calls)
}

/// What the plain board answers.
fn expected(plan: &Plan, alarm: Alarm, warm: u32, calls: &[board::Call]) -> Vec<Answer> {
    match alarm {
        Alarm::Counter => under_a_ramp(plan, alarms::Counter::default(), warm, calls),
        Alarm::Divider => under_a_ramp(plan, alarms::Divider::default(), warm, calls),
        Alarm::TopUpOverDivider => under_a_ramp(plan, TopUp::new(alarms::Divider::default()), warm, calls),
    }
}

/// Compares the two boards call by call, and counts the answers. Two places past the last answer must stay as they are.
fn compare(text: &[u8], alarm: Alarm, warm: u32, calls: &[board::Call], counts: &mut [u64; ANSWERS]) {
    let codes: Box<[Call]> = calls.iter().map(|&call| coded(call)).collect();
    let mark = AnswerRecord { kind: 9, now: 7, given: 5, ..AnswerRecord::default() };
    let mut records = vec![mark; calls.len() + 2].into_boxed_slice();
    make_calls(text, alarm, warm, &codes, &mut records).expect("a good table");
    assert_eq!(records[calls.len()..], [mark; 2]);
    let plan = plan(text).expect("a good table");
    for (at, answer) in expected(&plan, alarm, warm, calls).into_iter().enumerate() {
        assert_eq!(
            records[at].answer(),
            answer,
            "call {at}, {:?}, over {alarm:?} with the warm-up {warm}, on \"{}\" with the calls {:?}",
            calls[at],
            text.escape_ascii(),
            &calls[..=at]
        );
        kinds_of(answer).for_each(|kind| counts[kind] += 1);
    }
}

/// A table that is accepted: so many rows, whose gaps divide `period`, with dues and runs that leave some room or none.
fn table(random: &mut Random, rows: u64, period: u64) -> Vec<u8> {
    let gaps: Vec<u64> = (rows..=period.min(100_000)).filter(|&gap| period.is_multiple_of(gap)).collect();
    loop {
        let mut text = format!("(table {rows})\n");
        let roomy = random.once_in(2);
        for row in 0..rows {
            let gap = *random.pick(&gaps);
            let run = random.between(1, (gap / rows).max(1));
            let due = if roomy { gap } else { random.between(run, gap) };
            text += &format!("(task r{row} (run {run}) (due {due}) (gap {gap}))\n");
        }
        if plan(text.as_bytes()).is_ok() {
            return text.into_bytes();
        }
    }
}

/// A row of the table mostly, else one that it has not.
fn row(random: &mut Random, rows: u64) -> u64 {
    match random.below(40) {
        0 => rows,
        1 => *random.pick(&[64, 65, 255, 1 << 32, u64::MAX / 4 - 1, u64::MAX / 4, u64::MAX]),
        _ => random.below(rows),
    }
}

/// One call or a stretch of ticks, of which the longest are as long as `stretch`.
fn add_calls(random: &mut Random, rows: u64, stretch: u64, calls: &mut Vec<board::Call>) {
    match random.below(20) {
        0..=6 => calls.push(board::Call::Release(row(random, rows))),
        7 => (0..rows).for_each(|row| calls.push(board::Call::Release(row))),
        8..=9 => calls.push(board::Call::Done(row(random, rows))),
        10..=11 => calls.push(board::Call::Report(row(random, rows))),
        12..=18 => calls.push(board::Call::Tick),
        _ => (0..random.between(1, stretch)).for_each(|_| calls.push(board::Call::Tick)),
    }
}

fn some_calls(random: &mut Random, rows: u64, stretch: u64, count: usize) -> Vec<board::Call> {
    let mut calls = Vec::new();
    while calls.len() < count {
        add_calls(random, rows, stretch, &mut calls);
    }
    calls
}

/// The number in a variable, 1 if it is not set.
fn number_of(variable: &str) -> u64 {
    std::env::var(variable).map_or(1, |value| value.parse().expect("a number"))
}

#[test]
fn every_call_is_answered_as_the_plain_board_does() {
    let mut random = Random::new(number_of("SLEEPBOARD_SEED"));
    let share = number_of("SLEEPBOARD_SHARE").max(1);
    let mut counts = [0; ANSWERS];
    let mut made = 0;
    for turn in 0..900 / share {
        let rows = [1, 3, 64, 2, 5, 17, 40, 63][turn as usize % 8];
        let period = *random.pick(&[rows, 64, 112, 360, 5_040, 10_080, 100_000]).max(&rows);
        let text = table(&mut random, rows, period);
        let stretch = *random.pick(&[2, 20, period, 3 * period]);
        let calls = some_calls(&mut random, rows, stretch, 4_000);
        made += calls.len();
        compare(&text, *random.pick(&ALARMS), *random.pick(&WARM_UPS), &calls, &mut counts);
    }
    println!("{made} calls; by their answers: {counts:?}");
    if share == 1 {
        assert!(made >= 1_000_000);
        assert!(counts.iter().all(|&count| count >= 1_000), "an answer that hardly any call has");
    }
}

/// Sleeps that are longer than the alarms below reach.
#[test]
fn sleeps_past_an_alarm_s_reach() {
    let text = b"(table 2)\n(task a (run 1) (due 100000) (gap 100000))\n(task b (run 9) (due 90000) (gap 100000))\n";
    let ticks = |count: usize| vec![board::Call::Tick; count];
    let mut counts = [0; ANSWERS];
    for alarm in ALARMS {
        for warm in WARM_UPS {
            let mut calls = ticks(13);
            calls.push(board::Call::Release(0));
            calls.extend(ticks(20_000));
            calls.extend([board::Call::Release(1), board::Call::Done(0), board::Call::Report(0)]);
            calls.extend(ticks(120_000));
            calls.extend([board::Call::Release(0), board::Call::Release(1)]);
            calls.extend(ticks(100_000));
            compare(text, alarm, warm, &calls, &mut counts);
        }
    }
}

const CUTTER: &[u8] = b"(table 3)
(task head (run 8) (due 16) (gap 16))
(task lens (run 12) (due 28) (gap 28))
(task fan (run 1) (due 56) (gap 56))
";

/// The example of docs/board.md.
#[test]
fn the_example() {
    let calls = [
        Call::release(2),
        Call::tick(),
        Call::release(0),
        Call::tick(),
        Call::tick(),
        Call::tick(),
        Call::tick(),
        Call::tick(),
        Call::report(0),
        Call::report(2),
    ];
    let mut records = [AnswerRecord::default(); 10];
    make_calls(CUTTER, Alarm::Counter, 0, &calls, &mut records).unwrap();
    let slept = Answer::Ticked { row: None, rang: false };
    let status = |job| Answer::Reported(Status { now: 6, ran: 1, slept: 5, job });
    let told = [
        Answer::Released,
        slept,
        Answer::Released,
        slept,
        slept,
        slept,
        Answer::Ticked { row: None, rang: true },
        Answer::Ticked { row: Some(0), rang: false },
        status(Some((17, 1))),
        status(Some((56, 0))),
    ];
    assert_eq!(records.map(AnswerRecord::answer), told);
}
