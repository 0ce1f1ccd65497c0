//! The calls that are timed: some 65,000 of each kind.

#[path = "../../../sleepplan/tests/differential/random.rs"]
#[allow(dead_code)]
mod random;

use random::Random;
use reference::board::Call;

const CALLS: u64 = 1 << 16;

pub struct Stream {
    pub name: &'static str,
    pub text: Vec<u8>,
    pub calls: Vec<Call>,
}

/// Rows with the same run and gap.
fn table(rows: u64, run: u64, due: impl Fn(u64) -> u64, gap: u64) -> Vec<u8> {
    let mut text = format!("(table {rows})\n");
    for row in 0..rows {
        text += &format!("(task row{row} (run {run}) (due {}) (gap {gap}))\n", due(row));
    }
    text.into_bytes()
}

/// Rows that are all alike, and due when they may be released again.
fn equal_rows(rows: u64, run: u64, gap: u64) -> Vec<u8> {
    table(rows, run, |_| gap, gap)
}

fn releases(rows: u64) -> impl Iterator<Item = Call> {
    (0..rows).map(Call::Release)
}

fn ticks(count: u64) -> impl Iterator<Item = Call> {
    std::iter::repeat_n(Call::Tick, count as usize)
}

/// Nothing is released: every tick is slept through.
fn asleep(rows: u64) -> Stream {
    Stream { name: "ticks asleep", text: equal_rows(rows, 1, rows), calls: ticks(CALLS).collect() }
}

/// All rows are released at once, and the jobs take all the time there is: a job closes every thousand ticks or more.
fn awake(rows: u64) -> Stream {
    let run = CALLS / rows;
    let calls = releases(rows).chain(ticks(run * rows - rows)).collect();
    Stream { name: "ticks awake, all jobs open at first", text: equal_rows(rows, run, run * rows), calls }
}

/// As many releases as ticks: each round opens a job of every row, and each tick closes one.
fn rounds(rows: u64) -> Stream {
    let calls = (0..CALLS / 2 / rows).flat_map(|_| releases(rows).chain(ticks(rows))).collect();
    Stream { name: "releases and ticks in turns, each tick closes a job", text: equal_rows(rows, 1, rows), calls }
}

/// The same with dues from high to low, so that each job goes from the end of the queue to its front.
fn late_comers(rows: u64) -> Stream {
    let text = table(rows, 1, |row| rows - row, rows);
    Stream { name: "the same, each job due before those released earlier", text, ..rounds(rows) }
}

/// All calls in any order, a quarter of the time spoken for.
fn mixed(rows: u64) -> Stream {
    let mut random = Random::new(rows);
    let mut any = || match random.below(16) {
        0..=3 => Call::Release(random.below(rows)),
        4 => Call::Done(random.below(rows)),
        5 => Call::Report(random.below(rows)),
        _ => Call::Tick,
    };
    let calls = (0..CALLS).map(|_| any()).collect();
    Stream { name: "any calls at random", text: equal_rows(rows, 4, 16 * rows), calls }
}

pub fn all() -> Vec<Stream> {
    [asleep, awake, rounds, late_comers, mixed].into_iter().flat_map(|stream| [stream(3), stream(64)]).collect()
}
