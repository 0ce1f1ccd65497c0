//! Prints docs/load-rule.md: how much longer the sleeps by demand are than those by the tasks' share of time, on the
//! example and on random tables.

use reference::{plan, Row};

const RULE: &str = "\
A simpler rule than [demand](demand.md) goes by the tasks' share of time. Take the rows in the order of their gaps. A
row's share is run ÷ gap; a row may sleep for what its gap leaves over the shares of all rows up to it, in whole ticks,
and no longer than any row with a longer gap. It is meant for tables in which each job is due when the next may come.";

const EXAMPLE: &[u8] = include_bytes!("../../../examples/cutter.table");

/// The sleeps by share of time, for tables whose jobs are due when the next may come. With the rows in the order of
/// their gaps, a row's sleep is at most what its gap leaves over the shares of the rows up to it, and no sleep is
/// longer than that of a row with a longer gap.
fn by_share(rows: &[Row], common: u64) -> Vec<u64> {
    let mut order: Vec<usize> = (0..rows.len()).collect();
    order.sort_by_key(|&row| rows[row].gap);
    let mut used = 0;
    let mut sleeps = vec![0; rows.len()];
    for &row in &order {
        used += rows[row].run * (common / rows[row].gap);
        sleeps[row] = common.saturating_sub(used) * rows[row].gap / common;
    }
    for pair in (1..order.len()).rev() {
        let (shorter, longer) = (order[pair - 1], order[pair]);
        sleeps[shorter] = sleeps[shorter].min(sleeps[longer]);
    }
    sleeps
}

fn list(numbers: &[u64]) -> String {
    numbers.iter().map(u64::to_string).collect::<Vec<_>>().join(", ")
}

/// A table of two to eight rows with due = gap, from a generator with a fixed seed.
fn random_table(state: &mut u64) -> String {
    let mut next = |below: u64| {
        *state ^= *state << 13;
        *state ^= *state >> 7;
        *state ^= *state << 17;
        *state % below
    };
    let gaps = [12, 16, 20, 24, 28, 30, 36, 40, 48, 56, 60, 72, 80, 90, 112, 120];
    let rows = 2 + next(7);
    let mut text = format!("(table {rows})\n");
    for row in 0..rows {
        let gap = gaps[next(gaps.len() as u64) as usize];
        let run = 1 + next(gap / 3);
        text += &format!("(task t{row} (run {run}) (due {gap}) (gap {gap}))\n");
    }
    text
}

fn main() {
    println!("# Sleeps by demand, and by the share of time\n");
    println!("`cargo run --release -p reference --example load_rule` in `rust/` prints this page.\n");
    println!("{RULE}\n");
    let table = plan(EXAMPLE).expect("the example is accepted");
    let share = by_share(&table.rows, table.common);
    println!("## The example\n");
    println!("The sleeps of `examples/cutter.table` are {} by demand, and {} by the share of time.\n", list(&table.sleeps), list(&share));
    println!("## Random tables\n\nFour hundred accepted tables of two to eight rows, each job due when the next may come:\n");
    let (mut state, mut tables, mut longer, mut demand, mut shares) = (0x9e37_79b9_7f4a_7c15_u64, 0, 0, 0, 0);
    while tables < 400 {
        let Ok(table) = plan(random_table(&mut state).as_bytes()) else { continue };
        let share = by_share(&table.rows, table.common);
        let (ours, theirs): (u64, u64) = (table.shortest().unwrap_or(0), share.iter().copied().min().unwrap_or(0));
        assert!(table.sleeps.iter().zip(&share).all(|(ours, theirs)| ours >= theirs), "a share of time promises more");
        tables += 1;
        longer += u32::from(ours > theirs);
        demand += ours;
        shares += theirs;
    }
    println!("| tables | shortest sleep longer by demand | mean shortest sleep by demand | by share of time |");
    println!("| --: | --: | --: | --: |");
    println!("| {tables} | {longer} | {:.1} | {:.1} |", demand as f64 / tables as f64, shares as f64 / tables as f64);
    println!("\nOn none of them did the share of time promise a longer sleep than demand.");
}
