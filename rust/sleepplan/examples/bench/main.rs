//! Times the proved planner beside one in plain Rust that is written to be quick, on the same texts, in turns, in one
//! run. Both read the text, plan, and answer the sleep of the last row. Prints two tables in Markdown.

mod tables;
mod timing;

use std::hint::black_box;

use tables::Table;
use timing::{in_turns, shown};

const REFUSED: u32 = 1_000_000;

fn proved(text: &[u8], row: u64) -> u32 {
    sleepplan::sleep(text, row).unwrap_or_else(|refusal| REFUSED + refusal.number())
}

struct Row {
    proved: f64,
    rust: f64,
    ratio: f64,
}

fn compared(table: &Table) -> Row {
    let text = table.text();
    let last = table.rows.len() as u64 - 1;
    let answer = proved(&text, last);
    assert_eq!(answer, reference::fast::sleep(&text, last), "the two planners differ");
    assert_eq!(answer, table.answer(), "not the answer that the table is meant to have");
    let [proved, rust] = in_turns([
        &mut || {
            black_box(proved(black_box(&text), black_box(last)));
        },
        &mut || {
            black_box(reference::fast::sleep(black_box(&text), black_box(last)));
        },
    ]);
    Row { proved, rust, ratio: proved / rust }
}

fn main() {
    println!("| table | rows | common period | demand points | proved | plain Rust | ratio |");
    println!("| --- | --: | --: | --: | --: | --: | --: |");
    for (name, table) in tables::kinds() {
        let Row { proved, rust, ratio } = compared(&table);
        let (rows, common, points) = (table.rows.len(), table.common(), table.points());
        println!("| {name} | {rows} | {common} | {points} | {} | {} | {ratio:.2} |", shown(proved), shown(rust));
    }
    println!();
    println!("| demand points | proved | ns a point | plain Rust | ns a point | ratio |");
    println!("| --: | --: | --: | --: | --: | --: |");
    for table in tables::growing() {
        let Row { proved, rust, ratio } = compared(&table);
        let points = table.points();
        let each = |seconds: f64| seconds * 1e9 / points as f64;
        println!(
            "| {points} | {} | {:.1} | {} | {:.1} | {ratio:.2} |",
            shown(proved),
            each(proved),
            shown(rust),
            each(rust)
        );
    }
}
