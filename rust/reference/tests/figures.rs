//! The examples of docs/refusals.md and docs/demand.md.

use reference::{fast, need, plan, read};

const CUTTER: &str = "(table 3)
(task head (run 8) (due 16) (gap 16))
(task lens (run 12) (due 28) (gap 28))
(task fan (run 1) (due 56) (gap 56))
";

/// A table of rows run/due/gap, named a, b and so on.
fn table(rows: &[(u32, u32, u32)]) -> String {
    let mut text = format!("(table {})\n", rows.len());
    for (name, (run, due, gap)) in ('a'..).zip(rows) {
        text += &format!("(task {name} (run {run}) (due {due}) (gap {gap}))\n");
    }
    text
}

#[track_caller]
fn refused(text: &str, record: &str) {
    let answer = plan(text.as_bytes()).expect_err("accepted");
    assert_eq!(answer.to_string(), record);
    assert_eq!(fast::check(text.as_bytes()), answer.number);
}

#[track_caller]
fn sleeps(rows: &[(u32, u32, u32)], sleeps: &[u64]) {
    let text = table(rows);
    assert_eq!(plan(text.as_bytes()).expect("refused").sleeps, sleeps);
    for (row, &sleep) in sleeps.iter().enumerate() {
        assert_eq!(fast::sleep(text.as_bytes(), row as u64) as u64, sleep);
    }
}

#[test]
fn texts() {
    let too_long = "(".repeat(8193);
    refused("", "(refused 1 (layer 1) (line 0) (place 0) (value 0))");
    refused(&too_long, "(refused 1 (layer 1) (line 0) (place 0) (value 0))");
    refused(&too_long[1..], "(refused 2 (layer 1) (line 1) (place 1) (value 0))");
}

#[test]
fn line_forms() {
    let row = "(table 1)\n(task head (run 08) (due 16) (gap 16))\n";
    refused(row, "(refused 2 (layer 1) (line 2) (place 26) (value 0))");
    refused("(table 1)\n(task head", "(refused 2 (layer 1) (line 2) (place 20) (value 0))");
    refused("(table 1)\n", "(refused 2 (layer 1) (line 2) (place 10) (value 0))");
    refused("(table 12345678)\n", "(refused 2 (layer 1) (line 1) (place 14) (value 0))");
    refused("(table 0)\n", "(refused 2 (layer 1) (line 1) (place 7) (value 0))");
}

#[test]
fn rows() {
    refused("(table 65)\n", "(refused 3 (layer 2) (line 1) (place 0) (value 0))");
    refused(&table(&[(9, 8, 16)]), "(refused 4 (layer 2) (line 2) (place 10) (value 0))");
    refused(&table(&[(8, 17, 16)]), "(refused 5 (layer 2) (line 2) (place 10) (value 0))");
    refused(&table(&[(8, 16, 100_001)]), "(refused 6 (layer 2) (line 2) (place 10) (value 0))");
    refused(
        "(table 2)\n(task head (run 8) (due 16) (gap 16))\n(task head (run 1) (due 56) (gap 56))\n",
        "(refused 7 (layer 2) (line 3) (place 48) (value 0))",
    );
    refused(
        "(table 2)\n(task head (run 1) (due 9) (gap 1000))\n(task lens (run 1) (due 9) (gap 1001))\n",
        "(refused 8 (layer 2) (line 3) (place 49) (value 0))",
    );
    refused(
        "(table 1)\n(task head (run 8) (due 16) (gap 16))\n\n",
        "(refused 9 (layer 2) (line 3) (place 48) (value 0))",
    );
}

#[test]
fn rows_within_the_limits() {
    assert!(plan(table(&[(1, 100_000, 100_000)]).as_bytes()).is_ok());
    assert!(plan(table(&[(1, 64, 64), (1, 15_625, 15_625)]).as_bytes()).is_ok());
}

#[test]
fn plans() {
    refused(&table(&[(1, 1, 1), (1, 2, 2)]), "(refused 10 (layer 3) (line 0) (place 0) (value 3))");
    refused(&table(&[(2, 2, 4), (2, 3, 4)]), "(refused 11 (layer 3) (line 0) (place 0) (value 3))");
    sleeps(&[(8, 16, 16), (12, 28, 28), (1, 56, 56)], &[4, 4, 6]);
    sleeps(&[(1, 4, 5), (1, 4, 6), (1, 7, 10)], &[2, 2, 4]);
    sleeps(&[(2, 2, 4), (2, 4, 4)], &[0, 0]);
}

#[test]
fn the_printed_plan() {
    let plan = plan(CUTTER.as_bytes()).unwrap();
    assert_eq!(
        plan.to_string(),
        "(plan 3 (load 106) (common 112))\n(sleep head 4)\n(sleep lens 4)\n(sleep fan 6)\n(shortest 4)\n"
    );
}

#[test]
fn the_needs_of_the_worked_example() {
    let rows = read(CUTTER.as_bytes()).unwrap();
    let points = [16, 28, 32, 48, 56, 64, 80, 84, 96, 112];
    let needs = [8, 20, 28, 36, 49, 57, 65, 77, 85, 106];
    assert_eq!(points.map(|t| need(&rows, t)), needs);
}
