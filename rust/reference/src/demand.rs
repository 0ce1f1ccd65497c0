//! The planner that is written to be believed: it looks at every window from 1 tick up to one common period past the
//! largest due. Short periods are added up by the formula of need; long ones by what each tick adds.

use crate::{Record, Row};

/// Up to so many windows need is taken from its formula, window by window.
const BY_FORMULA: u64 = 6_000;

/// A table's rows with what the planner finds of them.
#[derive(Clone, Debug, PartialEq, Eq)]
pub struct Plan {
    pub rows: Vec<Row>,
    pub common: u64,
    pub load: u64,
    pub sleeps: Vec<u64>,
}

/// The most ticks that the rows can demand of a window of `t` ticks.
pub fn need(rows: &[Row], t: u64) -> u64 {
    rows.iter().filter(|row| row.due <= t).map(|row| row.run * (1 + (t - row.due) / row.gap)).sum()
}

fn greatest_common_divisor(a: u64, b: u64) -> u64 {
    if b == 0 {
        a
    } else {
        greatest_common_divisor(b, a % b)
    }
}

/// Needs of the windows 0, 1, .. up to `last`, by the formula.
fn needs_by_formula(rows: &[Row], last: u64) -> Vec<u64> {
    (0..=last).map(|t| need(rows, t)).collect()
}

/// The same by what each tick adds: a row adds its run at its due and then at every gap.
fn needs_by_ticks(rows: &[Row], last: u64) -> Vec<u64> {
    let mut needs = vec![0; last as usize + 1];
    for row in rows {
        for t in (row.due..=last).step_by(row.gap as usize) {
            needs[t as usize] += row.run;
        }
    }
    for t in 1..needs.len() {
        needs[t] += needs[t - 1];
    }
    needs
}

impl Plan {
    /// The plan of rows that were read well, or refusal 10 or 11.
    pub fn of(rows: Vec<Row>) -> Result<Plan, Record> {
        let common = rows.iter().fold(1, |c, row| c / greatest_common_divisor(c, row.gap) * row.gap);
        let load: u64 = rows.iter().map(|row| row.run * (common / row.gap)).sum();
        if load > common {
            return Err(Record::of_value(10, load));
        }
        let last = rows.iter().map(|row| row.due).max().unwrap_or(0) + common;
        let needs = if last <= BY_FORMULA { needs_by_formula(&rows, last) } else { needs_by_ticks(&rows, last) };
        if let Some(t) = (1..=last).find(|&t| needs[t as usize] > t) {
            return Err(Record::of_value(11, t));
        }
        // The smallest margin of all windows from t ticks on.
        let mut smallest: Vec<u64> = (0..=last).map(|t| t - needs[t as usize]).collect();
        for t in (0..last as usize).rev() {
            smallest[t] = smallest[t].min(smallest[t + 1]);
        }
        let sleeps = rows.iter().map(|row| smallest[row.due as usize]).collect();
        Ok(Plan { rows, common, load, sleeps })
    }

    /// The smallest of the sleeps.
    pub fn shortest(&self) -> Option<u64> {
        self.sleeps.iter().copied().min()
    }
}

impl std::fmt::Display for Plan {
    fn fmt(&self, f: &mut std::fmt::Formatter) -> std::fmt::Result {
        writeln!(f, "(plan {} (load {}) (common {}))", self.rows.len(), self.load, self.common)?;
        for (row, sleep) in self.rows.iter().zip(&self.sleeps) {
            writeln!(f, "(sleep {} {sleep})", row.name.escape_ascii())?;
        }
        match self.shortest() {
            Some(shortest) => writeln!(f, "(shortest {shortest})"),
            None => Ok(()),
        }
    }
}

#[cfg(test)]
mod tests {
    use super::*;

    #[test]
    fn both_ways_to_add_up_the_need_agree() {
        let row = |run, due, gap| Row { name: vec![], run, due, gap };
        let rows = [row(8, 16, 16), row(12, 28, 28), row(1, 55, 56), row(3, 7, 30)];
        assert_eq!(needs_by_formula(&rows, 3000), needs_by_ticks(&rows, 3000));
    }
}
