//! The tables that are timed.

use reference::plan;

#[derive(Clone, Copy)]
pub struct Row {
    run: u64,
    due: u64,
    gap: u64,
}

pub struct Table {
    pub rows: Vec<Row>,
    /// What stands after the last row.
    after: &'static str,
}

fn greatest_common_divisor(a: u64, b: u64) -> u64 {
    if b == 0 {
        a
    } else {
        greatest_common_divisor(b, a % b)
    }
}

/// A row whose jobs are due when the next may be released.
fn row(run: u64, gap: u64) -> Row {
    Row { run, due: gap, gap }
}

fn table(rows: Vec<Row>) -> Table {
    Table { rows, after: "" }
}

impl Table {
    pub fn text(&self) -> Vec<u8> {
        let mut text = format!("(table {})\n", self.rows.len());
        for (at, Row { run, due, gap }) in self.rows.iter().enumerate() {
            text += &format!("(task row{at} (run {run}) (due {due}) (gap {gap}))\n");
        }
        text += self.after;
        text.into_bytes()
    }

    pub fn common(&self) -> u64 {
        self.rows.iter().fold(1, |c, row| c / greatest_common_divisor(c, row.gap) * row.gap)
    }

    /// The demand points that a planner meets: up to the first window that fails, or to the common period. A text or a load
    /// that is refused is not planned.
    pub fn points(&self) -> u64 {
        let last = match plan(&self.text()) {
            Err(record) if record.number == 11 => record.value,
            Err(_) => return 0,
            Ok(plan) => plan.common,
        };
        self.rows.iter().filter(|row| row.due <= last).map(|row| 1 + (last - row.due) / row.gap).sum()
    }

    /// What the call for the last row's sleep must answer.
    pub fn answer(&self) -> u32 {
        match plan(&self.text()) {
            Ok(plan) => plan.sleeps[self.rows.len() - 1] as u32,
            Err(record) => super::REFUSED + record.number,
        }
    }
}

/// 63 rows of run 1 with gaps around 63, all of which divide 10,080, that take all but 30 of 10,080 ticks.
fn busy_rows() -> Vec<Row> {
    // The two gaps of a pair have together as many jobs as two rows of gap 63.
    let pairs = [(56, 72), (45, 105), (42, 126), (63, 63)];
    let mut rows: Vec<Row> = pairs.iter().cycle().take(30).flat_map(|&(a, b)| [row(1, a), row(1, b)]).collect();
    rows.extend([row(1, 96), row(1, 96), row(1, 42)]);
    rows
}

/// The busy rows, and one that makes the common period long.
fn busy(run: u64, gap: u64) -> Table {
    let mut rows = busy_rows();
    rows.push(row(run, gap));
    table(rows)
}

/// The common period 997,920 with all of its ticks spoken for.
fn heaviest() -> Table {
    busy(297, 99_792)
}

/// The same with every due a tick earlier: the first window that fails is one tick shorter than the common period.
fn refused_late() -> Table {
    let mut table = heaviest();
    for row in &mut table.rows {
        row.due -= 1;
    }
    table
}

/// Gaps that meet seldom: 64 and 15,625 have the common period 1,000,000.
fn million() -> Table {
    let mut rows = vec![row(1, 64); 63];
    rows.push(row(1, 15_625));
    table(rows)
}

/// Two rows, so that the queue costs little.
fn two_rows() -> Table {
    table(vec![row(1, 2), row(7, 99_991)])
}

fn small_period() -> Table {
    table((0..64).map(|at| row(1, [90, 120, 180, 360][at % 4])).collect())
}

pub fn kinds() -> Vec<(&'static str, Table)> {
    let example = table(vec![row(8, 16), row(12, 28), row(1, 56)]);
    let unread = Table { after: "\n", ..small_period() };
    vec![
        ("the three-row example", example),
        ("64 rows, small common period", small_period()),
        ("the same, refused after the last row: reading alone", unread),
        ("two rows, long common period", two_rows()),
        ("63 equal gaps and one that meets them seldom", million()),
        ("the heaviest: no tick free", heaviest()),
        ("the heaviest, refused by its last window", refused_late()),
    ]
}

/// The busy rows under longer and longer common periods: 10,080, 30,240, 100,800, 332,640 and 997,920.
pub fn growing() -> Vec<Table> {
    [10_080, 30_240, 33_600, 66_528, 99_792].map(|gap| busy(1, gap)).into()
}
