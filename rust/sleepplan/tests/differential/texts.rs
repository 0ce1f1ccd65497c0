//! The texts to compare answers on, in families. Each family hands its texts to a function, one by one.

use crate::random::Random;

pub type Use<'a> = &'a mut dyn FnMut(&[u8]);

/// A row of a table to be written; nothing says that it is a good one.
#[derive(Clone)]
struct Row {
    name: String,
    run: u64,
    due: u64,
    gap: u64,
}

fn written(rows: &[Row]) -> Vec<u8> {
    let mut text = format!("(table {})\n", rows.len());
    for Row { name, run, due, gap } in rows {
        text += &format!("(task {name} (run {run}) (due {due}) (gap {gap}))\n");
    }
    text.into_bytes()
}

const LETTERS: &[u8] = b"abcdefghijklmnopqrstuvwxyz";
const LETTERS_AND_DIGITS: &[u8] = b"abcdefghijklmnopqrstuvwxyz0123456789";

fn name(random: &mut Random, length: u64) -> String {
    let mut name = String::from(*random.pick(LETTERS) as char);
    for _ in 1..length {
        name.push(*random.pick(LETTERS_AND_DIGITS) as char);
    }
    name
}

fn divisors(n: u64) -> Vec<u64> {
    (1..=n.min(100_000)).filter(|&d| n.is_multiple_of(d)).collect()
}

/// Rows whose gaps divide `period`, with about `fill` percent of the time spoken for. All names differ.
fn rows_within(random: &mut Random, count: u64, period: u64, fill: u64) -> Vec<Row> {
    let mut gaps = divisors(period);
    gaps.retain(|gap| gap * fill >= 100 * count);
    let tight = random.once_in(3);
    let mut rows = Vec::new();
    for at in 0..count {
        let gap = if gaps.is_empty() { period.min(100_000) } else { *random.pick(&gaps) };
        let share = (gap * fill / 100 / count).max(1);
        let run = random.between(1, (2 * share - 1).min(gap));
        let due = if tight { random.between(run, gap) } else { random.between(run.max(gap - gap / 8), gap) };
        let length = random.between(1, 9);
        rows.push(Row { name: format!("{}{at}", name(random, length)), run, due, gap });
    }
    // An ending by the row's number does not make `a1` and `a11` differ from `a` and `a1` with other numbers.
    for at in 0..rows.len() {
        if rows[..at].iter().any(|earlier| earlier.name == rows[at].name) {
            rows[at].name = format!("row{at}x");
        }
    }
    rows
}

/// A table that is accepted.
fn accepted(random: &mut Random, count: u64, period: u64) -> Vec<u8> {
    loop {
        let text = written(&rows_within(random, count, period, 80));
        if reference::plan(&text).is_ok() {
            return text;
        }
    }
}

pub fn small_tables(random: &mut Random, count: u64, each: Use) {
    for _ in 0..count {
        let rows = random.between(1, 6);
        let period = match random.below(3) {
            0 => random.between(1, 60),
            1 => *random.pick(&[12, 24, 30, 36, 60, 112, 120, 180, 360]),
            _ => random.between(1, 12) * random.between(1, 12) * random.between(1, 4),
        };
        let fill = random.between(30, 110);
        each(&written(&rows_within(random, rows, period, fill)));
    }
}

/// Rows with gaps that share nothing: most have too large a common period.
pub fn wild_tables(random: &mut Random, count: u64, each: Use) {
    for _ in 0..count {
        let most = *random.pick(&[10, 30, 100, 1000, 120_000]);
        let mut rows = Vec::new();
        for _ in 0..random.between(1, 5) {
            let gap = random.between(1, most);
            let most_due = if random.once_in(9) { gap + 1 } else { gap };
            let due = random.between(1, most_due);
            let most_run = if random.once_in(9) { due + 1 } else { 1 + due / 3 };
            let run = random.between(1, most_run);
            let length = random.between(1, 2);
            rows.push(Row { name: name(random, length), run, due, gap });
        }
        each(&written(&rows));
    }
}

pub fn middle_tables(random: &mut Random, count: u64, each: Use) {
    for _ in 0..count {
        let rows = random.between(1, 64);
        let period = *random.pick(&[720, 840, 1260, 2520, 4096, 5040, 7560, 10_080, 15_625, 27_720, 50_400]);
        let fill = random.between(60, 102);
        each(&written(&rows_within(random, rows, period, fill)));
    }
}

pub fn large_tables(random: &mut Random, count: u64, each: Use) {
    for _ in 0..count {
        let rows = *random.pick(&[2, 3, 8, 20, 64]);
        let period = *random.pick(&[720_720, 831_600, 942_480, 982_800, 997_920, 1_000_000, 531_441, 524_288]);
        let fill = random.between(80, 101);
        each(&written(&rows_within(random, rows, period, fill)));
    }
}

/// Tables with one number, count or length at a limit, one below and one above.
pub fn limits(random: &mut Random, count: u64, each: Use) {
    for round in 0..count {
        let size = random.between(1, 4);
        let period = *random.pick(&[12, 60, 100, 250]);
        let mut rows = rows_within(random, size, period, 70);
        let at = random.below(rows.len() as u64) as usize;
        let off = random.below(3);
        match round % 12 {
            // the largest gap
            0 => rows[at].gap = 99_999 + off,
            1 => {
                rows.truncate(1);
                rows[0].gap = 99_999 + off;
                rows[0].due = 99_999 + off;
            }
            // run beside due, due beside gap
            2 => rows[at].run = rows[at].due + off - 1,
            3 => rows[at].due = rows[at].gap + off - 1,
            // the longest name
            4 => rows[at].name = name(random, 11 + off),
            // the longest number, in each place
            5 => rows[at].gap = [999_999, 9_999_999, 10_000_000][off as usize],
            6 => rows[at].due = [999_999, 9_999_999, 10_000_000][off as usize],
            7 => rows[at].run = [999_999, 9_999_999, 10_000_000][off as usize],
            // two names that are equal, or nearly
            8 => {
                let mut twin = rows[at].clone();
                match off {
                    0 => twin.name.push('0'),
                    1 => drop(twin.name.pop()),
                    _ => (),
                }
                let place = random.below(rows.len() as u64 + 1) as usize;
                rows.insert(place, twin);
            }
            // the common period: up to a million, and just above
            9 => {
                let gaps: [u64; 2] = *random.pick(&[
                    [64, 15_625],
                    [1000, 1001],
                    [1000, 1000],
                    [999, 1001],
                    [999, 1000],
                    [10, 100_000],
                    [11, 100_000],
                    [100_000, 99_999],
                    [100_000, 62_500],
                    [65_536, 16],
                    [65_536, 15],
                ]);
                rows.truncate(2);
                rows.resize(2, rows[0].clone());
                for (row, (gap, name)) in rows.iter_mut().zip(gaps.into_iter().zip(["a", "b"])) {
                    *row = Row { name: name.into(), run: random.between(1, gap / 3), due: gap, gap };
                }
            }
            // the number of rows
            10 => rows = rows_within(random, 63 + off, 5040, 90),
            // the load: all of the time, one tick less, one more
            _ => {
                let gap = random.between(2, 400);
                let (run, rest) = (random.between(1, gap - 1), gap);
                let row = |name: &str, run, due| Row { name: name.into(), run, due, gap };
                rows = vec![row("a", run, random.between(run, gap)), row("b", rest - run, gap), row("c", 1, gap)];
                rows.truncate(2 + (off == 2) as usize);
                rows[1].run = (rows[1].run - (off == 0) as u64).max(1);
            }
        }
        each(&written(&rows));
    }
}

/// First lines with every count, and the wrong number of rows after them.
pub fn counts(random: &mut Random, each: Use) {
    for count in (0..70).chain([99, 100, 640, 999_999, 1_000_000, 9_999_999, 10_000_000]) {
        for rows in [0, 1, 2, 63, 64, 65] {
            let table = written(&rows_within(random, rows, 2520, 80));
            let line = table.iter().position(|&b| b == b'\n').unwrap();
            let mut text = format!("(table {count})").into_bytes();
            text.extend_from_slice(&table[line..]);
            each(&text);
        }
    }
}

/// Texts around the most bytes: a table with something after it, and one with nothing good in it.
pub fn long_texts(random: &mut Random, count: u64, each: Use) {
    for _ in 0..count {
        let rows = random.between(1, 64);
        let mut text = written(&rows_within(random, rows, 5040, 80));
        let length = match random.below(4) {
            0 => random.between(text.len() as u64, 8190),
            1 => random.between(8194, 70_000),
            _ => random.between(8190, 8194),
        } as usize;
        match random.below(4) {
            0 => text.resize(length, *random.pick(b"\n (a0")),
            1 => {
                let more = text.clone();
                text.extend(more.iter().cycle().take(length - more.len()));
            }
            // a count with more rows than fit
            2 => {
                text = b"(table 64)\n".to_vec();
                while text.len() < length {
                    let row = format!("(task {} (run 1) (due 64) (gap 64))\n", name(random, 12));
                    text.extend_from_slice(row.as_bytes());
                }
                text.truncate(length);
            }
            _ => text = (0..length).map(|_| random.byte()).collect(),
        }
        each(&text);
    }
}

pub fn random_bytes(random: &mut Random, count: u64, each: Use) {
    for _ in 0..count {
        let length = random.below(60);
        let from = *random.pick(&[&b"(table 1)\n"[..], b"(task run due gap 0123456789 ab)(\n", b"\0\xff"]);
        let any = random.once_in(3);
        let text: Vec<u8> = (0..length).map(|_| if any { random.byte() } else { *random.pick(from) }).collect();
        each(&text);
    }
}

/// Words of a table in any order, and in nearly the right one.
pub fn random_words(random: &mut Random, count: u64, each: Use) {
    const WORDS: [&str; 18] = [
        "(table ", "(task ", " (run ", ") (due ", ") (gap ", "))\n", ")\n", "\n", " ", "(", ")", "1", "2", "64", "a",
        "head", "0", "100000",
    ];
    const RIGHT: [usize; 12] = [0, 11, 6, 1, 15, 2, 11, 3, 12, 4, 13, 5];
    for _ in 0..count {
        let mut text = String::new();
        if random.once_in(2) {
            for _ in 0..random.below(16) {
                text += *random.pick(&WORDS);
            }
        } else {
            for word in RIGHT {
                text += WORDS[if random.once_in(20) { random.below(18) as usize } else { word }];
            }
        }
        each(text.as_bytes());
    }
}

/// Bytes at the edges of what a line may have somewhere.
const TELLING: &[u8] = b"019/:azA`{() \n\t\r\x0b\0\x80\xff";

/// The text with one byte deleted, inserted or changed, at each place that is a multiple of `stride`, and cut off there.
pub fn damages(text: &[u8], bytes: &[u8], stride: usize, each: Use) {
    for place in (0..=text.len()).step_by(stride) {
        let (before, after) = text.split_at(place);
        each(before);
        if let Some(rest) = after.get(1..) {
            each(&[before, rest].concat());
            for &byte in bytes {
                each(&[before, &[byte], rest].concat());
            }
        }
        for &byte in bytes {
            each(&[before, &[byte], after].concat());
        }
    }
}

pub const EXAMPLE: &[u8] = b"(table 3)
(task head (run 8) (due 16) (gap 16))
(task lens (run 12) (due 28) (gap 28))
(task fan (run 1) (due 56) (gap 56))
";

/// The example with every byte in every place.
pub fn damaged_example(stride: usize, each: Use) {
    let all: Vec<u8> = (0..=255).collect();
    damages(EXAMPLE, &all, stride, each);
}

pub fn damaged_small_tables(random: &mut Random, count: u64, stride: usize, each: Use) {
    for _ in 0..count {
        let rows = random.between(1, 4);
        damages(&accepted(random, rows, 120), TELLING, stride, each);
    }
}

pub fn damaged_long_tables(random: &mut Random, count: u64, stride: usize, each: Use) {
    for _ in 0..count {
        let rows = random.between(40, 64);
        let bytes = [*random.pick(TELLING), *random.pick(LETTERS_AND_DIGITS)];
        damages(&accepted(random, rows, 720), &bytes, stride, each);
    }
}
