//! A reader and planner that are written to be quick, with the standard library's heap: the yardstick of the benchmark.
//! Nothing is allocated but the heap itself.

use std::cmp::Reverse;
use std::collections::BinaryHeap;

use crate::limits;

/// What is added to a refusal's number where a sleep is asked for.
const REFUSED: u32 = 1_000_000;
const NO_SUCH_ROW: u32 = 12;
const MOST_ROWS: usize = limits::ROWS as usize;

/// 0 for an accepted text, else the number of its refusal.
pub fn check(text: &[u8]) -> u32 {
    match Table::read(text).and_then(|table| table.sleeps()) {
        Ok(_) => 0,
        Err(number) => number,
    }
}

/// The sleep of a row, or 1,000,000 plus the number of the refusal.
pub fn sleep(text: &[u8], row: u64) -> u32 {
    match Table::read(text).and_then(|table| Ok((table.sleeps()?, table.count))) {
        Ok((sleeps, count)) if row < count as u64 => sleeps[row as usize],
        Ok(_) => REFUSED + NO_SUCH_ROW,
        Err(number) => REFUSED + number,
    }
}

#[derive(Clone, Copy, Default)]
struct Task {
    run: u32,
    due: u32,
    gap: u32,
}

struct Table {
    tasks: [Task; MOST_ROWS],
    count: usize,
    common: u32,
}

/// What is left of the text.
struct Rest<'a>(&'a [u8]);

impl<'a> Rest<'a> {
    #[inline]
    fn fixed(&mut self, bytes: &[u8]) -> Result<(), u32> {
        self.0 = self.0.strip_prefix(bytes).ok_or(2u32)?;
        Ok(())
    }

    #[inline]
    fn number(&mut self) -> Result<u32, u32> {
        let mut value = 0;
        let mut length = 0;
        while length < limits::DIGITS {
            match self.0.get(length) {
                Some(&byte @ b'0'..=b'9') => value = value * 10 + (byte - b'0') as u32,
                _ => break,
            }
            length += 1;
        }
        if length == 0 || self.0[0] == b'0' {
            return Err(2);
        }
        self.0 = &self.0[length..];
        Ok(value)
    }

    /// A name as a number: its bytes, none of which is 0, and zeros after them.
    #[inline]
    fn name(&mut self) -> Result<u128, u32> {
        let mut name = 0;
        let mut length = 0;
        while length < limits::NAME {
            match self.0.get(length) {
                Some(&byte) if byte.is_ascii_lowercase() || length > 0 && byte.is_ascii_digit() => {
                    name |= (byte as u128) << (8 * length)
                }
                _ => break,
            }
            length += 1;
        }
        if length == 0 {
            return Err(2);
        }
        self.0 = &self.0[length..];
        Ok(name)
    }
}

fn greatest_common_divisor(mut a: u32, mut b: u32) -> u32 {
    while b != 0 {
        (a, b) = (b, a % b);
    }
    a
}

impl Table {
    fn read(text: &[u8]) -> Result<Table, u32> {
        if text.is_empty() || text.len() > limits::TEXT {
            return Err(1);
        }
        let mut rest = Rest(text);
        rest.fixed(b"(table ")?;
        let count = rest.number()?;
        rest.fixed(b")\n")?;
        if count as u64 > limits::ROWS {
            return Err(3);
        }
        let mut table = Table { tasks: [Task::default(); MOST_ROWS], count: count as usize, common: 1 };
        let mut names = [0u128; MOST_ROWS];
        for row in 0..table.count {
            rest.fixed(b"(task ")?;
            let name = rest.name()?;
            rest.fixed(b" (run ")?;
            let run = rest.number()?;
            rest.fixed(b") (due ")?;
            let due = rest.number()?;
            rest.fixed(b") (gap ")?;
            let gap = rest.number()?;
            rest.fixed(b"))\n")?;
            if run > due {
                return Err(4);
            }
            if due > gap {
                return Err(5);
            }
            if gap as u64 > limits::GAP {
                return Err(6);
            }
            if names[..row].contains(&name) {
                return Err(7);
            }
            let common = table.common as u64 * (gap / greatest_common_divisor(table.common, gap)) as u64;
            if common > limits::COMMON {
                return Err(8);
            }
            table.common = common as u32;
            table.tasks[row] = Task { run, due, gap };
            names[row] = name;
        }
        if rest.0.is_empty() {
            Ok(table)
        } else {
            Err(9)
        }
    }

    /// The sleep of each row, from one walk over the demand points below the common period. At the period itself the
    /// margin is period − load. From there on every margin is one of an earlier window and so much more, and those are
    /// not negative. So the smallest margin from a due on is the smaller of period − load and the smallest from the due
    /// up to the period.
    ///
    /// An element of the heap is a demand point and its row in one number: the row's in the low bits.
    fn sleeps(&self) -> Result<[u32; MOST_ROWS], u32> {
        let tasks = &self.tasks[..self.count];
        let load: u32 = tasks.iter().map(|task| task.run * (self.common / task.gap)).sum();
        if load > self.common {
            return Err(10);
        }
        const ROW_BITS: u32 = MOST_ROWS.trailing_zeros();
        let key = |t: u32, row: usize| Reverse(t << ROW_BITS | row as u32);

        let mut order: [(u32, usize); MOST_ROWS] = [(0, 0); MOST_ROWS];
        for (row, task) in tasks.iter().enumerate() {
            order[row] = (task.due, row);
        }
        let order = &mut order[..self.count];
        order.sort_unstable();

        let mut points: BinaryHeap<Reverse<u32>> =
            tasks.iter().enumerate().map(|(row, task)| key(task.due, row)).collect();
        let end = key(self.common, 0);
        let mut total = 0;
        // The smallest margin between one due and the next, in the order of the dues, and how many dues are behind.
        let mut legs = [u32::MAX; MOST_ROWS];
        let mut behind = 0;
        let mut first = points.peek_mut().expect("a table has a row");
        while first.0 < end.0 {
            let t = first.0 >> ROW_BITS;
            let task = &self.tasks[first.0 as usize % MOST_ROWS];
            total += task.run;
            first.0 += task.gap << ROW_BITS;
            drop(first);
            first = points.peek_mut().expect("a point was replaced, not taken");
            if first.0 >> ROW_BITS == t {
                continue;
            }
            if total > t {
                return Err(11);
            }
            while behind < order.len() && order[behind].0 <= t {
                behind += 1;
            }
            legs[behind - 1] = legs[behind - 1].min(t - total);
        }

        let mut sleeps = [0; MOST_ROWS];
        let mut least = self.common - load;
        for (&(_, row), &leg) in order.iter().zip(&legs).rev() {
            least = least.min(leg);
            sleeps[row] = least;
        }
        Ok(sleeps)
    }
}
