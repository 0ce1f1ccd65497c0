//! The reader that is written to be believed. A line's form is a list of pieces. The reader keeps every spot of the form
//! at which the bytes so far may have arrived, and moves all of them on by each byte. Where a byte leaves none, no line of
//! the form could have that byte there.

use crate::{limits, Record};

/// A row of a table.
#[derive(Clone, Debug, PartialEq, Eq)]
pub struct Row {
    pub name: Vec<u8>,
    pub run: u64,
    pub due: u64,
    pub gap: u64,
}

enum Piece {
    Fixed(&'static [u8]),
    Name,
    Number,
}

use Piece::*;

const FIRST_LINE: &[Piece] = &[Fixed(b"(table "), Number, Fixed(b")\n")];

const ROW_LINE: &[Piece] = &[
    Fixed(b"(task "),
    Name,
    Fixed(b" (run "),
    Number,
    Fixed(b") (due "),
    Number,
    Fixed(b") (gap "),
    Number,
    Fixed(b"))\n"),
];

impl Piece {
    /// May the piece have this byte after `had` bytes of its own?
    fn allows(&self, had: usize, byte: u8) -> bool {
        match self {
            Fixed(bytes) => bytes.get(had) == Some(&byte),
            Name => had < limits::NAME && (byte.is_ascii_lowercase() || had > 0 && byte.is_ascii_digit()),
            Number => had < limits::DIGITS && byte.is_ascii_digit() && (had > 0 || byte != b'0'),
        }
    }

    /// May the piece be over after `had` bytes?
    fn may_end(&self, had: usize) -> bool {
        match self {
            Fixed(bytes) => had == bytes.len(),
            Name | Number => had > 0,
        }
    }
}

/// A spot in a form: inside this piece, after so many bytes of it.
type Spot = (usize, usize);

/// The spots at which the form may be after one byte more.
fn step(form: &[Piece], spots: &[Spot], byte: u8) -> Vec<Spot> {
    let mut next = Vec::new();
    for &(piece, had) in spots {
        if form[piece].allows(had, byte) {
            next.push((piece, had + 1));
        }
        if form[piece].may_end(had) && piece + 1 < form.len() && form[piece + 1].allows(0, byte) {
            next.push((piece + 1, 1));
        }
    }
    next
}

/// The length of the line of this form at the start of `bytes`, or the offset of the first byte that is wrong.
fn line_length(form: &[Piece], bytes: &[u8]) -> Result<usize, usize> {
    let mut spots = vec![(0, 0)];
    for (at, &byte) in bytes.iter().enumerate() {
        spots = step(form, &spots, byte);
        if spots.is_empty() {
            return Err(at);
        }
        if spots.iter().any(|&(piece, had)| piece + 1 == form.len() && form[piece].may_end(had)) {
            return Ok(at + 1);
        }
    }
    Err(bytes.len())
}

/// The words of a line: what stands between its brackets and spaces.
fn words(line: &[u8]) -> Vec<&[u8]> {
    line.split(|b| b"() \n".contains(b)).filter(|word| !word.is_empty()).collect()
}

/// The value of the digits.
fn number(word: &[u8]) -> u64 {
    std::str::from_utf8(word).unwrap().parse().unwrap()
}

/// The least common multiple, found by trying the multiples of the first in turn.
fn common_multiple(a: u64, b: u64) -> u64 {
    (1..).map(|k| k * a).find(|m| m % b == 0).unwrap()
}

/// The rows of a text, or the first of the refusals 1 to 9.
pub fn read(text: &[u8]) -> Result<Vec<Row>, Record> {
    if text.is_empty() || text.len() > limits::TEXT {
        return Err(Record { number: 1, line: 0, place: 0, value: 0 });
    }
    let mut line = 1;
    let mut start = 0;
    let mut take = |form: &[Piece]| {
        let (this, from) = (line, start);
        match line_length(form, &text[from..]) {
            Err(at) => Err(Record { number: 2, line: this, place: from + at, value: 0 }),
            Ok(length) => {
                line += 1;
                start += length;
                Ok((this, from, words(&text[from..from + length])))
            }
        }
    };

    let (_, _, first) = take(FIRST_LINE)?;
    let count = number(first[1]);
    if !(1..=limits::ROWS).contains(&count) {
        return Err(Record { number: 3, line: 1, place: 0, value: 0 });
    }
    let mut rows: Vec<Row> = Vec::new();
    let mut common = 1;
    for _ in 0..count {
        let (line, place, w) = take(ROW_LINE)?;
        let row = Row { name: w[1].to_vec(), run: number(w[3]), due: number(w[5]), gap: number(w[7]) };
        let no = |number| Err(Record { number, line, place, value: 0 });
        if row.run > row.due {
            return no(4);
        }
        if row.due > row.gap {
            return no(5);
        }
        if row.gap > limits::GAP {
            return no(6);
        }
        if rows.iter().any(|earlier| earlier.name == row.name) {
            return no(7);
        }
        common = common_multiple(common, row.gap);
        if common > limits::COMMON {
            return no(8);
        }
        rows.push(row);
    }
    if start < text.len() {
        return Err(Record { number: 9, line, place: start, value: 0 });
    }
    Ok(rows)
}
