//! From the bytes of a plan file to a plan, or to its first fault.

use crate::plan::*;
use std::ops::RangeInclusive;

type Range = RangeInclusive<u64>;

/// Why a plan, the text of an answer, or a proposed tour is turned away; a line
/// is counted from 1, an index from 0.
#[derive(Clone, Copy, Debug, PartialEq, Eq)]
pub enum Refusal {
    TooLong,
    Form {
        line: u32,
    },
    Range {
        line: u32,
    },
    TooLarge,
    Buffer,
    NoTour,
    Contradiction,
    Broken {
        index: u64,
    },
    /// A road that stands on an earlier line too (02, note 6).
    Doubled {
        line: u32,
    },
}

impl Refusal {
    pub fn number(self) -> u32 {
        match self {
            Refusal::TooLong => 1,
            Refusal::Form { .. } => 2,
            Refusal::Range { .. } => 3,
            Refusal::TooLarge => 4,
            Refusal::Buffer => 5,
            Refusal::NoTour => 6,
            Refusal::Contradiction => 8,
            Refusal::Broken { .. } => 9,
            Refusal::Doubled { .. } => 10,
        }
    }

    pub fn line(self) -> u32 {
        match self {
            Refusal::Form { line } | Refusal::Range { line } | Refusal::Doubled { line } => line,
            _ => 0,
        }
    }

    pub fn index(self) -> u64 {
        match self {
            Refusal::Broken { index } => index,
            _ => 0,
        }
    }
}

/// From the bytes of a plan file to a plan, or to why it is turned away.
pub type Reader = fn(&[u8]) -> Result<Plan, Refusal>;

/// Reads a whole file: refusals 1, those of a line (2, 3 and 10) and 4, the
/// first that holds.
pub fn read(file: &[u8]) -> Result<Plan, Refusal> {
    // From each place a bit for each place, set when that road is met. Hashing
    // would slow down large plans, and clearing a byte for each pair small ones:
    // `bench` holds the library against this time.
    let mut met = [[0u8; MAX_PLACES as usize / 8]; MAX_PLACES as usize];
    read_with(file, |(from, to)| {
        let bits = &mut met[from as usize][to as usize / 8];
        let bit = 1 << (to % 8);
        let is_copy = *bits & bit != 0;
        *bits |= bit;
        is_copy
    })
}

/// The same, but what is a copy of an earlier road, that is asked: once for each
/// road line of good form and range, in the order of the file.
pub fn read_with(file: &[u8], is_copy: impl FnMut(Road) -> bool) -> Result<Plan, Refusal> {
    if file.len() > MAX_PLAN_BYTES {
        return Err(Refusal::TooLong);
    }
    let mut lines = Lines {
        rest: file,
        done: 0,
    };
    let plan = read_plan(&mut lines, is_copy)?;
    lines.end()?;
    if plan.size() > MAX_SIZE {
        return Err(Refusal::TooLarge);
    }
    Ok(plan)
}

fn read_plan(lines: &mut Lines, mut is_copy: impl FnMut(Road) -> bool) -> Result<Plan, Refusal> {
    lines.one("tour", 1..=1)?;
    let marks = lines.one("marks", 0..=MAX_MARKS)?;
    let last_label = (1 << marks) - 1;
    let places = lines.one("places", 1..=MAX_PLACES)?;
    let mut labels = Vec::new();
    for _ in 0..places {
        labels.push(lines.one("label", 0..=last_label)? as u8);
    }
    let start = lines.one("start", 0..=places - 1)?;
    let count = lines.one("roads", 0..=MAX_ROADS)?;
    let mut roads = Vec::new();
    for _ in 0..count {
        let place = 0..=places - 1;
        let ends = lines.take("road", &[&[&place, &place]])?;
        let road = (ends[0] as u8, ends[1] as u8);
        if is_copy(road) {
            return Err(Refusal::Doubled { line: lines.done });
        }
        roads.push(road);
    }
    let states = lines.one("hard", 1..=MAX_HARD_STATES)?;
    let hard = read_body(lines, states, last_label)?;
    let count = lines.one("rules", 0..=MAX_RULES)?;
    let mut soft = Vec::new();
    for _ in 0..count {
        let states = lines.one("soft", 1..=MAX_SOFT_STATES)?;
        let weight = lines.one("weight", 0..=MAX_WEIGHT)? as u32;
        soft.push(Soft {
            weight,
            rule: read_body(lines, states, last_label)?,
        });
    }
    Ok(Plan {
        marks: marks as u8,
        labels,
        start: start as u8,
        roads,
        hard,
        soft,
    })
}

/// The lines that hard and soft blocks have in common.
fn read_body(lines: &mut Lines, states: u64, last_label: u64) -> Result<Automaton, Refusal> {
    let first = lines.one("first", 0..=states - 1)?;
    let accept = lines.one("accept", 0..=(1 << states) - 1)?;
    let count = lines.one("moves", 0..=MAX_MOVES)?;
    let mut moves = Vec::new();
    for _ in 0..count {
        moves.push(read_move(lines, 0..=states - 1, 0..=last_label)?);
    }
    Ok(Automaton {
        states: states as u8,
        first: first as u8,
        accept: accept as u16,
        moves,
    })
}

/// A line of four numbers, or of five with any before the last.
fn read_move(lines: &mut Lines, state: Range, label: Range) -> Result<Move, Refusal> {
    let four = [&state, &label, &label, &state];
    let five = [&state, &label, &label, &label, &state];
    let values = lines.take("move", &[&four, &five])?;
    let values: Vec<u8> = values.into_iter().map(|value| value as u8).collect();
    let (from, need, bar) = (values[0], values[1], values[2]);
    let (any, to) = match values[3..] {
        [to] => (None, to),
        [any, to] => (Some(any), to),
        _ => unreachable!("a line of four or five numbers"),
    };
    Ok(Move {
        from,
        need,
        bar,
        any,
        to,
    })
}

/// The bytes still to be read, after so many lines.
struct Lines<'a> {
    rest: &'a [u8],
    done: u32,
}

impl Lines<'_> {
    fn one(&mut self, key: &str, range: Range) -> Result<u64, Refusal> {
        self.take(key, &[&[&range]]).map(|values| values[0])
    }

    /// Takes one line with this key that has one of these forms: as many values
    /// as the form has ranges. The form of the whole line is judged before any
    /// range, and how many values there are tells which form it is.
    fn take(&mut self, key: &str, forms: &[&[&Range]]) -> Result<Vec<u64>, Refusal> {
        self.done += 1;
        let line = self.done;
        let length = self.rest.iter().position(|&byte| byte == b'\n');
        let length = length.ok_or(Refusal::Form { line })?;
        let values = values(&self.rest[..length], key).ok_or(Refusal::Form { line })?;
        let ranges = forms.iter().find(|form| form.len() == values.len());
        let ranges = ranges.ok_or(Refusal::Form { line })?;
        if !values
            .iter()
            .zip(*ranges)
            .all(|(value, range)| range.contains(value))
        {
            return Err(Refusal::Range { line });
        }
        self.rest = &self.rest[length + 1..];
        Ok(values)
    }

    /// Nothing may follow the last line.
    fn end(&self) -> Result<(), Refusal> {
        if self.rest.is_empty() {
            Ok(())
        } else {
            Err(Refusal::Form {
                line: self.done + 1,
            })
        }
    }
}

/// The values of a line of the form `key=value,value`, if it has that form,
/// with however many values.
fn values(line: &[u8], key: &str) -> Option<Vec<u64>> {
    let text = line.strip_prefix(key.as_bytes())?.strip_prefix(b"=")?;
    text.split(|&byte| byte == b',').map(number).collect()
}

/// A decimal number without a leading zero. One with more digits than fit
/// becomes the largest there is, which is outside every range.
pub fn number(text: &[u8]) -> Option<u64> {
    if text.is_empty() || (text[0] == b'0' && text.len() > 1) {
        return None;
    }
    text.iter().try_fold(0u64, |value, &byte| {
        let digit = byte.is_ascii_digit().then(|| (byte - b'0') as u64)?;
        Some(value.saturating_mul(10).saturating_add(digit))
    })
}
