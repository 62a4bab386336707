//! What a comparison has met of roads that are written twice (02, note 6), and
//! what it should have met.

use crate::plan::{Plan, Road, MAX_ROADS};
use crate::reader::{read_with, Refusal};
use std::collections::HashSet;
use std::fmt;

/// A copy so many lines behind its road is far away.
const FAR: usize = 1_000;

/// How often each thing was met.
#[derive(Default)]
pub struct Copied {
    /// Files refused with 10: those whose copy stands on the next line, far
    /// later, or between; those whose road leads from a place to itself; those
    /// with further copies of that road, and those with other roads copied; those
    /// that have a later fault of form, of range, or too large an N besides.
    next: usize,
    between: usize,
    far: usize,
    stay: usize,
    thrice: usize,
    others: usize,
    later_form: usize,
    later_range: usize,
    large: usize,
    /// Files refused with 2 or 3 with a copy on a later line, and those whose
    /// faulty line would be a copy if it were read loosely.
    earlier: usize,
    loose: usize,
    /// Plans that pass: with both ways of a road, with a repeated move, and with
    /// as many roads as there may be.
    both_ways: usize,
    moves: usize,
    full: usize,
}

impl Copied {
    /// Counts a file, with what became of it.
    pub fn file(&mut self, file: &[u8], read: Result<&Plan, &Refusal>) {
        match read {
            Ok(plan) => self.plan(plan),
            Err(Refusal::Doubled { line }) => self.refused(file, *line as usize),
            Err(Refusal::Form { line } | Refusal::Range { line }) => {
                self.otherwise(file, *line as usize)
            }
            Err(_) => {}
        }
    }

    fn plan(&mut self, plan: &Plan) {
        let back = |&(a, b): &Road| a != b && plan.roads.contains(&(b, a));
        self.both_ways += plan.roads.iter().any(back) as usize;
        let repeats = plan.automata().any(|rule| {
            let mut later = 1..rule.moves.len();
            later.any(|i| rule.moves[..i].contains(&rule.moves[i]))
        });
        self.moves += repeats as usize;
        self.full += (plan.roads.len() == MAX_ROADS as usize) as usize;
    }

    fn refused(&mut self, file: &[u8], line: usize) {
        let lines: Vec<&[u8]> = file.split(|&byte| byte == b'\n').collect();
        let copy = lines[line - 1];
        let first = lines.iter().position(|other| *other == copy);
        let distance = line - 1 - first.expect("the road of which it is a copy");
        match distance {
            1 => self.next += 1,
            FAR.. => self.far += 1,
            _ => self.between += 1,
        }
        let stays = loosely(copy).is_some_and(|(a, b)| a == b);
        self.stay += stays as usize;
        let later = copies_behind(&lines, line);
        self.thrice += later.contains(&copy) as usize;
        self.others += later.iter().any(|other| *other != copy) as usize;
        match read_with(file, |_| false) {
            Err(Refusal::Form { .. }) => self.later_form += 1,
            Err(Refusal::Range { .. }) => self.later_range += 1,
            Err(Refusal::TooLarge) => self.large += 1,
            _ => {}
        }
    }

    /// A file with another fault, in this line.
    fn otherwise(&mut self, file: &[u8], line: usize) {
        let lines: Vec<&[u8]> = file.split(|&byte| byte == b'\n').collect();
        self.earlier += !copies_behind(&lines, line).is_empty() as usize;
        let Some(road) = lines.get(line - 1).and_then(|line| loosely(line)) else {
            return;
        };
        let before = &lines[..line - 1];
        let copied = before.iter().any(|line| loosely(line) == Some(road));
        self.loose += copied as usize;
    }

    /// What a run of some length should have met, and how often it did.
    pub fn due(&self) -> [(String, usize); 14] {
        [
            ("a copy on the next line", self.next),
            ("a copy some lines later", self.between),
            ("a copy 1,000 lines later", self.far),
            ("a copy of a road from a place to itself", self.stay),
            ("a road three times", self.thrice),
            ("two roads copied", self.others),
            ("a copy before a fault of form", self.later_form),
            ("a copy before a fault of range", self.later_range),
            ("a copy in a plan with too large an N", self.large),
            ("a copy behind another fault", self.earlier),
            ("a faulty line that is nearly a copy", self.loose),
            ("a plan with both ways of a road", self.both_ways),
            ("a plan with a repeated move", self.moves),
            ("a plan with 1,024 roads", self.full),
        ]
        .map(|(what, count)| (what.into(), count))
    }
}

/// The road lines behind this one, counted from 1, that stand on an earlier line
/// too.
fn copies_behind<'a>(lines: &[&'a [u8]], line: usize) -> Vec<&'a [u8]> {
    let mut met = HashSet::new();
    let mut copies = Vec::new();
    for (at, &road) in lines.iter().enumerate() {
        if road.starts_with(b"road=") && !met.insert(road) && at >= line {
            copies.push(road);
        }
    }
    copies
}

/// The road that one may read in this line who is not strict: its first two
/// numbers, as far as a byte holds them.
fn loosely(line: &[u8]) -> Option<Road> {
    if !line.starts_with(b"ro") {
        return None;
    }
    let mut numbers = line
        .split(|byte| !byte.is_ascii_digit())
        .filter(|digits| !digits.is_empty())
        .map(|digits| {
            digits.iter().fold(0u8, |value, digit| {
                value.wrapping_mul(10).wrapping_add(digit - b'0')
            })
        });
    Some((numbers.next()?, numbers.next()?))
}

impl fmt::Display for Copied {
    fn fmt(&self, f: &mut fmt::Formatter) -> fmt::Result {
        write!(
            f,
            "roads copied to the next line: {}, some lines later: {}, {FAR} or more: {}; \
             from a place to itself: {}, three times: {}, beside others: {}\n\
             copies before a fault of form: {}, of range: {}, in too large a plan: {}, \
             behind a fault: {}, nearly copies: {}\n\
             plans with both ways of a road: {}, with a repeated move: {}, with {MAX_ROADS} roads: {}",
            self.next,
            self.between,
            self.far,
            self.stay,
            self.thrice,
            self.others,
            self.later_form,
            self.later_range,
            self.large,
            self.earlier,
            self.loose,
            self.both_ways,
            self.moves,
            self.full
        )
    }
}
