//! What a comparison has met, and what it should have met.

use crate::answers::LINES;
use crate::batches::GENERATED;
use crate::checked::Checked;
use crate::copied::Copied;
use crate::entry::NUMBERS;
use crate::parked::Parked;
use crate::plan::Plan;
use crate::shapes::SHAPES;
use crate::texts::FIXED;
use crate::watched::Watched;
use std::collections::BTreeMap;
use std::fmt;

/// From this N on a plan is near the bound.
pub const NEAR: u64 = 1_536;

/// The numbers that `read_answer` gives.
const READ: [u32; 6] = [0, 2, 3, 5, 7, 8];

/// How often each thing was done.
#[derive(Default)]
pub struct Tally {
    /// Calls by the number returned, and cases with such a call.
    pub calls: BTreeMap<u32, usize>,
    pub cases: BTreeMap<u32, usize>,
    /// Plans with a rule that may choose between moves, and plans with a move
    /// line of five numbers.
    pub choices: usize,
    pub fives: usize,
    /// Plans near the bound, by their kind.
    pub near: BTreeMap<String, usize>,
    /// Offsets of upcoming places that were looked at; tours followed step by
    /// step, those with a run-in and those without.
    pub offsets: usize,
    pub followed: [usize; 2],
    pub tours_judged: usize,
    /// Plans all of whose short tours were tried; those among them whose best
    /// tour was short enough to be met; those whose best tours, equal in cost,
    /// keep different rules.
    pub tried: usize,
    pub settled: usize,
    pub tied: usize,
    /// Calls of `read_answer` by the number returned and the faulty line; those
    /// with 5 whose lines contradict each other besides; the texts read, by
    /// their kind; planner's tours and refusals that were printed and read back.
    pub reads: BTreeMap<(u32, u32), usize>,
    pub hidden: usize,
    pub fixed_texts: BTreeMap<String, usize>,
    pub generated_texts: BTreeMap<String, usize>,
    pub read_back: [usize; 2],
    /// Calls that read answer 10, with a line, and calls that refused one with 8
    /// for want of a line, or for another contradiction.
    pub doubled_read: [usize; 3],
    pub checked: Checked,
    pub watched: Watched,
    pub copied: Copied,
    pub parked: Parked,
}

impl Tally {
    /// Counts the calls of one case.
    pub fn case<T>(&mut self, calls: impl FnOnce(&mut Tally) -> T) -> T {
        let before = self.calls.clone();
        let result = calls(self);
        for (number, count) in &self.calls {
            if before.get(number) != Some(count) {
                *self.cases.entry(*number).or_default() += 1;
            }
        }
        result
    }

    /// Counts a call of `plan_tour`.
    pub fn call(&mut self, number: u32) {
        *self.calls.entry(number).or_default() += 1;
    }

    pub fn plan(&mut self, kind: &str, plan: &Plan) {
        if plan.automata().any(|rule| rule.chooses()) {
            self.choices += 1;
        }
        if plan.fives() > 0 {
            self.fives += 1;
        }
        self.watched.plan(plan);
        self.parked.plan(plan);
        if plan.size() >= NEAR {
            *self.near.entry(kind.into()).or_default() += 1;
        }
    }

    pub fn read(&mut self, number: u32, line: u32) {
        *self.reads.entry((number, line)).or_default() += 1;
    }

    pub fn fixed_text(&mut self, kind: &str) {
        *self.fixed_texts.entry(kind.into()).or_default() += 1;
    }

    pub fn generated_text(&mut self, kind: &str) {
        *self.generated_texts.entry(kind.into()).or_default() += 1;
    }

    /// Calls of `read_answer` with this number.
    fn read_with(&self, number: u32) -> usize {
        let rows = self.reads.iter().filter(|((given, _), _)| *given == number);
        rows.map(|(_, count)| count).sum()
    }

    /// What a run of some length should have met of `read_answer`.
    fn reading(&self) -> Vec<(String, usize)> {
        let mut all = Vec::new();
        for number in READ {
            let what = format!("the number {number} of read_answer");
            all.push((what, self.read_with(number)));
        }
        let lines = LINES.len() as u32;
        let form = (1..=lines + 1).map(|line| (2, line));
        let range = (1..=lines).map(|line| (3, line));
        for (number, line) in form.chain(range) {
            let count = self.reads.get(&(number, line)).copied().unwrap_or(0);
            let what = format!("the number {number} of read_answer for line {line}");
            all.push((what, count));
        }
        all.push(("a contradiction behind 5".into(), self.hidden));
        for kind in FIXED {
            let count = self.fixed_texts.get(kind).copied().unwrap_or(0);
            all.push((format!("a fixed text: {kind}"), count));
        }
        for (kind, _) in GENERATED {
            let count = self.generated_texts.get(kind).copied().unwrap_or(0);
            all.push((format!("a generated text: {kind}"), count));
        }
        for (what, count) in ["tour", "refusal"].into_iter().zip(self.read_back) {
            all.push((format!("a planner's {what} read back"), count));
        }
        let doubled = ["read", "refused without a line", "refused with a line"];
        for (what, count) in doubled.into_iter().zip(self.doubled_read) {
            all.push((format!("a text with answer 10, {what}"), count));
        }
        all
    }

    /// What a run of some length should have met and has not.
    pub fn lacks(&self) -> Vec<String> {
        let count = |number| self.calls.get(number).copied().unwrap_or(0);
        let numbers = NUMBERS.iter();
        let numbers = numbers.map(|number| (format!("the number {number}"), count(number)));
        let shapes = SHAPES.iter().map(|shape| {
            let count = self.near.get(shape.name()).copied().unwrap_or(0);
            (format!("shape {} near the bound", shape.name()), count)
        });
        let others = [
            ("a rule with a choice".into(), self.choices),
            ("a move line of five numbers".into(), self.fives),
            ("a tie".into(), self.tied),
            ("a plan settled by its short tours".into(), self.settled),
            ("a tour with a run-in".into(), self.followed[0]),
            ("a tour without a run-in".into(), self.followed[1]),
        ];
        let planning = numbers.chain(shapes).chain(others);
        let planning = planning.chain(self.watched.due()).chain(self.copied.due());
        let planning = planning.chain(self.parked.due());
        let all = planning.chain(self.reading()).chain(self.checked.due());
        all.filter(|(_, count)| *count == 0)
            .map(|(what, _)| what)
            .collect()
    }
}

impl fmt::Display for Tally {
    fn fmt(&self, f: &mut fmt::Formatter) -> fmt::Result {
        let mut row = |name: &str, value: &dyn Fn(u32) -> usize| {
            write!(f, "{name:6}")?;
            for number in NUMBERS {
                write!(f, " {:>7}", value(number))?;
            }
            writeln!(f)
        };
        let in_map = |map: &BTreeMap<u32, usize>, number| map.get(&number).copied().unwrap_or(0);
        row("number", &|number| number as usize)?;
        row("cases", &|number| in_map(&self.cases, number))?;
        row("calls", &|number| in_map(&self.calls, number))?;
        writeln!(
            f,
            "plans with a choice of moves: {}; with a move line of five numbers: {}",
            self.choices, self.fives
        )?;
        writeln!(f, "{}", self.watched)?;
        writeln!(f, "{}", self.copied)?;
        writeln!(f, "{}", self.parked)?;
        let near: Vec<String> = self
            .near
            .iter()
            .map(|(kind, count)| format!("{kind} {count}"))
            .collect();
        writeln!(f, "plans with N from {NEAR} on: {}", near.join(", "))?;
        writeln!(
            f,
            "offsets of upcoming places: {}; tours followed: {} with a run-in, {} without",
            self.offsets, self.followed[0], self.followed[1]
        )?;
        let numbers = READ.map(|number| format!("{} gave {number}", self.read_with(number)));
        let sum = |texts: &BTreeMap<String, usize>| texts.values().sum::<usize>();
        writeln!(
            f,
            "texts read: {} fixed, {} generated; planner's answers read back: {} tours, {} refusals\n\
             calls to read: {}; answer 10 read {}, refused without a line {}, with one {}",
            sum(&self.fixed_texts),
            sum(&self.generated_texts),
            self.read_back[0],
            self.read_back[1],
            numbers.join(", "),
            self.doubled_read[0],
            self.doubled_read[1],
            self.doubled_read[2]
        )?;
        writeln!(f, "{}", self.checked)?;
        write!(
            f,
            "tours judged: {}; plans all of whose short tours were tried: {}, \
             settled by them {}, with a tie {}",
            self.tours_judged, self.tried, self.settled, self.tied
        )
    }
}
