//! What a comparison has met of `check_tour`, and what it should have met.

use crate::causes::{Cause, CAUSES};
use crate::checker::Worth;
use crate::drawn::KINDS;
use crate::plan::Plan;
use std::collections::BTreeMap;
use std::fmt;

/// The numbers that `check_tour` gives.
const NUMBERS: [u32; 8] = [0, 1, 2, 3, 4, 7, 9, 10];

/// How often each thing was done.
#[derive(Default)]
pub struct Checked {
    /// Calls by the number returned.
    calls: BTreeMap<u32, usize>,
    /// Generated tours by their kind.
    kinds: BTreeMap<&'static str, usize>,
    /// What broke the tours: of all causes at the least index, each.
    causes: BTreeMap<Cause, usize>,
    /// Tours not accepted and accepted; those whose cost is above 0 and below
    /// the sum of the weights.
    accepted: [usize; 2],
    between: usize,
    /// Tours that do not keep some rule that only watches, and tours that keep
    /// one.
    watched: [usize; 2],
    /// Places in all lists, and the most in the two of one call.
    places: usize,
    longest: usize,
}

impl Checked {
    pub fn call(&mut self, number: u32, places: usize) {
        *self.calls.entry(number).or_default() += 1;
        self.places += places;
        self.longest = self.longest.max(places);
    }

    pub fn kind(&mut self, kind: &'static str) {
        *self.kinds.entry(kind).or_default() += 1;
    }

    pub fn causes(&mut self, causes: &[Cause]) {
        for cause in causes {
            *self.causes.entry(*cause).or_default() += 1;
        }
    }

    pub fn worth(&mut self, plan: &Plan, worth: Worth) {
        self.accepted[worth.accepted as usize] += 1;
        self.between += (0 < worth.cost && worth.cost < plan.cost(0)) as usize;
        let watching = plan.watching();
        for (count, kept) in self.watched.iter_mut().zip([!worth.kept, worth.kept]) {
            *count += (watching & kept != 0) as usize;
        }
    }

    /// What a run of some length should have met, and how often it did.
    pub fn due(&self) -> Vec<(String, usize)> {
        let mut all = Vec::new();
        for number in NUMBERS {
            let count = self.calls.get(&number).copied().unwrap_or(0);
            all.push((format!("the number {number} of check_tour"), count));
        }
        for kind in KINDS {
            let count = self.kinds.get(kind).copied().unwrap_or(0);
            all.push((format!("a drawn tour: {kind}"), count));
        }
        for cause in CAUSES {
            let count = self.causes.get(&cause).copied().unwrap_or(0);
            all.push((format!("a drawn tour with {}", cause.name()), count));
        }
        let [not_accepted, accepted] = self.accepted;
        all.push(("a drawn tour accepted".into(), accepted));
        all.push(("a drawn tour not accepted".into(), not_accepted));
        let between = "a drawn tour that costs something but not all";
        all.push((between.into(), self.between));
        let [lost, kept] = self.watched;
        all.push(("a drawn tour that keeps a rule of weight 0".into(), kept));
        let lacking = "a drawn tour that does not keep a rule of weight 0";
        all.push((lacking.into(), lost));
        all
    }
}

impl fmt::Display for Checked {
    fn fmt(&self, f: &mut fmt::Formatter) -> fmt::Result {
        let calls = NUMBERS.map(|number| {
            let count = self.calls.get(&number).copied().unwrap_or(0);
            format!("{count} gave {number}")
        });
        let kinds: Vec<String> = self
            .kinds
            .iter()
            .map(|(kind, count)| format!("{kind} {count}"))
            .collect();
        let causes: Vec<String> = self
            .causes
            .iter()
            .map(|(cause, count)| format!("{} {count}", cause.name()))
            .collect();
        let [not_accepted, accepted] = self.accepted;
        let [lost, kept] = self.watched;
        writeln!(
            f,
            "drawn tours: {}\n\
             broken by: {}\n\
             accepted: {accepted}, not accepted: {not_accepted}; \
             that cost something but not all: {}; \
             that keep a rule of weight 0: {kept}, that do not keep one: {lost}; \
             places: {}, {} at most in one",
            kinds.join(", "),
            causes.join(", "),
            self.between,
            self.places,
            self.longest
        )?;
        write!(f, "calls to check: {}", calls.join(", "))
    }
}
