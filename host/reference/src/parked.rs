//! What a comparison has met of dead ends, at which a car parks (02, note 7), and
//! what it should have met.

use crate::plan::{Plan, MAX_PLACES};
use crate::planner::best_tour_over;
use crate::tally::NEAR;
use crate::walks::Ways;
use std::fmt;

/// How often each thing was met.
#[derive(Default)]
pub struct Parked {
    /// Plans without a road; those with roads whose start is a dead end; those
    /// with another one that is reached; those with one that is not reached.
    bare: usize,
    start: usize,
    reached: usize,
    unreached: usize,
    /// Tours answered that park at the start, and ones that park elsewhere; those
    /// in plans near the bound, and those at a place in the upper half of the
    /// numbers; those that drive on though a dead end is reached.
    at_the_start: usize,
    elsewhere: usize,
    large: usize,
    high: usize,
    driving: usize,
    /// Answers without a tour, though a dead end is reached, or there is one and
    /// none is reached.
    none: usize,
    none_reached: usize,
    /// Plans to which parking alone gives a tour, or a better one; plans to which
    /// parking at places with a road out would give a tour, or a better one.
    given: usize,
    bettered: usize,
    barred: usize,
    barred_better: usize,
    /// Proposed tours that park in the loop alone, and in the run-in too; those
    /// that park and that the hard rule does not accept.
    in_loop: usize,
    in_both: usize,
    refused: usize,
    /// Proposed tours that break where they park at a place with a road out: in
    /// the run-in, from there to the loop, in the loop, and as its closing road;
    /// those that break at a dead end that is left; those that break at a number
    /// that is no place and is repeated.
    wrong: [usize; 4],
    left: usize,
    unknown: usize,
}

impl Parked {
    pub fn plan(&mut self, plan: &Plan) {
        if plan.dead_ends() == 0 {
            return;
        }
        self.bare += plan.roads.is_empty() as usize;
        self.start += (plan.parks(plan.start) && !plan.roads.is_empty()) as usize;
        let reached = reached(plan);
        self.reached += (reached & !(1 << plan.start) != 0) as usize;
        self.unreached += (reached != plan.dead_ends()) as usize;
    }

    /// A call answered with this tour.
    pub fn tour(&mut self, plan: &Plan, cycle: &[u8]) {
        let Some(&last) = cycle.last() else {
            return;
        };
        if !plan.parks(last) {
            self.driving += (plan.dead_ends() != 0 && reached(plan) != 0) as usize;
            return;
        }
        match last == plan.start {
            true => self.at_the_start += 1,
            false => self.elsewhere += 1,
        }
        self.large += (plan.size() >= NEAR) as usize;
        self.high += (last as u64 >= MAX_PLACES / 2) as usize;
    }

    /// A call answered that there is no tour.
    pub fn no_tour(&mut self, plan: &Plan) {
        if plan.dead_ends() != 0 {
            match reached(plan) {
                0 => self.none_reached += 1,
                _ => self.none += 1,
            }
        }
    }

    /// The best tour of a plan that is not too large keeps so much, if there is
    /// one.
    pub fn best(&mut self, plan: &Plan, kept: Option<u8>) {
        let kept_over = |steps: &mut dyn Iterator<Item = _>| {
            let best = best_tour_over(plan, steps);
            best.map(|(_, kept)| kept)
        };
        if plan.dead_ends() != 0 {
            match (kept, kept_over(&mut plan.roads.iter().copied())) {
                (Some(_), None) => self.given += 1,
                (Some(own), Some(other)) => self.bettered += plan.better(own, other) as usize,
                _ => {}
            }
        }
        let places = 0..plan.labels.len() as u8;
        let everywhere = places.map(|place| (place, place));
        match (kept, kept_over(&mut plan.steps().chain(everywhere))) {
            (None, Some(_)) => self.barred += 1,
            (Some(own), Some(other)) => self.barred_better += plan.better(other, own) as usize,
            _ => {}
        }
    }

    /// A proposed tour is one, and accepted or not.
    pub fn drawn(&mut self, plan: &Plan, run_in: &[u8], cycle: &[u8], accepted: bool) {
        let last = cycle[cycle.len() - 1];
        if plan.parks(last) {
            match run_in.last() == Some(&last) {
                true => self.in_both += 1,
                false => self.in_loop += 1,
            }
            self.refused += !accepted as usize;
        }
    }

    /// A proposed tour breaks at this index.
    pub fn broken(&mut self, plan: &Plan, run_in: &[u8], cycle: &[u8], index: u64) {
        let (index, before) = (index as usize, run_in.len());
        let total = before + cycle.len();
        if cycle.is_empty() && index >= total {
            return;
        }
        let at = |index: usize| match index.checked_sub(before) {
            None => run_in[index],
            Some(index) => cycle[index % cycle.len()],
        };
        let known = |place: u8| (place as usize) < plan.labels.len();
        let place = at(index);
        if index < total && !known(place) {
            let next = index + 1;
            let repeated = (next < total || !cycle.is_empty()) && at(next) == place;
            self.unknown += repeated as usize;
            return;
        }
        // What stands before the place; before the loop's first, once it is to be
        // closed, its last.
        let Some(earlier) = index.checked_sub(1) else {
            return;
        };
        let from = at(earlier);
        if from != place {
            self.left += plan.parks(from) as usize;
            return;
        }
        let way = match index {
            _ if index < before => 0,
            _ if index == total => 3,
            _ if index == before => 1,
            _ => 2,
        };
        self.wrong[way] += 1;
    }

    /// What a run of some length should have met, and how often it did.
    pub fn due(&self) -> [(String, usize); 24] {
        let [in_run_in, to_loop, in_loop, closing] = self.wrong;
        [
            ("a plan without roads", self.bare),
            ("a start that is a dead end beside roads", self.start),
            ("a dead end that is reached", self.reached),
            ("a dead end that is not reached", self.unreached),
            ("a tour that parks at the start", self.at_the_start),
            ("a tour that drives and parks", self.elsewhere),
            ("a tour that parks in a plan near the bound", self.large),
            ("a tour that parks at place 64 or a later one", self.high),
            ("a tour that drives on and might park", self.driving),
            ("no tour though a dead end is reached", self.none),
            ("no tour and a dead end not reached", self.none_reached),
            ("a plan to which parking alone gives a tour", self.given),
            ("a plan to which parking gives a better tour", self.bettered),
            ("a plan that wants parking at a road out", self.barred),
            (
                "a plan that is worse without parking at a road out",
                self.barred_better,
            ),
            ("a proposed tour that parks in its loop", self.in_loop),
            ("a proposed tour that parks in both parts", self.in_both),
            ("a proposed tour that parks, not accepted", self.refused),
            ("wrong parking in a run-in", in_run_in),
            ("wrong parking between run-in and loop", to_loop),
            ("wrong parking in a loop", in_loop),
            ("wrong parking to close a loop", closing),
            ("a proposed tour that leaves a dead end", self.left),
            ("parking at a number that is no place", self.unknown),
        ]
        .map(|(what, count)| (what.into(), count))
    }
}

/// The dead ends to which some way leads from the start, a bit for each.
fn reached(plan: &Plan) -> u128 {
    let ends = Ways::of(plan).dead_ends_reached();
    ends.iter().fold(0, |all, end| all | 1 << end)
}

impl fmt::Display for Parked {
    fn fmt(&self, f: &mut fmt::Formatter) -> fmt::Result {
        let [in_run_in, to_loop, in_loop, closing] = self.wrong;
        write!(
            f,
            "plans without roads: {}, with a start that is a dead end beside roads: {}, \
             with a dead end reached: {}, not reached: {}\n\
             tours that park at the start: {}, elsewhere: {}, near the bound: {}, \
             at place 64 or later: {}; that drive on and might park: {}; \
             no tour though a dead end is reached: {}, with one not reached: {}\n\
             plans to which parking alone gives a tour: {}, a better one: {}; \
             parking at a road out would give one: {}, a better one: {}\n\
             proposed tours that park in the loop: {}, in both parts: {}, not accepted: {}; \
             that park wrongly in the run-in: {in_run_in}, between the parts: {to_loop}, \
             in the loop: {in_loop}, to close it: {closing}; that leave a dead end: {}; \
             that park at no place: {}",
            self.bare,
            self.start,
            self.reached,
            self.unreached,
            self.at_the_start,
            self.elsewhere,
            self.large,
            self.high,
            self.driving,
            self.none,
            self.none_reached,
            self.given,
            self.bettered,
            self.barred,
            self.barred_better,
            self.in_loop,
            self.in_both,
            self.refused,
            self.left,
            self.unknown
        )
    }
}
