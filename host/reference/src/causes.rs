//! All that breaks a proposed tour, one cause of 02's note 4 after the other.

use crate::plan::Plan;

#[derive(Clone, Copy, Debug, PartialEq, Eq, PartialOrd, Ord)]
pub enum Cause {
    UnknownPlace,
    WrongStart,
    MissingRoad,
    MissingClosingRoad,
    EmptyLoop,
}

pub const CAUSES: [Cause; 5] = [
    Cause::UnknownPlace,
    Cause::WrongStart,
    Cause::MissingRoad,
    Cause::MissingClosingRoad,
    Cause::EmptyLoop,
];

impl Cause {
    pub fn name(self) -> &'static str {
        match self {
            Cause::UnknownPlace => "an unknown place",
            Cause::WrongStart => "a wrong start",
            Cause::MissingRoad => "a missing road",
            Cause::MissingClosingRoad => "a missing closing road",
            Cause::EmptyLoop => "an empty loop",
        }
    }
}

/// Every index that breaks the tour, each with its cause. To park at a dead end
/// is to have a road; to park elsewhere, or at a number that is no place, is to
/// lack one (02, note 7).
pub fn causes(plan: &Plan, run_in: &[u8], cycle: &[u8]) -> Vec<(u64, Cause)> {
    let mut all = Vec::new();
    let mut add = |index: usize, cause| all.push((index as u64, cause));
    let walk = [run_in, cycle].concat();
    let missing = |from: u8, to: u8| !plan.joined(from, to);
    for (index, &place) in walk.iter().enumerate() {
        if place as usize >= plan.labels.len() {
            add(index, Cause::UnknownPlace);
        }
    }
    if walk.first().is_some_and(|&place| place != plan.start) {
        add(0, Cause::WrongStart);
    }
    for index in 1..walk.len() {
        if missing(walk[index - 1], walk[index]) {
            add(index, Cause::MissingRoad);
        }
    }
    match cycle {
        [] => add(run_in.len(), Cause::EmptyLoop),
        [.., last] if missing(*last, cycle[0]) => add(walk.len(), Cause::MissingClosingRoad),
        _ => {}
    }
    all
}
