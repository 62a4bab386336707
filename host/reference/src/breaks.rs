//! Where a proposed tour breaks (02, note 4).

use crate::plan::{Plan, Road};

/// The least index that breaks the tour: of a first place that is not the
/// start, of a place to which no step leads from the one before, of an empty
/// loop (the run-in's length), of a loop without a step from its end to its
/// beginning (the total length). Nothing if it is a tour of the plan.
///
/// A step is a road, or the stay at a dead end (02, note 7). An unknown place
/// needs no look of its own: it is not the start and no step leads to it. Nor do
/// two empty lists: they lack the start.
pub fn least_break(plan: &Plan, run_in: &[u8], cycle: &[u8]) -> Option<u64> {
    least_break_over(plan, plan.steps(), run_in, cycle)
}

/// The same with other steps in the place of the plan's.
pub fn least_break_over(
    plan: &Plan,
    steps: impl Iterator<Item = Road>,
    run_in: &[u8],
    cycle: &[u8],
) -> Option<u64> {
    if run_in.first().or(cycle.first()) != Some(&plan.start) {
        return Some(0);
    }
    let steps = Steps::new(steps);
    if let Some(index) = steps.first_gap(run_in) {
        return Some(index);
    }
    let before = run_in.len() as u64;
    let (Some(&first), Some(&last)) = (cycle.first(), cycle.last()) else {
        return Some(before);
    };
    if run_in.last().is_some_and(|&from| !steps.join(from, first)) {
        return Some(before);
    }
    if let Some(index) = steps.first_gap(cycle) {
        return Some(before.saturating_add(index));
    }
    let total = before.saturating_add(cycle.len() as u64);
    (!steps.join(last, first)).then_some(total)
}

/// By place, a bit for each byte: whether a step leads to the place of that
/// number. None leads from or to a byte that is no place.
struct Steps([[u64; 4]; 256]);

impl Steps {
    fn new(steps: impl Iterator<Item = Road>) -> Steps {
        let mut bits = [[0; 4]; 256];
        for (from, to) in steps {
            bits[from as usize][to as usize / 64] |= 1 << (to % 64);
        }
        Steps(bits)
    }

    fn join(&self, from: u8, to: u8) -> bool {
        self.0[from as usize][to as usize / 64] >> (to % 64) & 1 == 1
    }

    /// The index of the first place to which no step leads from the one before.
    fn first_gap(&self, places: &[u8]) -> Option<u64> {
        let gap = |pair: &[u8]| !self.join(pair[0], pair[1]);
        let earlier = places.windows(2).position(gap)?;
        Some(earlier as u64 + 1)
    }
}
