//! Tours found without any planning: all short ones, and some chance ones.

use crate::plan::Plan;
use crate::random::Random;
use crate::tour::judge;
use crate::walks::Ways;

/// The best of all tours up to some number of places.
#[derive(Default)]
pub struct Search {
    /// Every tour with at most so many places, run-in and loop together, was
    /// judged.
    pub places: usize,
    /// What the best one keeps, if the hard rule accepts any.
    pub kept: Option<u8>,
    /// All that tours of the same cost keep, each byte once.
    pub least: Vec<u8>,
    pub judged: usize,
}

/// Judges all tours of one place, of two, and so on, while the walks of one
/// length are at most `walks` in number.
pub fn all_short_tours(plan: &Plan, walks: usize, most_places: usize) -> Search {
    let mut search = Search::default();
    let mut front = vec![vec![plan.start]];
    while front.len() <= walks && search.places < most_places {
        for walk in &front {
            for split in 0..walk.len() {
                search.consider(plan, &walk[..split], &walk[split..]);
            }
        }
        search.places += 1;
        front = front.iter().flat_map(|walk| longer(plan, walk)).collect();
    }
    search
}

/// The walk with one place more, in every way; there is always one.
fn longer(plan: &Plan, walk: &[u8]) -> Vec<Vec<u8>> {
    let here = walk[walk.len() - 1];
    let places = 0..plan.labels.len() as u8;
    let ways = places.filter(|&to| plan.joined(here, to));
    ways.map(|to| [walk, &[to]].concat()).collect()
}

/// Judges tours made of chance walks from the start, closed where they can be.
pub fn chance_tours(plan: &Plan, random: &mut Random, walks: usize, most_places: usize) -> Search {
    let mut search = Search::default();
    let ways = Ways::of(plan);
    for _ in 0..walks {
        let length = random.between(1, most_places);
        let walk = ways.walk(random, length);
        if let Some((run_in, cycle)) = ways.closed(&walk, random) {
            search.consider(plan, &run_in, &cycle);
        }
    }
    search
}

impl Search {
    fn consider(&mut self, plan: &Plan, run_in: &[u8], cycle: &[u8]) {
        let verdict = judge(plan, run_in, cycle);
        if !verdict.is_tour {
            return;
        }
        self.judged += 1;
        if !verdict.hard {
            return;
        }
        match self.kept.map(|held| plan.cost(held)) {
            Some(cost) if cost < verdict.cost => return,
            Some(cost) if cost == verdict.cost => {}
            _ => self.least.clear(),
        }
        if !self.least.contains(&verdict.kept) {
            self.least.push(verdict.kept);
        }
        if self.kept.is_none_or(|held| plan.better(verdict.kept, held)) {
            self.kept = Some(verdict.kept);
        }
    }
}
