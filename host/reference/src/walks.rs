//! Walks of a plan's map by chance, and where they may be closed to tours.

use crate::plan::Plan;
use crate::random::Random;
use std::collections::VecDeque;

/// A run-in and a loop.
pub type Lists = (Vec<u8>, Vec<u8>);

/// The map: where its walks begin, which places may follow each, and at which a
/// car parks.
pub struct Ways {
    start: u8,
    out: Vec<Vec<u8>>,
    dead_ends: u128,
}

impl Ways {
    pub fn of(plan: &Plan) -> Ways {
        let mut out = vec![Vec::new(); plan.labels.len()];
        for (from, to) in plan.steps() {
            out[from as usize].push(to);
        }
        Ways {
            start: plan.start,
            out,
            dead_ends: plan.dead_ends(),
        }
    }

    /// How many places there are.
    pub fn places(&self) -> usize {
        self.out.len()
    }

    pub fn start(&self) -> u8 {
        self.start
    }

    pub fn join(&self, from: u8, to: u8) -> bool {
        self.out[from as usize].contains(&to)
    }

    /// Whether a car parks at this place of the map.
    pub fn parks(&self, place: u8) -> bool {
        self.dead_ends >> place & 1 == 1
    }

    /// A walk from the start of so many places, one at least.
    pub fn walk(&self, random: &mut Random, places: usize) -> Vec<u8> {
        let mut walk = vec![self.start];
        while walk.len() < places {
            let out = &self.out[walk[walk.len() - 1] as usize];
            walk.push(*random.pick(out));
        }
        walk
    }

    /// By place, the place from which a search from the start first met it; the
    /// start was met from itself.
    fn met_from(&self) -> Vec<Option<u8>> {
        let mut from = vec![None; self.places()];
        from[self.start as usize] = Some(self.start);
        let mut queue = VecDeque::from([self.start]);
        while let Some(place) = queue.pop_front() {
            for &to in &self.out[place as usize] {
                if from[to as usize].is_none() {
                    from[to as usize] = Some(place);
                    queue.push_back(to);
                }
            }
        }
        from
    }

    /// The dead ends to which some way leads from the start.
    pub fn dead_ends_reached(&self) -> Vec<u8> {
        let from = self.met_from();
        let reached = |&place: &u8| self.parks(place) && from[place as usize].is_some();
        (0..self.places() as u8).filter(reached).collect()
    }

    /// A shortest way from the start to this place, if there is one, both ends
    /// included.
    pub fn way_to(&self, place: u8) -> Option<Vec<u8>> {
        let from = self.met_from();
        let mut way = vec![place];
        let mut here = place;
        while here != self.start {
            here = from[here as usize]?;
            way.push(here);
        }
        way.reverse();
        Some(way)
    }

    /// The walk as a tour, its loop beginning where the walk's last place leads
    /// to.
    pub fn closed(&self, walk: &[u8], random: &mut Random) -> Option<Lists> {
        self.split(walk, random, true)
    }

    /// The walk as a run-in and a loop that does not close.
    pub fn open(&self, walk: &[u8], random: &mut Random) -> Option<Lists> {
        self.split(walk, random, false)
    }

    fn split(&self, walk: &[u8], random: &mut Random, closed: bool) -> Option<Lists> {
        let last = *walk.last()?;
        let splits: Vec<usize> = (0..walk.len())
            .filter(|&i| self.join(last, walk[i]) == closed)
            .collect();
        if splits.is_empty() {
            return None;
        }
        let (run_in, cycle) = walk.split_at(*random.pick(&splits));
        Some((run_in.to_vec(), cycle.to_vec()))
    }
}
