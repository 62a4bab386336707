//! A plan as numbers: what a plan file says once it has been read.

use std::fmt::Write;

pub const MAX_PLAN_BYTES: usize = 60_000;
pub const MAX_MARKS: u64 = 8;
pub const MAX_PLACES: u64 = 128;
pub const MAX_ROADS: u64 = 1_024;
pub const MAX_HARD_STATES: u64 = 16;
pub const MAX_SOFT_STATES: u64 = 8;
pub const MAX_MOVES: u64 = 64;
pub const MAX_RULES: u64 = 8;
pub const MAX_WEIGHT: u64 = 4_000_000;
pub const MAX_SIZE: u64 = 2_048;

/// One line `road=A,B`: one-way, from the first place to the second.
pub type Road = (u8, u8);

/// One line `move=q,need,bar,r`, or `move=q,need,bar,any,r` (02, note 1).
#[derive(Clone, Copy, Debug, PartialEq, Eq)]
pub struct Move {
    pub from: u8,
    pub need: u8,
    pub bar: u8,
    /// Nothing for a line of four numbers, which means the same as 0.
    pub any: Option<u8>,
    pub to: u8,
}

impl Move {
    /// Whether the move may be taken under this label. Whoever asks that asks
    /// here.
    pub fn fits(&self, label: u8) -> bool {
        let any = self.any.unwrap_or(0);
        label & self.need == self.need && label & self.bar == 0 && (any == 0 || label & any != 0)
    }
}

/// An automaton as its block gives it, without a ditch.
#[derive(Clone, Debug, PartialEq, Eq)]
pub struct Automaton {
    pub states: u8,
    pub first: u8,
    pub accept: u16,
    pub moves: Vec<Move>,
}

impl Automaton {
    pub fn accepts(&self, state: u8) -> bool {
        self.accept >> state & 1 == 1
    }

    /// Whether some state has moves to two states under one label.
    pub fn chooses(&self) -> bool {
        (0..=u8::MAX).any(|label| {
            let mut target = [None; MAX_HARD_STATES as usize];
            let mut fitting = self.moves.iter().filter(|m| m.fits(label));
            fitting.any(|m| {
                let earlier = target[m.from as usize].replace(m.to);
                earlier.is_some_and(|to| to != m.to)
            })
        })
    }
}

#[derive(Clone, Debug, PartialEq, Eq)]
pub struct Soft {
    /// With 0 the rule only watches (02, note 5).
    pub weight: u32,
    pub rule: Automaton,
}

#[derive(Clone, Debug, PartialEq, Eq)]
pub struct Plan {
    pub marks: u8,
    /// One label for each place.
    pub labels: Vec<u8>,
    pub start: u8,
    /// No road stands here twice in a plan that was read (02, note 6).
    pub roads: Vec<Road>,
    pub hard: Automaton,
    pub soft: Vec<Soft>,
}

impl Plan {
    /// The hard automaton, then the soft ones.
    pub fn automata(&self) -> impl Iterator<Item = &Automaton> {
        [&self.hard]
            .into_iter()
            .chain(self.soft.iter().map(|soft| &soft.rule))
    }

    pub fn automata_mut(&mut self) -> impl Iterator<Item = &mut Automaton> {
        [&mut self.hard]
            .into_iter()
            .chain(self.soft.iter_mut().map(|soft| &mut soft.rule))
    }

    /// How many of the move lines have five numbers.
    pub fn fives(&self) -> usize {
        let moves = self.automata().flat_map(|rule| &rule.moves);
        moves.filter(|m| m.any.is_some()).count()
    }

    /// The soft rules that only watch, a bit for each as in kept.
    pub fn watching(&self) -> u8 {
        let rules = self.soft.iter().enumerate();
        rules.fold(0, |all, (i, soft)| all | ((soft.weight == 0) as u8) << i)
    }

    /// The soft rules that weigh something.
    pub fn weighing(&self) -> u8 {
        let all = (1u16 << self.soft.len()) - 1;
        all as u8 & !self.watching()
    }

    /// N: the places times the hard states times, for each soft rule, its
    /// states and the ditch.
    pub fn size(&self) -> u64 {
        let ground = self.labels.len() as u64 * self.hard.states as u64;
        self.soft
            .iter()
            .fold(ground, |n, soft| n * (soft.rule.states as u64 + 1))
    }

    /// How many places the planner's own loop may have.
    pub fn cycle_bound(&self) -> u64 {
        (self.soft.len() as u64 + 2) * self.size()
    }

    /// The weights of the soft rules that `kept` lacks.
    pub fn cost(&self, kept: u8) -> u32 {
        let lost = |&(i, _): &(usize, &Soft)| kept >> i & 1 == 0;
        self.soft
            .iter()
            .enumerate()
            .filter(lost)
            .map(|(_, soft)| soft.weight)
            .sum()
    }

    /// Whether a tour keeping `one` is better than a tour keeping `other`. At
    /// equal cost the first rule that differs decides, whatever it weighs.
    pub fn better(&self, one: u8, other: u8) -> bool {
        let (cost, other_cost) = (self.cost(one), self.cost(other));
        if cost != other_cost {
            return cost < other_cost;
        }
        let differ = one ^ other;
        let lowest = differ & differ.wrapping_neg();
        one & lowest != 0
    }

    /// The places at which a car parks (02, note 7): those that no road leaves, a
    /// bit for each. A road from a place to itself leaves it as any other does.
    pub fn dead_ends(&self) -> u128 {
        let places = (0..self.labels.len()).fold(0, |all, place| all | 1 << place);
        let left = |ends: u128, &(from, _): &Road| ends & !(1 << from);
        self.roads.iter().fold(places, left)
    }

    /// Whether this is a place, and one at which a car parks.
    pub fn parks(&self, place: u8) -> bool {
        (place as usize) < self.labels.len() && self.dead_ends() >> place & 1 == 1
    }

    /// Whether the one place may follow the other on a tour: by a road, or as a
    /// car that parks stays where it is. Whoever asks that asks here, or goes
    /// through all the steps.
    pub fn joined(&self, from: u8, to: u8) -> bool {
        self.roads.contains(&(from, to)) || from == to && self.parks(from)
    }

    /// All pairs of places that are joined: the roads as they stand in the file,
    /// then each dead end with itself.
    pub fn steps(&self) -> impl Iterator<Item = Road> + '_ {
        let ends = self.dead_ends();
        let places = 0..self.labels.len() as u8;
        let parked = places.filter(move |place| ends >> place & 1 == 1);
        let parked = parked.map(|place| (place, place));
        self.roads.iter().copied().chain(parked)
    }

    /// The line of the file, from 1, that has the road with this index.
    pub fn road_line(&self, index: usize) -> usize {
        // Before it: tour, marks, places, the labels, start, roads.
        3 + self.labels.len() + 2 + index + 1
    }

    /// The plan file of this plan.
    pub fn text(&self) -> String {
        let mut text = String::new();
        let line = &mut text;
        put(line, "tour", &[1]);
        put(line, "marks", &[self.marks as u32]);
        put(line, "places", &[self.labels.len() as u32]);
        for &label in &self.labels {
            put(line, "label", &[label as u32]);
        }
        put(line, "start", &[self.start as u32]);
        put(line, "roads", &[self.roads.len() as u32]);
        for &(from, to) in &self.roads {
            put(line, "road", &[from as u32, to as u32]);
        }
        put(line, "hard", &[self.hard.states as u32]);
        put_body(line, &self.hard);
        put(line, "rules", &[self.soft.len() as u32]);
        for soft in &self.soft {
            put(line, "soft", &[soft.rule.states as u32]);
            put(line, "weight", &[soft.weight]);
            put_body(line, &soft.rule);
        }
        text
    }
}

fn put_body(text: &mut String, rule: &Automaton) {
    put(text, "first", &[rule.first as u32]);
    put(text, "accept", &[rule.accept as u32]);
    put(text, "moves", &[rule.moves.len() as u32]);
    for m in &rule.moves {
        let guard = [m.from, m.need, m.bar];
        let values: Vec<u32> = guard
            .into_iter()
            .chain(m.any)
            .chain([m.to])
            .map(u32::from)
            .collect();
        put(text, "move", &values);
    }
}

fn put(text: &mut String, key: &str, values: &[u32]) {
    let values: Vec<String> = values.iter().map(u32::to_string).collect();
    writeln!(text, "{key}={}", values.join(",")).expect("a string takes every line");
}
