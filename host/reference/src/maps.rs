//! Places, labels and roads for generated plans.

use crate::handmade::one_place;
use crate::plan::{Automaton, Plan, Road, Soft, MAX_PLACES, MAX_ROADS};
use crate::random::Random;
use std::collections::HashSet;

/// How many places keep N within `size` with these automata.
pub fn places_within(size: u64, hard: &Automaton, soft: &[Soft]) -> usize {
    let one = one_place(hard.clone(), soft.to_vec());
    (size / one.size()).clamp(1, MAX_PLACES) as usize
}

pub fn labels(random: &mut Random, places: usize, marks: u8) -> Vec<u8> {
    // Two chances at each bit, so that marks are rarer than not.
    (0..places)
        .map(|_| random.byte() & random.byte() & ((1u32 << marks) - 1) as u8)
        .collect()
}

/// A road from each place to the next, from `first` to below `end`.
pub fn row(first: usize, end: usize) -> Vec<Road> {
    (first + 1..end)
        .map(|to| (to as u8 - 1, to as u8))
        .collect()
}

pub fn all_roads(places: usize) -> Vec<Road> {
    let from_all = |from| (0..places as u8).map(move |to| (from, to));
    (0..places as u8).flat_map(from_all).collect()
}

/// Roads by chance, in which one may well stand twice.
pub fn chance_roads(random: &mut Random, places: usize, count: usize) -> Vec<Road> {
    let mut road = || (random.below(places) as u8, random.below(places) as u8);
    (0..count.min(MAX_ROADS as usize)).map(|_| road()).collect()
}

/// A row that closes on itself.
pub fn ring(places: usize) -> Vec<Road> {
    [row(0, places), vec![(places as u8 - 1, 0)]].concat()
}

/// A ring through all places in some order, and roads by chance, in which one
/// may well stand twice.
pub fn round_and_more(random: &mut Random, places: usize, more: usize) -> Vec<Road> {
    let mut order: Vec<u8> = (0..places as u8).collect();
    random.shuffle(&mut order);
    let name = |(a, b): Road| (order[a as usize], order[b as usize]);
    let round = ring(places).into_iter().map(name).collect();
    [round, chance_roads(random, places, more)].concat()
}

/// Each of the roads once, where it first stands: a plan that has one twice is
/// turned away (02, note 6).
pub fn once_each(mut roads: Vec<Road>) -> Vec<Road> {
    let mut met = HashSet::new();
    roads.retain(|&road| met.insert(road));
    roads
}

/// A plan with these rules and as many places as keep N within `size`: its start
/// and labels by chance, its roads in some order, each once and as many as there
/// may be.
pub fn build(
    random: &mut Random,
    size: u64,
    marks: u8,
    hard: Automaton,
    soft: Vec<Soft>,
    roads: impl Fn(&mut Random, usize) -> Vec<Road>,
) -> Plan {
    let places = places_within(size, &hard, &soft);
    let mut roads = roads(random, places);
    random.shuffle(&mut roads);
    roads.truncate(MAX_ROADS as usize);
    let start = random.below(places) as u8;
    Plan {
        marks,
        labels: labels(random, places, marks),
        start,
        roads: once_each(roads),
        hard,
        soft,
    }
}
