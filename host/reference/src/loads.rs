//! Tours to time the checker with.

use crate::figures::{soft, x};
use crate::handmade::{one_place, two_places};
use crate::maps::{all_roads, once_each, round_and_more};
use crate::plan::{Automaton, Plan, MAX_MOVES, MAX_PLACES, MAX_ROADS};
use crate::random::Random;
use crate::rules::{always, chance, counter, full, go_any};
use crate::walks::Ways;
use std::cmp::Reverse;

pub struct Load {
    pub name: &'static str,
    pub file: Vec<u8>,
    pub run_in: Vec<u8>,
    pub cycle: Vec<u8>,
}

/// Long lists in three lengths, to show that time goes with them, and the least
/// tours, to show what the plan itself takes.
pub fn loads() -> Vec<Load> {
    let mut all = Vec::new();
    let lengths = [10_000, 100_000, 1_000_000];
    let long: [(&str, Plan, bool); 6] = [
        ("3 x 8 states, all moves", soft_eights(full(8, 0x80)), false),
        ("the same in the run-in", soft_eights(full(8, 0x80)), true),
        (
            "3 x 8 states, one move each",
            soft_eights(counter(8, 0)),
            false,
        ),
        ("the same in the run-in", soft_eights(counter(8, 0)), true),
        (
            "16 hard states, 64 moves",
            wide(chance(&mut Random::new(1), 16, 4, 64)),
            false,
        ),
        ("16 hard states, one move each", wide(counter(16, 0)), false),
    ];
    for (name, plan, in_run_in) in long {
        for length in lengths {
            let mut run_in = walk_home(&plan, length);
            let cycle = match in_run_in {
                true => vec![plan.start],
                false => std::mem::take(&mut run_in),
            };
            let file = plan.text().into_bytes();
            all.push(Load {
                name,
                file,
                run_in,
                cycle,
            });
        }
    }
    let least = [
        ("least tour, least plan", one_place(always(), Vec::new())),
        ("least tour, plan X", x()),
        ("least tour, longest plan", longest()),
    ];
    for (name, plan) in least {
        let file = plan.text().into_bytes();
        let ways = Ways::of(&plan);
        let places = 0..plan.labels.len() as u8;
        let back = |&place: &u8| ways.join(plan.start, place) && ways.join(place, plan.start);
        let turn = places.filter(back).take(1);
        let cycle = [plan.start].into_iter().chain(turn).collect();
        all.push(Load {
            name,
            file,
            run_in: Vec::new(),
            cycle,
        });
    }
    all
}

/// Two places with all roads, and three soft rules.
fn soft_eights(rule: Automaton) -> Plan {
    two_places((1..=3).map(|weight| soft(weight, rule.clone())).collect())
}

/// All places that there may be, and no soft rule; a road leads from the start
/// to itself and from each place to the start.
fn wide(hard: Automaton) -> Plan {
    let places = MAX_PLACES as usize;
    let mut roads = round_and_more(&mut Random::new(2), places, 6 * places);
    roads.extend((0..places as u8).map(|place| (place, 0)));
    Plan {
        marks: 4,
        labels: (0..places as u8).map(|place| place % 16).collect(),
        start: 0,
        roads: once_each(roads),
        hard,
        soft: Vec::new(),
    }
}

/// About as many bytes as a plan that is not refused can have.
fn longest() -> Plan {
    // All but one of the moves fit no label.
    let mut moves = vec![go_any(0, 255, 255, 255, 0); MAX_MOVES as usize - 1];
    moves.push(go_any(0, 0, 0, 255, 0));
    let rule = Automaton { moves, ..always() };
    let places = MAX_PLACES as usize;
    let last = places as u8 - 1;
    // The roads with the longest lines, in some order.
    let mut roads = all_roads(places);
    let digits = |place: u8| place.to_string().len();
    roads.sort_by_key(|&(from, to)| Reverse(digits(from) + digits(to)));
    roads.truncate(MAX_ROADS as usize);
    Random::new(3).shuffle(&mut roads);
    Plan {
        marks: 8,
        labels: (0..places as u8).map(|place| 128 + place).collect(),
        start: last,
        roads,
        hard: rule.clone(),
        soft: vec![soft(4_000_000, rule); 4],
    }
}

/// A walk of so many places whose last one has a road to the start.
fn walk_home(plan: &Plan, places: usize) -> Vec<u8> {
    let ways = Ways::of(plan);
    let walk = ways.walk(&mut Random::new(places as u64), places);
    assert!(walk.len() == places && ways.join(walk[places - 1], plan.start));
    walk
}
